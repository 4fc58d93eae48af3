"""What a server tells a debugger of the variables of a runtime."""

import ctypes
import traceback
from dataclasses import dataclass
from typing import Any, Callable, Iterable, Mapping, Protocol, Sequence, Union

from . import _api as api
from ._api import Code
from ._values import Error


@dataclass(frozen=True)
class Variable:
    """A variable of a method, which is visible at `count` locations from `first` on."""

    slot: int
    name: str
    first: int
    count: int


# None is nil, a list the entries of a table, such as "key = value". An int of more than 64 bits is told as a text.
Value = Union[None, bool, int, float, str, bytes, Sequence[Union[str, bytes]]]


class Variables(Protocol):
    """The variables of a runtime (cq_variables). The server calls these on its own thread. An Error is told by its code; any other
    exception is told as ABSENT_INFORMATION, and its traceback is printed."""

    def of_method(self, method: int) -> Iterable[Variable]:
        """The variables of a method."""

    def of_frame(self, thread: int, depth: int) -> Mapping[int, Value]:
        """The values in the frame at `depth` of a thread, 0 for the newest, by slots. The frame has to stay as it is meanwhile,
        although another environment may resume the thread. If that cannot be had, it raises THREAD_NOT_SUSPENDED."""


def _bytes(text: Union[str, bytes]) -> bytes:
    return text if isinstance(text, bytes) else text.encode(errors="surrogateescape")


def _tell_text(library: ctypes.CDLL, teller: int, slot: int, text: Union[str, bytes]) -> None:
    library.cq_tell_text(teller, slot, _bytes(text), len(_bytes(text)))


def _tell_value(library: ctypes.CDLL, teller: int, slot: int, value: Value) -> None:
    if value is None:
        library.cq_tell_nil(teller, slot)
    elif isinstance(value, bool):
        library.cq_tell_boolean(teller, slot, value)
    elif isinstance(value, int) and -2**63 <= value < 2**63:
        library.cq_tell_integer(teller, slot, value)
    elif isinstance(value, int):
        _tell_text(library, teller, slot, str(value))
    elif isinstance(value, float):
        library.cq_tell_number(teller, slot, value)
    elif isinstance(value, (str, bytes)):
        _tell_text(library, teller, slot, value)
    else:
        library.cq_tell_table(teller, slot)
        for entry in value:
            library.cq_tell_entry(teller, _bytes(entry), len(_bytes(entry)))


def _code_of(tell: Callable[..., None]) -> Callable[..., int]:
    """A function that gives a code, over one that may raise."""

    def call(*arguments: Any) -> int:
        try:
            tell(*arguments)
        except Error as error:
            return int(error.code)
        except MemoryError:
            return int(Code.OUT_OF_MEMORY)
        except Exception:
            traceback.print_exc()
            return int(Code.ABSENT_INFORMATION)
        return int(Code.OK)

    return call


def functions(library: ctypes.CDLL, variables: Variables) -> api.Variables:
    """The functions for a server. They are kept as long as it serves."""

    def of_method(_: int, method: int, teller: int) -> None:
        for variable in variables.of_method(method):
            name = variable.name.encode()
            library.cq_tell_variable(teller, name, len(name), variable.slot, variable.first, variable.count)

    def of_frame(_: int, thread: int, depth: int, teller: int) -> None:
        for slot, value in variables.of_frame(thread, depth).items():
            _tell_value(library, teller, slot, value)

    return api.Variables(None, api.OF_METHOD(_code_of(of_method)), api.OF_FRAME(_code_of(of_frame)))
