"""The library, by ctypes."""

import ctypes
import os
from typing import Any, Optional, Sequence, Union

from ._api import FUNCTIONS, VERSION, Frame
from ._types import NUMBER, U32


def numbers(threads: Sequence[int]) -> Any:
    return (U32 * len(threads))(*(NUMBER.from_param(thread) for thread in threads))


def room_for(max_count: int) -> Any:
    """Room for the frames of a trace. A stack has 65,536 frames at most."""
    return (Frame * max(1, min(max_count, 65536)))()


def load(path: Optional[Union[str, "os.PathLike[str]"]] = None) -> ctypes.CDLL:
    """Loads a shared library that has the functions of cebdyraq's headers. Without a path it is the installed one.

    An OSError says that there is none, and an ImportError that its version does not fit."""
    library = ctypes.CDLL("libcebdyraq.so.2" if path is None else os.fspath(path), use_errno=True)
    library.cq_version.restype = U32
    major, minor = divmod(library.cq_version() // 1000, 1000)
    if major != VERSION[0] or minor < VERSION[1]:
        raise ImportError(f"libcebdyraq {major}.{minor} does not fit this package, which is for {VERSION[0]}.{VERSION[1]}")
    for name, (result, arguments) in FUNCTIONS.items():
        function = getattr(library, name)
        function.restype, function.argtypes = result, arguments
    return library
