"""What an environment is told of classes and methods. No call waits for a thread."""

import ctypes
import time
from typing import Any, List, Optional

from . import _api as api
from ._api import Code, LinesKind
from ._types import BOOL, U32, U64
from ._values import Error, LineEntry, MethodName


def _text(items: Any) -> str:
    return bytes(items).decode("utf-8")


class Classes:
    """The calls of an environment that read what its runtime has defined by cq_define_class."""

    def _plain_call(self, name: str, *arguments: Any) -> Any:
        raise NotImplementedError

    def _settled(self, name: str, *arguments: Any) -> None:
        """Calls again as long as the class is just being defined."""
        code = Code.BUSY
        while code == Code.BUSY:
            code = self._plain_call(name, *arguments)
            if code == Code.BUSY:
                time.sleep(0.00005)
        if code != Code.OK:
            raise Error(code)

    def _whole(self, kind: Any, name: str, *arguments: Any) -> Any:
        """Asks with more room until all is there."""
        room = 64
        while True:
            items, count = (kind * room)(), U64()
            self._settled(name, *arguments, items, room, ctypes.byref(count))
            if count.value <= room:
                return items[:count.value]
            room = count.value

    def get_loaded_classes(self) -> List[int]:
        """The numbers of all classes, in rising order."""
        return list(self._whole(U32, "cq_get_loaded_classes"))

    def get_class_signature(self, class_no: int) -> str:
        return _text(self._whole(ctypes.c_uint8, "cq_get_class_signature", class_no))

    def get_source_file_name(self, class_no: int) -> str:
        """Code.ABSENT_INFORMATION if the class was defined without one."""
        return _text(self._whole(ctypes.c_uint8, "cq_get_source_file_name", class_no))

    def get_class_methods(self, class_no: int) -> List[int]:
        """The numbers of its methods, in the order in which they were given."""
        return list(self._whole(U32, "cq_get_class_methods", class_no))

    def get_method_name(self, method: int) -> MethodName:
        info = api.MethodName()
        rooms = [64, 64]
        while True:
            name, signature = ((ctypes.c_uint8 * room)() for room in rooms)
            self._settled("cq_get_method_name", method, ctypes.byref(info), name, rooms[0], signature, rooms[1])
            if info.name_length <= rooms[0] and info.signature_length <= rooms[1]:
                return MethodName(_text(name[:info.name_length]), _text(signature[:info.signature_length]), info.first_line)
            rooms = [max(rooms[0], info.name_length), max(rooms[1], info.signature_length)]

    def get_method_declaring_class(self, method: int) -> int:
        class_no = U32()
        self._settled("cq_get_method_declaring_class", method, ctypes.byref(class_no))
        return class_no.value

    def is_method_native(self, method: int) -> bool:
        native = BOOL()
        self._settled("cq_is_method_native", method, ctypes.byref(native))
        return native.value

    def get_line_number_table(self, method: int) -> Optional[List[LineEntry]]:
        """The entries of the method's table, or None if a location is its line. Code.NATIVE_METHOD if the method is native,
        otherwise Code.ABSENT_INFORMATION if it was defined without lines."""
        kind = U32()
        entries = self._whole(api.LineEntry, "cq_get_line_number_table", method, ctypes.byref(kind))
        if kind.value == LinesKind.LOCATIONS:
            return None
        return [LineEntry(entry.start_location, entry.line_number) for entry in entries]
