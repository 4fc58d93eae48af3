"""The types of arguments and results."""

import ctypes
from typing import Any

U8, U16, U32, U64 = ctypes.c_uint8, ctypes.c_uint16, ctypes.c_uint32, ctypes.c_uint64
I32, I64, SIZE = ctypes.c_int32, ctypes.c_int64, ctypes.c_size_t
BOOL, DOUBLE, TEXT, AT = ctypes.c_bool, ctypes.c_double, ctypes.c_char_p, ctypes.c_void_p


def in_range(kind: Any, least: int, most: int) -> Any:
    """An argument of this type. A number out of its range is refused, and not cut off."""

    def from_param(_: Any, value: int) -> Any:
        if not least <= value <= most:
            raise OverflowError(f"{value} is not in the range {least} to {most}")
        return kind(value)

    return type("In" + kind.__name__, (kind,), {"from_param": classmethod(from_param)})


NUMBER, WORD, INT = in_range(U32, 0, 2**32 - 1), in_range(U64, 0, 2**64 - 1), in_range(I32, -2**31, 2**31 - 1)
