"""What `ci/generate.py` writes for Python: what the headers declare, for ctypes."""

import re

import api
from made_c import SAID, quoted

NUMBERS = {"uint8_t": "U8", "uint16_t": "U16", "uint32_t": "U32", "uint64_t": "U64", "int32_t": "I32", "int64_t": "I64",
           "size_t": "SIZE", "bool": "BOOL", "double": "DOUBLE"}
# An argument of these types is refused if it is out of its range.
IN_RANGE = {"uint32_t": "NUMBER", "uint64_t": "WORD", "int32_t": "INT"}
WIDTH = 130
HEAD = '''"""What the headers declare, for ctypes. {said}"""

import ctypes
import enum
from typing import Any, Dict, List, Tuple

from ._types import {types}

VERSION = {version}

'''
TEXTS_OF_CODES = '''
    @property
    def text(self) -> str:
        """When the code comes."""
        return TEXTS[self]


TEXTS: Dict[int, str] = {'''


def first_sentence(comment):
    return re.match(r".*?[.:](?= |$)|.*", api.flat(comment))[0].rstrip(".:") + "."


def type_of(kind, words=NUMBERS, text="AT"):
    """A type, with names of numbers, and what a pointer to char is."""
    if kind.signature:
        inside = [type_of(kind.signature.result), *(type_of(one.type) for one in kind.signature.parameters)]
        return f"ctypes.CFUNCTYPE({', '.join(inside)})"
    if kind.stars:
        return text if kind.base == "char" else "AT"
    if kind.base == "void":
        return "None"
    name = words.get(kind.base) or NUMBERS.get(kind.base) or api.camel(kind.base)
    return f"{name} * {kind.count}" if kind.count else name


def enum_of(enum):
    yield f"class {api.camel(enum.name)}(enum.{'IntFlag' if enum.bits else 'IntEnum'}):"
    yield from (f'    """{first_sentence(enum.comment)}"""', "")
    for one in enum.constants:
        yield f"    {enum.short(one)} = {one.text}"
    if enum.name == "cq_code":
        yield from TEXTS_OF_CODES.split("\n")
        yield from (f"    {one.number}: {quoted(one.plain)}," for one in enum.constants)
        yield "}"
    yield from ("", "")


def struct_of(struct):
    """A struct. A pointer to a function in it has a name of its own."""
    for one in struct.members:
        if one.type.signature:
            yield from (f"{one.name.upper()} = {type_of(one.type)}", "", "")
    fields = [f'("{one.name}", {one.name.upper() if one.type.signature else type_of(one.type)})' for one in struct.members]
    yield f"class {api.camel(struct.name)}(ctypes.Structure):"
    line = f"    _fields_ = [{', '.join(fields)}]"
    yield from [line] if len(line) <= WIDTH else ["    _fields_ = [", *(f"        {one}," for one in fields), "    ]"]
    yield from ("", "")


def function_of(function):
    arguments = ", ".join(type_of(one.type, IN_RANGE, "TEXT") for one in function.parameters)
    return f'    "{function.name}": ({type_of(function.result, text="TEXT")}, [{arguments}]),'


def declarations(table):
    """All that the headers declare."""
    lines = [f"{one.bare} = {one.number}" for enum in table.enums if not enum.name for one in enum.constants]
    lines += ["", ""]
    for enum in table.named():
        lines += enum_of(enum)
    for struct in table.structs:
        lines += struct_of(struct) if struct.members else []
    lines += ["# The result and the arguments of each function. A pointer is a void pointer here.", "FUNCTIONS: Dict[str, Tuple[Any, List[Any]]] = {"]
    lines += [function_of(one) for one in table.functions]
    text = "\n".join(lines) + "\n}\n"
    types = sorted({"AT", "TEXT", *NUMBERS.values(), *IN_RANGE.values()} & set(re.findall(r"\b[A-Z]\w+", text)))
    return HEAD.format(said=SAID, types=", ".join(types), version=table.version[:2]) + text
