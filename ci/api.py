"""The headers of the library for C as data: constants, structs, and functions with their types and comments.

Whatever it cannot read is an error. Of the comments it reads

- above an enum "Bits of" or "sum of bits": its constants are bits;
- above a struct "Zeros at first": nobody reads its members;
- at a function "Since 2.1.": the version in which it came, if that is not the first of its major version.

`ci/codes.py` reads which codes a function gives.
"""

import re
from dataclasses import dataclass
from typing import List, Optional, Tuple

import header


@dataclass(frozen=True)
class Type:
    """`stars` is how many pointers there are, `const` of the innermost and `inner` of one between two stars. `count` is that of an array."""

    base: str
    stars: int = 0
    const: bool = False
    inner: bool = False
    count: Optional[int] = None
    signature: Optional["Signature"] = None


@dataclass(frozen=True)
class Member:
    """A member of a struct, or a parameter."""

    name: str
    type: Type


@dataclass(frozen=True)
class Signature:
    result: Type
    parameters: List[Member]


@dataclass(frozen=True)
class Constant:
    """`text` is the number as the header has it, and `meaning` what stands beside it."""

    name: str
    number: int
    text: str
    meaning: str

    @property
    def bare(self):
        """CQ_BUSY as BUSY."""
        return self.name.removeprefix("CQ_")

    @property
    def plain(self):
        """Its meaning as a text that programs show."""
        return self.meaning.replace("`", "")


@dataclass(frozen=True)
class Enum:
    """Without a name it has one constant, which stands for itself."""

    name: str
    constants: List[Constant]
    comment: str
    bits: bool

    def short(self, constant):
        """The name of one of its constants, without what all of them begin with, up to an underscore."""
        names = [one.name for one in self.constants]
        length = next(at for at, signs in enumerate(zip(*names)) if len(set(signs)) > 1)
        return constant.name[names[0].rindex("_", 0, length) + 1:]


@dataclass(frozen=True)
class Struct:
    """`members` is None of a struct that C does not know. Nobody reads those of an opaque one."""

    name: str
    members: Optional[List[Member]]
    comment: str
    opaque: bool


@dataclass(frozen=True)
class Function:
    """`section` is the comment of the part of the header in which it stands."""

    name: str
    result: Type
    parameters: List[Member]
    comment: str
    section: str
    header: str
    since: Optional[Tuple[int, int]]

    @property
    def namesake(self):
        """The name of the function that a waiting one calls, or its own."""
        return self.name.replace("cq_wait_", "cq_")


@dataclass(frozen=True)
class Api:
    version: Tuple[int, int, int]
    enums: List[Enum]
    structs: List[Struct]
    functions: List[Function]

    def named(self):
        return [one for one in self.enums if one.name]

    def enum(self, name):
        [found] = (one for one in self.enums if one.name == name)
        return found


ENUM = re.compile(r"^enum (\w+ )?\{(.*?)\};", re.M | re.S)
ENUMERATOR = re.compile(r"(CQ_\w+) = (\w+),?[ \t]*(?:/\*(.*?)\*/)?", re.S)
DEFINE = re.compile(r"^#define (CQ_(?!VERSION_|MUST_USE)\w+) (\w+)$", re.M)
STRUCT = re.compile(r"^typedef struct \{(.*?)\} (cq_\w+);", re.M | re.S)
FORWARD = re.compile(r"^typedef struct (cq_\w+) \1;", re.M)
FUNCTION = re.compile(r"^((?:const )?\w+ \*?)((?:cq|cebdyraq)_\w+)\(([^;{}]*)\)(?: CQ_MUST_USE)?;$", re.M)
DECLARATION = re.compile(r"(const )?(\w+) (\*?)(const )?(\*?)(\w+)(?:\[(\d+)\])?")
OF_FUNCTION = re.compile(r"(\w+ \*?)\(\*(\w+)\)\((.*)\)")
SINCE = re.compile(r"\bSince (\d+)\.(\d+)\.")
# What a header also has: what the preprocessor reads, functions with a body, and the braces of C++.
REST = re.compile(r'^(?:#.*|static inline [^;]*\{\n(?: .*\n)*\}|extern "C" \{|\})$', re.M)
COMMENT = re.compile(r"/\*.*?\*/", re.S)
WORDS = {"UINT32_MAX": 2**32 - 1}
BASES = {"void", "char", "bool", "double", "size_t", "int32_t", "int64_t", "uint8_t", "uint16_t", "uint32_t", "uint64_t"}


def flat(text):
    return " ".join(text.split())


def camel(name):
    """cq_thread_info as ThreadInfo, and so CQ_BUSY as Busy."""
    return "".join(word.capitalize() for word in name.lower().removeprefix("cq_").split("_"))


def outer_parts(text):
    """The parts of a list at its outer commas."""
    parts, depth = [""], 0
    for sign in text:
        depth += (sign == "(") - (sign == ")")
        if sign == "," and not depth:
            parts.append("")
        else:
            parts[-1] += sign
    return [part.strip() for part in parts if part.strip() not in ("", "void")]


def declared(text):
    """A member or a parameter."""
    text = flat(text)
    found = OF_FUNCTION.fullmatch(text)
    if found:
        signature = Signature(result_type(found[1]), parameters_of(found[3]))
        return Member(found[2], Type("", stars=1, signature=signature))
    found = DECLARATION.fullmatch(text)
    if not found:
        raise SyntaxError(f"not read: {text}")
    stars = len(found[3]) + len(found[5])
    return Member(found[6], Type(found[2], stars, bool(found[1]), bool(found[4]), found[7] and int(found[7])))


def result_type(text):
    return declared(text + "it").type


def parameters_of(text):
    return [declared(part) for part in outer_parts(text)]


def enums_of(part):
    comment = flat(part.comment)
    for name, body in ENUM.findall(part.code):
        constants = [Constant(one, int(number, 0), number, flat(said)) for one, number, said in ENUMERATOR.findall(body)]
        if COMMENT.sub("", ENUMERATOR.sub("", body)).strip():
            raise SyntaxError(f"not read: {flat(body)}")
        if not name and len(constants) > 1:
            raise SyntaxError(f"the enum of {constants[0].name} has no name")
        yield Enum(name.strip(), constants, comment, bool(re.search("sum of bits|^Bits of", comment)))
    for name, word in DEFINE.findall(part.code):
        yield Enum("", [Constant(name, WORDS[word], str(WORDS[word]), "")], comment, False)


def structs_of(part):
    opaque = "zeros at first" in flat(part.comment).lower()
    for body, name in STRUCT.findall(part.code):
        members = [declared(text) for text in COMMENT.sub("", body).split(";") if text.strip()]
        yield Struct(name, members, part.comment, opaque)
    for name in FORWARD.findall(part.code):
        yield Struct(name, None, part.comment, True)


def functions_of(part, section, name):
    since = SINCE.search(flat(part.comment))
    for result, function, parameters in FUNCTION.findall(part.code):
        yield Function(function, result_type(result), parameters_of(parameters), part.comment, section, name,
                       since and (int(since[1]), int(since[2])))


def left_over(part):
    """What of a part's code none of the forms has."""
    code = part.code
    for form in (ENUM, STRUCT, FORWARD, FUNCTION, DEFINE, REST):
        code = form.sub("", code)
    return flat(COMMENT.sub("", code))


def bases_of(types):
    """The names of types that these are made of."""
    for kind in types:
        if kind.signature:
            yield from bases_of([kind.signature.result, *(one.type for one in kind.signature.parameters)])
        else:
            yield kind.base


def all_types(api):
    for one in api.structs:
        yield from (member.type for member in one.members or [])
    for one in api.functions:
        yield from (one.result, *(parameter.type for parameter in one.parameters))


def read(folder=header.C):
    api = Api(header.version(folder), [], [], [])
    for name in header.HEADERS:
        section = ""
        for part in header.parts(header.text_of(name, folder)):
            if left_over(part):
                raise SyntaxError(f"not read: {left_over(part)}")
            section = part.comment if part.comment.startswith("---") else section
            api.enums.extend(enums_of(part))
            api.structs.extend(structs_of(part))
            api.functions.extend(functions_of(part, section, name))
    missed = set(header.functions(folder)) ^ {one.name for one in api.functions}
    missed |= set(bases_of(all_types(api))) - BASES - {one.name for one in api.structs}
    if missed:
        raise SyntaxError(f"not read: {', '.join(sorted(missed))}")
    return api


def read_inner(folder=header.C):
    """The functions that the proved half gives to the C files of the library alone."""
    return [one for part in header.parts(header.text_of(header.INNER, folder)) for one in functions_of(part, "", header.INNER)]
