"""What `ci/generate.py` writes for Rust: the declarations of cebdyraq-sys, and the errors of the safe crate."""

import api
import header
from made_c import SAID

NUMBERS = {"uint8_t": "u8", "uint16_t": "u16", "uint32_t": "u32", "uint64_t": "u64", "int32_t": "i32", "int64_t": "i64", "size_t": "usize",
           "bool": "bool", "double": "f64"}
TYPES = {**NUMBERS, "char": "c_char", "void": "c_void"}
DERIVED = "Clone, Copy, Debug, Default, PartialEq, Eq, Hash"
WIDTH = 120
# Codes that the types of the safe crate rule out, or that it tells otherwise.
RULED_OUT = {"CQ_OK", "CQ_NOT_RUNNING", "CQ_NOT_SAFE", "CQ_BARRED", "CQ_NOT_NEW", "CQ_ALREADY_STOPPED", "CQ_STILL_RUNNING", "CQ_BUSY",
             "CQ_HELD", "CQ_WAITING", "CQ_NONE", "CQ_MISUSED", "CQ_SYSTEM"}


def sentence(text):
    """What stands beside a constant, as a sentence."""
    return text[:1].upper() + text[1:].rstrip(".") + "."


def first_paragraph(comment):
    return api.flat(comment.split("\n\n")[0])


def type_of(kind):
    if kind.signature:
        parameters = ", ".join(type_of(one.type) for one in kind.signature.parameters)
        return f'unsafe extern "C" fn({parameters}){result_of(kind.signature.result)}'
    text = TYPES.get(kind.base, kind.base)
    for level in range(kind.stars):
        text = f"*{'const' if (kind.inner if level else kind.const) else 'mut'} {text}"
    return f"[{text}; {kind.count}]" if kind.count else text


def result_of(kind):
    return "" if kind.base == "void" and not kind.stars else f" -> {type_of(kind)}"


def zero_of(kind):
    if kind.stars:
        return "null_mut()"
    if kind.count:
        return f"[0; {kind.count}]"
    return "0" if kind.base in NUMBERS else f"{kind.base}::empty()"


def has_numbers_alone(struct, structs):
    """Whether values of a struct can be compared: no pointer is in them."""
    return all(not one.type.stars and (one.type.base in NUMBERS or has_numbers_alone(structs[one.type.base], structs)) for one in struct.members)


def declared_constants(enum):
    yield f"// {enum.name}" if enum.name else f"// {enum.comment}"
    for one in enum.constants:
        if one.meaning:
            yield f"/// {sentence(one.meaning)}"
        yield f"pub const {one.name}: u32 = {one.text};"


def empty(struct):
    """How an opaque struct is made: all zeros."""
    values = ", ".join(f"{one.name}: {zero_of(one.type)}" for one in struct.members)
    return (f"impl {struct.name} {{", "    /// An empty one.", "    pub const fn empty() -> Self {", f"        Self {{ {values} }}", "    }", "}", "",
            f"impl Default for {struct.name} {{", "    fn default() -> Self {", "        Self::empty()", "    }", "}")


def declared_struct(struct, structs):
    yield from (f"/// {first_paragraph(struct.comment)}", "#[repr(C)]")
    if struct.members is None:
        yield from ("#[derive(Debug)]", f"pub struct {struct.name} {{", "    opaque: [u8; 0],", "}")
        return
    if struct.opaque:
        yield "#[derive(Debug)]"
    else:
        yield f"#[derive({DERIVED if has_numbers_alone(struct, structs) else 'Clone, Copy, Debug'})]"
    yield f"pub struct {struct.name} {{"
    yield from (f"    {'' if struct.opaque else 'pub '}{one.name}: {type_of(one.type)}," for one in struct.members)
    yield "}"
    if struct.opaque:
        yield from ("", *empty(struct))


def declared_function(function):
    parameters = [f"{one.name}: {type_of(one.type)}" for one in function.parameters]
    head, end = f"    pub fn {function.name}(", f"){result_of(function.result)};"
    line = head + ", ".join(parameters) + end
    return [line] if len(line) <= WIDTH else [head, *(f"        {one}," for one in parameters), f"    {end}"]


def declarations(table):
    """All that the headers declare."""
    structs = {one.name: one for one in table.structs}
    lines = [f"// {SAID}", "", "use core::ffi::{c_char, c_void};", "use core::ptr::null_mut;", "", "// The version whose functions are declared here."]
    lines += [f"pub const CQ_VERSION_{word}: u32 = {number};" for word, number in zip(("MAJOR", "MINOR"), table.version)]
    for enum in table.enums:
        lines += ["", *declared_constants(enum)]
    for struct in table.structs:
        lines += ["", *declared_struct(struct, structs)]
    lines += ["", 'extern "C" {']
    for name in header.HEADERS:
        lines.append(f"    // {name}")
        lines += [line for one in table.functions if one.header == name for line in declared_function(one)]
    return "\n".join(lines) + "\n}\n"


def errors(table):
    """The codes that calls of the safe crate may give."""
    lines = ["errors! {"]
    for one in table.enum("cq_code").constants:
        if one.name not in RULED_OUT:
            lines += [f"    /// {sentence(one.meaning)}", f"    {api.camel(one.name)} = {one.name}"]
    return "\n".join(lines) + "\n}\n"
