"""What `ci/generate.py` writes for C and C++."""

import re

import header
import proved

SAID = "Made from the headers by ci/generate.py. Do not edit."
CODES = """/* cebdyraq_codes.c: the names and the texts of the codes. {said} */
#include "cebdyraq.h"

const char *cq_code_name(uint32_t code) {{
    switch (code) {{
{names}
    default: return "unknown";
    }}
}}

const char *cq_code_text(uint32_t code) {{
    switch (code) {{
{texts}
    default: return "there is no such code";
    }}
}}
"""

CALLS = """/* cebdyraq_calls.c: the functions of the proved half by which an environment or a door may call for a thread, each with a look at
 * whether somebody watches. {said}
 *
 * What the proved half has under the name of such a function, as cq_collect, is called cebdyraq_collect_proved here (ci/lib.py). */
#include "cebdyraq_serve.h"
#include "cebdyraq_watchers.h"

watchers cebdyraq_watchers;
{calls}"""
CALL = """
{result} {proved}({parameters});
{result} {name}({parameters}) {{
    {result} result = {proved}({arguments});
    tell_watchers();
    return result;
}}
"""
# The handles of those who may call for a thread.
CALLERS = {"cq_env", "cq_door"}


def numbers(text):
    return tuple(map(int, text.split(".")))


def recorded(major):
    """The minor version of this major one in which each function came, by the records of the ABI (docs/ABI.md)."""
    came = {}
    for record in sorted(header.C.glob(f"abi/{major}.*.abi"), key=lambda path: numbers(path.stem)):
        for name in re.findall(r"elf-symbol name='(\w+)'", record.read_text()):
            came.setdefault(name, numbers(record.stem)[:2])
    return came


def node_of(function, came, version):
    """The minor version in which a function came. Its comment has to say so, unless it is the first one of the major version."""
    first = (version[0], 0)
    node = came.get(function.name, version[:2])
    said = max(function.since or first, first)
    if said != node:
        raise ValueError(f"{function.name} came with {node[0]}.{node[1]}, and its comment says {said[0]}.{said[1]}")
    return node


def exported(table):
    """The version script: each function in the node of the minor version in which it came. The first node has those of the major
    version's first one, and any that a test adds to a copy of the headers."""
    major = table.version[0]
    came, nodes = recorded(major), {}
    for one in table.functions:
        nodes.setdefault(node_of(one, came, table.version), []).append(one.name)
    nodes.pop((major, 0))
    before = f"CEBDYRAQ_{major}.0"
    text = f"/* cebdyraq.map: what libcebdyraq.so exports. {SAID} */\n{before} {{\n    global: cq_*;\n    local: *;\n}};\n"
    for node, names in sorted(nodes.items()):
        name = "CEBDYRAQ_{}.{}".format(*node)
        text += f"\n{name} {{\n    global: {' '.join(f'{one};' for one in names)}\n}} {before};\n"
        before = name
    return text


def cxx_enums(table):
    """The enums of the header for C++."""
    made = []
    for enum in map(table.enum, ("cq_code", "cq_reason", "cq_lines_kind")):
        names = ",\n".join(f"    {enum.short(one).lower()} = {one.name}" for one in enum.constants)
        made.append(f"/* {enum.comment} */\nenum class {enum.name.removeprefix('cq_')} : std::uint32_t {{\n{names}\n}};\n")
    return "\n".join(made)


def quoted(text):
    """A text as C and Python write it."""
    return '"' + text.replace("\\", r"\\").replace('"', r"\"") + '"'


def codes_file(table):
    codes = table.enum("cq_code").constants
    for one in codes:
        if not one.meaning:
            raise ValueError(f"nothing beside {one.name} says when it comes")
    names = "\n".join(f"    case {one.name}: return {quoted(one.name)};" for one in codes)
    texts = "\n".join(f"    case {one.name}: return {quoted(one.plain)};" for one in codes)
    return CODES.format(said=SAID, names=names, texts=texts)


def proved_name(name):
    """cq_collect as cebdyraq_collect_proved."""
    return f"cebdyraq_{name.removeprefix('cq_')}_proved"


def calls(table):
    """The functions of the proved half that take a handle of one who may call for a thread."""
    exported = {name for name, _, _ in proved.exports()}
    return [one for one in table.functions if one.name in exported and one.parameters[0].type.base in CALLERS]


def declared(one):
    """A parameter as C writes it."""
    return f"{'const ' * one.type.const}{one.type.base} {'*' * one.type.stars}{one.name}"


def call(function):
    parameters = ", ".join(map(declared, function.parameters))
    return CALL.format(result=function.result.base, name=function.name, proved=proved_name(function.name), parameters=parameters,
                       arguments=", ".join(one.name for one in function.parameters))


def calls_file(table):
    return CALLS.format(said=SAID, calls="".join(map(call, calls(table))))
