#!/usr/bin/env python3
"""Compiles and runs the examples in the doc comments of crates/*/src, with nothing proved.

    ci/doc_examples.py

An example is a block ```rattle of a doc comment: the body of a function with the argument `rt: HostRuntime` and the result
`Result<(), Fail>`. If a line of it begins with `# `, a reader skips the line, and it is compiled without the mark, as in
rustdoc.

The examples become the tests of one crate, in a copy of the crates (`ci/unproved.py`). It takes about a minute, and tests
no condition of a call (`requires`). Each example has a file of its own there, and keeps the lines and columns that it has in
its source. So what is said of a place is shown as said of the source.

It writes TAP, with a test for each example, and for each type of TYPES.
"""

import re
import sys
from collections import namedtuple

sys.dont_write_bytecode = True

import tap
import unproved

NAME = "doc_examples"
# The types that users hold, by their crates: each has to have an example.
TYPES = {
    "ti_agent": ("Env",),
    "ti_cell": ("ThreadCell",),
    "ti_core": ("Core",),
    "ti_env": ("EnvState",),
    "ti_handshake": ("AtSafe", "Desk", "Fresh", "Running", "SharedCell"),
    "ti_service": ("Agent", "Service"),
    "ti_slot": ("Slot",),
}
# A line of a doc comment: its marks, and its text.
DOC = re.compile(r"(\s*//[/!] ?(?:# )?)(.*)")
NO_ITEM = re.compile(r"\s*(//|#\[|$)")
ITEM = re.compile(r"\s*(?:pub(?:\(\w+\))? )?(?:struct|enum|trait|type|fn|const|mod) (\w+)")
HEAD = "use std::test::Fail; #[test] fn example(rt: HostRuntime) -> Result<(), Fail> {"
TAIL = "Ok(()) }"

# `above` is how many lines of the source stand above the example's own, the opening fence among them.
Example = namedtuple("Example", "source item above lines")


def item_below(source, texts, number):
    """The name of what the comment with the line of this number is about."""
    if texts[number - 1].lstrip().startswith("//!"):
        return source.stem
    below = next((text for text in texts[number:] if not NO_ITEM.match(text)), "nothing")
    item = ITEM.match(below)
    return item[1] if item else below.strip()


def examples_of(source):
    """The examples of a file, in their order."""
    texts = source.read_text().splitlines()
    found, lines = [], None
    for number, text in enumerate(texts, 1):
        doc = DOC.fullmatch(text)
        if lines is None:
            lines = [] if doc and doc[2] == "```rattle" else None
        elif not doc:
            break
        elif doc[2] == "```":
            found.append(Example(source, item_below(source, texts, number), number - 1 - len(lines), lines))
            lines = None
        else:
            lines.append(" " * len(doc[1]) + doc[2])
    if lines is not None:
        sys.exit(f"{source}:{number}: the comment ends within an example")
    return found


def tell_types(told, examples):
    """Tells which types have the example that they need."""
    there = {(example.source.parts[1], example.item) for example in examples}
    for crate, name in ((crate, name) for crate, names in TYPES.items() for name in names):
        told.result(f"{unproved.CRATES / crate}: {name} has an example", "" if (crate, name) in there else "it has none")


def text_of(example):
    """The example as a test, at the lines that it has in its source."""
    return "\n" * (example.above - 1) + "\n".join([HEAD, *example.lines, TAIL]) + "\n"


def run(examples):
    """What the toolchain says, at places of the sources, and a word for each example that ran or has an error."""
    with unproved.copy_of_crates() as root:
        folder = unproved.add(root, NAME, {f"example{number}": text_of(example) for number, example in enumerate(examples)})
        output, verdicts = unproved.try_tests(folder)
    words = {int(number): "does not compile" for number in re.findall(r"example(\d+)\.rt:\d+:\d+: error", output)}
    for name, passed in verdicts.items():
        words[int(name[len("example") :].split("::")[0])] = "ran" if passed else "failed"
    said = re.sub(r"\S*\bexample(\d+)\.rt", lambda found: str(examples[int(found[1])].source), output)
    return re.sub(r"^test example(\d+)::example", lambda found: f"test {examples[int(found[1])].item}", said, flags=re.M), words


def main():
    if len(sys.argv) > 1:
        sys.exit(__doc__.strip())
    examples = [example for source in sorted(unproved.CRATES.glob("*/src/**/*.rt")) for example in examples_of(source)]
    told = tap.Tap()
    tell_types(told, examples)
    said, words = run(examples) if examples else ("", {})
    for number, example in enumerate(examples):
        word = words.get(number, "did not run")
        told.result(f"{example.source}:{example.above}: {example.item}", "" if word == "ran" else word)
    if list(words.values()).count("ran") < len(examples):
        tap.comment(said)
    return told.end()


if __name__ == "__main__":
    sys.exit(main())
