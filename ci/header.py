"""Reads the headers of the library for C: their version, their functions, and their comments in order."""

import pathlib
import re
from collections import namedtuple

C = pathlib.Path(__file__).resolve().parent.parent / "c"
HEADERS = ("cebdyraq.h", "cebdyraq_wait.h", "cebdyraq_serve.h", "cebdyraq_watch.h")
# One that is not installed.
INNER = "cebdyraq_proved.h"
COMMENT = re.compile(r"^/\*(.*?)\*/$", re.M | re.S)
PROTOTYPE = re.compile(r"^(?:\w+ )+\*?(cq_\w+)\([^;{}]*\)(?: CQ_MUST_USE)?;$", re.M)

# A comment that begins a line, and the code between it and the next one.
Part = namedtuple("Part", "comment code")


def text_of(name, folder=C):
    return (folder / name).read_text()


def version(folder=C):
    """The three numbers of the version."""
    text = text_of(HEADERS[0], folder)
    return tuple(int(re.search(rf"^#define CQ_VERSION_{word} (\d+)$", text, re.M)[1]) for word in ("MAJOR", "MINOR", "PATCH"))


def prototypes(text):
    """The prototype of each function of a header, by its name."""
    return {found[1]: found[0].replace(" CQ_MUST_USE", "") for found in PROTOTYPE.finditer(COMMENT.sub("", text))}


def functions(folder=C):
    """The same of all headers."""
    return {name: prototype for header in HEADERS for name, prototype in prototypes(text_of(header, folder)).items()}


def parts(text):
    """A header's comments without their stars, each with the code that follows it."""
    ends = [found for found in COMMENT.finditer(text)]
    codes = [text[one.end():two.start()] for one, two in zip(ends, ends[1:])] + [text[ends[-1].end():]]
    return [Part(re.sub(r"^ \* ?", "", one[1], flags=re.M).strip(), code.strip("\n")) for one, code in zip(ends, codes)]
