"""Writes the manual page cebdyraq(3) from the headers of the library for C.

A paragraph of a comment stays one. A line in capitals is a heading. A line that is indented by two spaces begins an item: its
tag, two spaces or more, and what is said of it, whose further lines are indented deeper. A paragraph that is indented by four
spaces is an example.
"""

import re
import sys

import header

ITEM = re.compile(r"  (\S.*?)(?:  +(.*))?")
ENUMERATOR = re.compile(r"^ +(CQ_\w+ = \w+),? +/\* (.*?) \*/$", re.M | re.S)
FRAME = re.compile(r"^(?:#ifdef __cplusplus\n.*\n#endif|#(?:ifndef|define) CEBDYRAQ_\w*|#include.*|#endif)\n?", re.M)
MUST_USE = re.compile(r"^/\* .* \*/\n#ifdef __GNUC__\n(?:#.*\n)+?#endif\n| CQ_MUST_USE(?=;)", re.M)
HEAD = """.TH CEBDYRAQ 3 "" "Cebdyraq {version}" "Library Functions Manual"
.SH NAME
cebdyraq \\- {what}
.SH SYNOPSIS
.nf
{includes}
.fi
.SH DESCRIPTION"""


def escaped(line):
    """A line in which nothing is taken for a request."""
    line = line.replace("\\", "\\e").replace("-", "\\-")
    line = re.sub(r"`([^`]*)`", r"\\fI\1\\fP", line)
    return "\\&" + line if line[:1] in (".", "'") else line


def flowing(text):
    return "\n".join(escaped(line.strip()) for line in text.split("\n") if line.strip())


def tagged(pairs):
    return "\n".join(f".TP\n\\fB{escaped(tag)}\\fP\n{flowing(told)}" for tag, told in pairs)


def items(lines):
    pairs = []
    for line in lines:
        found = ITEM.fullmatch(line)
        if found:
            pairs.append([found[1], found[2] or ""])
        else:
            pairs[-1][1] += "\n" + line
    return tagged(pairs)


def code(text):
    """Code as it stands. Constants that have a comment each are items."""
    if ENUMERATOR.search(text):
        return tagged(ENUMERATOR.findall(text))
    return ".PP\n.nf\n.RS 4\n" + "\n".join(escaped(line) or "\\&" for line in text.split("\n")) + "\n.RE\n.fi"


def paragraph(text, heading):
    lines = text.split("\n")
    if text.isupper() and len(lines) == 1:
        return f".{heading} {escaped(text)}"
    if text.startswith("- "):
        return "\n".join(f".IP \\(bu 2\n{flowing(point)}" for point in re.split(r"^- ", text, flags=re.M)[1:])
    if text.startswith("    "):
        return code("\n".join(line[4:] for line in lines))
    return items(lines) if text.startswith("  ") else ".PP\n" + flowing(text)


def prose(comment, heading="SS"):
    return "\n".join(paragraph(text, heading) for text in re.split(r"\n\n+", comment))


def section(comment):
    """The title of a part of a header, which is the first sentence, and what is said of all of it."""
    title, _, told = comment.split("\n", 1)[1].partition(".")
    return f".SH {escaped(title.upper())}" + (f"\n{prose(told.strip(' ').lstrip(chr(10)))}" if told.strip() else "")


def body(parts):
    for comment, shown in parts:
        if comment.startswith("---"):
            yield section(comment)
        else:
            yield from (code(shown), ".RS 4\n" + prose(comment) + "\n.RE")


def parts(name, folder):
    """The parts of a header, without what only a compiler reads."""
    text = MUST_USE.sub("", header.text_of(name, folder))
    return [part._replace(code=FRAME.sub("", part.code).strip("\n")) for part in header.parts(text)]


def heading(part):
    """What a header's first comment says the header is, and the rest of it."""
    title, _, about = part.comment.partition("\n\n")
    return escaped(title.split(": ", 1)[1].rstrip(".")), about


def page(folder=header.C):
    """The page's text."""
    (first, *of_first), *others = (parts(name, folder) for name in header.HEADERS)
    what, about = heading(first)
    includes = "\n".join(f"#include <{name}>" for name in header.HEADERS)
    head = HEAD.format(version=".".join(map(str, header.version(folder))), what=what, includes=includes)
    told = [head, prose(about, "SH"), *body(of_first)]
    for other, *of_other in others:
        what, about = heading(other)
        told += [f".SH {what.upper()}", prose(about), *body(of_other)]
    return re.sub(r"^(\.S[HS] .*)\n\.PP$", r"\1", "\n".join(told), flags=re.M) + "\n"


if __name__ == "__main__":
    sys.stdout.write(page())
