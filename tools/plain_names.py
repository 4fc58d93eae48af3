#!/usr/bin/env python3
"""Writes a walk or a live script again with names that a document may have, in place of those of a Java VM.

    tools/plain_names.py < WALK > PLAIN.json
    tools/plain_names.py WALK > PLAIN.json

A method's name loses its descriptor: `java.lang.String.hashCode()I` becomes `java.lang.String.hashCode`. Each other
character that a name may not have becomes `_`, and the last 64 characters are kept. When two names of a list would be the
same, or a thread and an agent, `$2`, `$3` and so on go behind the later ones. Names that may stay stay, and all uses of a
name are changed alike. Standard error gets a line for each changed name: the new one, a tab and the old one.
"""

import json
import pathlib
import re
import sys

LONGEST = 64
ALLOWED = re.compile(r"[A-Za-z0-9_.$/<>]{1,64}\Z")
OF_METHODS = ("enter", "enter_native")


def without_descriptor(name):
    """A method's name without its parameters."""
    return name.partition("(")[0]


def plain(name, taken):
    """A name of the allowed form that is not taken."""
    text = re.sub(r"[^A-Za-z0-9_.$/<>]", "_", name)[-LONGEST:] or "_"
    number, one = 1, text
    while one in taken:
        number += 1
        mark = f"${number}"
        one = text[-(LONGEST - len(mark)) :] + mark
    return one


def renamed(names, strip):
    """The new name of each name, those first that may stay."""
    kept = [name for name in names if ALLOWED.match(name)]
    table = {name: name for name in kept}
    for name in names:
        if name not in table:
            table[name] = plain(strip(name), table.values())
    return table


def with_names(value, table):
    """A text, or the texts of a list, by their new names."""
    if isinstance(value, list):
        return [with_names(part, table) for part in value]
    return table.get(value, value) if isinstance(value, str) else value


def behind_word(word, rest, actors, methods):
    """What comes after a word, by the new names: a method, or else first a thread or a list of them."""
    if word in OF_METHODS:
        return [with_names(part, methods) for part in rest]
    if word in ("add", "relinquish", "block"):
        return rest
    return [with_names(part, actors) for part in rest[:1]] + rest[1:]


def item(parts, subjects, actors, methods):
    """An event, an operation or a call; an event has its subject first."""
    if not isinstance(parts, list) or len(parts) <= subjects:
        return parts
    first = [with_names(part, actors) for part in parts[:subjects]]
    word, rest = parts[subjects], parts[subjects + 1 :]
    return [*first, word, *behind_word(word, rest, actors, methods)]


def converted(document):
    """The document with allowed names, and the tables of new names."""
    actors = renamed([*document["threads"], *document["agents"]], lambda name: name)
    methods = renamed(document["methods"], without_descriptor)
    new = {**document, **{part: with_names(document[part], actors) for part in ("threads", "agents")}}
    new["methods"] = with_names(document["methods"], methods)
    if "events" in document:
        new["events"] = [item(event, 1, actors, methods) for event in document["events"]]
    for part in ("walks", "calls"):
        if part in document:
            new[part] = [[item(one, 0, actors, methods) for one in items] for items in document[part]]
    return new, (actors, methods)


def main():
    words = sys.argv[1:]
    if words in (["--help"], ["-h"]) or len(words) > 1:
        print(__doc__.strip())
        return 0 if len(words) == 1 else 2
    try:
        document = json.loads(pathlib.Path(words[0]).read_text(encoding="utf-8") if words else sys.stdin.buffer.read())
        new, tables = converted(document)
    except (OSError, ValueError, TypeError, KeyError) as error:
        print(f"this is no walk and no live script: {error!r}", file=sys.stderr)
        return 2
    for table in tables:
        for old, name in table.items():
            if old != name:
                print(f"{name}\t{old}", file=sys.stderr)
    json.dump(new, sys.stdout)
    print()
    return 0


if __name__ == "__main__":
    sys.exit(main())
