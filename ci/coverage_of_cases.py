"""Whether each word, text and fault of the definitions is in a case.

The words are read off the definitions (`codes "WORD"` in the files of `specs/`), so that a new one wants a case too.
"""

import json
import pathlib
import re

SPECS = {
    "events": "crates/ti_script/specs/Events.antt",
    "entries": "crates/ti_script/specs/Entries.antt",
    "texts": "crates/ti_script/specs/Texts.antt",
    "calls": "crates/ti_script/specs/Lives.antt",
    "live texts": "crates/ti_script/specs/LiveTexts.antt",
    "limits": "crates/ti_script/specs/LimitNames.antt",
    "members": "crates/ti_script/specs/Members.antt",
    "faults": "crates/ti_driver/specs/Faults.antt",
    "verdicts": "crates/ti_driver/specs/Runs.antt",
    "commands": "crates/ti_driver/specs/Commands.antt",
    "errors": "crates/ti_types/specs/TiError.antt",
}

# what no document leads to: no cell is in use where all its users are done, no live run gives an illegal history, a
# capability cannot be had, no event names an environment that is not there, where a trace alone is refused for memory
# depends on the machine, no document gives a call a deadline or calls by a form that never waits, and none reaches a bound that
# is no limit of documents
NOT_REACHED = {
    ("faults", "cell"),
    ("live texts", " illegal "),
    ("texts", "can_tag_objects"),
    ("errors", "116"),
    ("errors", "110"),
    ("errors", "214"),
    ("errors", "215"),
    ("errors", "216"),
}

KINDS = ("monitor", "wait", "timed_wait", "sleep", "park", "timed_park")


def words_of(table):
    text = pathlib.Path(SPECS[table]).read_text()
    if table == "errors":
        return set(re.findall(r"^number_of [\w.]+ = (\d+)$", text, re.M))
    return {word.replace("\\n", "\n") for word in re.findall(r'codes "([^"]*)"', text)}


def events_run(document, out):
    """The words of a walk's events that were not refused, with kinds of blocks, and all capabilities that are named."""
    for event, line in zip(document["events"], out.decode().splitlines()):
        if event[1] in ("add", "relinquish"):
            yield from event[2]
        if " error " not in line:
            yield from event[1:3] if event[1] == "block" else event[1:2]


def entries_run(document, out):
    """The words of a history's entries in front of the first illegal one, with their calls and kinds of hand-overs."""
    verdict = out.split()
    for entry in document["entries"][: int(verdict[1]) if len(verdict) > 1 else None]:
        yield from entry[:2] if entry[0] == "hand" else entry[:1]
        yield from entry[3:4] if entry[0] == "asked" else ()


def calls_made(document, out):
    """The words of a live script's calls that were not refused as a whole, and its members."""
    lines = iter(out.decode().splitlines())
    for calls in document["calls"]:
        for call, line in zip(calls, lines):
            if " error " not in line:
                yield call[0]
    yield from document


def members_named(cases):
    """The members at which `tilint` says that a fault is, as paths and by their last words."""
    paths = {re.split(r"[\[ :]", case.wanted[0].decode())[0] for case in cases}
    return {word for path in paths for word in (path, path.split(".")[-1])}


def found_in(cases, lint_cases):
    """The words that the cases have, by their table."""
    found = {table: set() for table in SPECS}
    texts, faults = b"", b""
    for case in cases:
        out, err, status = case.wanted
        command = (list(case.arguments) or ["walk"])[0]
        faults += err
        if err or not case.document:
            continue
        found["commands"].add(command)
        if command == "walk":
            texts += out
            found["events"].update(events_run(json.loads(case.document), out))
        elif command == "live":
            found["calls"].update(calls_made(json.loads(case.document), out))
            found["live texts"].update(word for word in words_of("live texts") if word.encode() in out)
        else:
            found["verdicts"].update(word for word in words_of("verdicts") if word.encode() in out)
            found["entries"].update(entries_run(json.loads(case.document), out))
    found["texts"] = {word for word in words_of("texts") if word.encode() in texts}
    found["faults"] = {word for word in words_of("faults") if word.encode() in faults}
    found["limits"] = set(re.findall(r"limit (\w+)\n", faults.decode()))
    found["members"] = members_named(lint_cases)
    found["errors"] = set(re.findall(r" error (\d+)\n", texts.decode()))
    return found


def tell(told, cases, lint_cases):
    found = found_in(cases, lint_cases)
    for table in SPECS:
        wanted = words_of(table) | (set(KINDS) if table == "entries" else set())
        wanted -= {word for of, word in NOT_REACHED if of == table}
        for word in sorted(wanted):
            told.result(f"{SPECS[table]}: {word!r} is in a case", "" if word in found[table] else "it is in none")
        if not wanted:
            told.not_ok(f"{SPECS[table]} has words that are found so")
