"""Whether the JSON Schemas of docs/schema fit the documents that the program reads, and no broken one.

A document fits the schema where the program has no fault of shape, limit or form of a name in it. So of the cases and
examples those fit that end with status 0 or 1; and those whose fault is one that a schema can say do not. It cannot say
which names are declared, which of them are threads, or that a thread and an agent have different names; cases of these
faults are left out.
"""

import json
import pathlib
import re

try:
    from jsonschema import Draft202012Validator
except ImportError:
    Draft202012Validator = None

SCHEMAS = pathlib.Path("docs/schema")
# An agent with a word of a thread, a thread with one of an agent, and more or fewer lists than there are threads or agents.
NOT_SAID = {
    "word-of-the-other-subject",
    "subject-and-thread-exchanged",
    "live-calls-too-many",
    "live-walks-too-few",
    "live-walks-too-many",
}


class OtherNumber:
    """A number with a fraction or an exponent, or `-0`. Here, as in the program, it is no whole number."""

    def __init__(self, _text):
        pass


def read_document(text):
    return json.loads(text, parse_float=OtherNumber, parse_int=lambda digits: OtherNumber(digits) if digits == "-0" else int(digits))


def schema_of(command, document):
    if command == "check":
        is_second = isinstance(document, dict) and document.get("format") == 2
        return "history-2" if is_second else "history-1"
    return command


def says_names_apart(document):
    """Whether only the names of threads and agents together, or undeclared ones, can be at fault."""
    names = [document[key] for key in ("threads", "agents", "methods")]
    form = re.compile(r"[A-Za-z0-9_.$/<>]{1,64}\Z")
    return all(form.match(name) for part in names for name in part) and all(len(set(part)) == len(part) for part in names)


def expected(fault, document):
    """Whether the document has to fit, or None where a schema cannot say."""
    if not fault:
        return True
    if fault.startswith("name"):
        return None if not fault.startswith("name at item 0") or says_names_apart(document) else False
    return None if fault.startswith(("json", "usage", "limit input", "memory")) else False


LIVE = {"limits": {"depth": 4, "own": 32, "calls": 8}, "threads": ["t0", "t1"], "agents": ["e"], "methods": ["a"]}
LIVE_FIT = (
    ([[], []], [[["add", ["can_suspend"]], ["suspend_list", ["t0", 9]], ["list", ["t0", "t1"], 2], ["all", -1]]]),
    ([[["start"], ["enter", "a"], ["block", "sleep"]], [["poll"]]], [[["trace", "t0", -1, 3], ["resume_list", []], ["setenv", 18446744073709551615]]]),
)
LIVE_BROKEN = (
    ([[["t0", "start"]], []], [[]]),
    ([[], []], [[["stop", "t0"]]]),
    ([[], []], [[["list", ["t0"]]]]),
    ([[], []], [[["all", "2"]]]),
    ([[["block", "nap"]], []], [[]]),
    ([[], []], [[["suspend_list", ["t0"] * 1025]]]),
)


def stored(cases):
    """The documents of which a schema can say whether they fit: name, schema, document, and whether it has to."""
    for case in cases:
        try:
            document = read_document(case.document.decode())
        except (ValueError, RecursionError):
            continue
        wanted = expected(case.wanted[1].decode().removeprefix("tiwalk: ").strip(), document)
        if wanted is not None and case.name not in NOT_SAID:
            yield case.name, schema_of((case.arguments or ["walk"])[0], document), document, wanted


def made():
    """Live scripts in the same form."""
    for wanted, scripts in ((True, LIVE_FIT), (False, LIVE_BROKEN)):
        for walks, calls in scripts:
            yield f"live script {walks} {calls}"[:200], "live", {**LIVE, "walks": walks, "calls": calls}, wanted


def tell(told, cases):
    if not Draft202012Validator:
        told.skip("the schemas", "there is no jsonschema (Debian's python3-jsonschema)")
        return
    names = ("walk", "live", "history-1", "history-2")
    validators = {name: Draft202012Validator(json.loads((SCHEMAS / f"{name}.schema.json").read_text(encoding="utf-8"))) for name in names}
    for name, schema, document, wanted in (*stored(cases), *made()):
        is_right = validators[schema].is_valid(document) == wanted
        told.result(f"{name} {'fits' if wanted else 'does not fit'} the schema of {schema}", "" if is_right else "the program says otherwise")
