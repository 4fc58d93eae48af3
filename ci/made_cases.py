"""Cases whose documents are too large to be stored: at the ends of the limits, and one beyond.

Each is a name, the arguments, a call that makes the document, one that makes the text, the line on standard error and
the status.
"""

import json

MOST_BYTES = 8_388_608
MOST_EVENTS = 65_536
MOST_ENTRIES = 262_144
MOST_LISTED = 1_024
LARGE = {"depth": 4, "own": 65_536, "calls": 1_024}


def text_of(tree):
    return json.dumps(tree, separators=(",", ":")).encode()


def walk(events, methods=("a",)):
    return {"limits": LARGE, "threads": ["t0"], "agents": ["e"], "methods": list(methods), "events": events}


def live(walks, calls):
    return {"limits": LARGE, "threads": ["t0"], "agents": ["e"], "methods": ["a"], "walks": [walks], "calls": [calls]}


def history(entries, agents=32):
    return {"format": 2, "limits": LARGE, "agents": agents, "entries": entries}


def lines(outcomes):
    return "".join(f"{index} {outcome}\n" for index, outcome in enumerate(outcomes)).encode()


def of_length(length):
    """A short walk, filled up with spaces."""
    return text_of(walk([["t0", "start"], ["e", "count", "t0"], ["t0", "poll"]])).ljust(length)


def steps(count):
    """A start and steps of a frame that comes and goes: each is done."""
    return [["t0", "start"]] + [["t0", "enter", "a"], ["t0", "leave"]] * (count // 2)


def longest_history():
    """All own steps and all calls of 32 environments, each call a stop that is waited for and let go."""
    stops = [entry for _ in range(1_024) for env in range(32) for entry in (["stop", env], ["hand", "poll"], ["go", env], ["back"])]
    return [["start"]] + stops + [["enter", 0], ["leave"]] * 32_768 + [["end"]]


def fault(name, arguments, document, line):
    return name, arguments, document, lambda: b"", f"tiwalk: {line}\n".encode(), 2


CASES = (
    ("greatest length", ["walk"], lambda: of_length(MOST_BYTES), lambda: b"0 ok\n1 count 0\n2 went\n", b"", 0),
    fault("one byte more", ["walk"], lambda: of_length(MOST_BYTES + 1), "limit input"),
    fault("one byte more of spaces", ["walk"], lambda: b" " * (MOST_BYTES + 1), "limit input"),
    fault("greatest length of spaces", ["check"], lambda: b" " * MOST_BYTES, "json"),
    (
        "most events",
        ["walk"],
        lambda: text_of(walk(steps(MOST_EVENTS - 1) + [["t0", "poll"]])),
        lambda: lines(["ok"] * (MOST_EVENTS - 1) + ["clear"]),
        b"",
        0,
    ),
    fault("one event more", ["walk"], lambda: text_of(walk([5] * (MOST_EVENTS + 1))), "limit events"),
    ("most methods", ["walk"], lambda: text_of(walk([["t0", "start"], ["t0", "enter", "m65535"]], [f"m{n}" for n in range(65_536)])), lambda: b"0 ok\n1 ok\n", b"", 0),
    fault("one method more", ["walk"], lambda: text_of(walk([], [f"m{n}" for n in range(65_537)])), "limit methods"),
    ("longest legal history", ["check"], lambda: text_of(history(longest_history())), lambda: b"legal\n", b"", 0),
    ("one stop more", ["check"], lambda: text_of(history(longest_history()[:-1] + [["stop", 0]])), lambda: b"illegal 196609\n", b"", 1),
    ("most entries", ["check"], lambda: text_of(history([["start"]] * MOST_ENTRIES, 1)), lambda: b"illegal 1\n", b"", 1),
    (
        "most operations and calls",
        ["live"],
        lambda: text_of(live([["leave"]] * MOST_EVENTS, [["getenv"]] * MOST_EVENTS)),
        lambda: b"".join([*(b"e %d word 0\n" % n for n in range(MOST_EVENTS)), *(b"t0 %d error 204\n" % n for n in range(MOST_EVENTS)), b"t0 legal\n"]),
        b"",
        0,
    ),
    fault("one operation more", ["live"], lambda: text_of(live([5] * (MOST_EVENTS + 1), [5] * (MOST_EVENTS + 1))), "limit walks"),
    fault("one call more", ["live"], lambda: text_of(live([5] * MOST_EVENTS, [5] * (MOST_EVENTS + 1))), "limit calls_list"),
    (
        "most threads of a list",
        ["live"],
        lambda: text_of(live([], [["add", ["can_suspend"]], ["suspend_list", [9] * MOST_LISTED]])),
        lambda: b"e 0 ok\ne 1 codes" + b" 10" * MOST_LISTED + b"\nt0 legal\n",
        b"",
        0,
    ),
    fault("one thread of a list more", ["live"], lambda: text_of(live([], [["suspend_list", [9] * (MOST_LISTED + 1)]])), "shape at item 1"),
    fault("one entry more", ["check"], lambda: text_of(history([5] * (MOST_ENTRIES + 1), 1)), "limit entries"),
)
