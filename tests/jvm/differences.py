"""The differences by design that a walk can show. `sketch.py` leaves these events out, and the table of README.md has them.

Each is a walk of thread t0 and agents e0 and e1, with the event whose line differs.
"""

import dataclasses

import walks

IN_A = "e0 add can_suspend can_pop_frame; t0 start; t0 enter a"
IN_N = "e0 add can_suspend can_pop_frame; t0 start; t0 enter_native n"
POPPED = f"{IN_A}; t0 enter b; e0 suspend t0; t0 poll; e0 pop t0"


@dataclasses.dataclass
class Difference:
    """An event that differs by design, in a walk."""

    name: str
    walk: str
    # the event's place in it, from the end
    place: int = -1

    def document(self):
        events = [event_of(text.split()) for text in self.walk.split("; ")]
        return {"limits": walks.LIMITS, "threads": ["t0"], "agents": ["e0", "e1"], "methods": list(walks.METHODS), "events": events}


def event_of(words):
    """The event of these words. Capabilities are one list."""
    if words[1] in ("add", "relinquish"):
        return [*words[:2], words[2:]]
    return [int(word) if word.lstrip("-").isdigit() else word for word in words]


DIFFERENCES = (
    Difference("a capability of one environment at a time", "e0 add can_suspend; e1 add can_suspend"),
    Difference("a capability that this profile lacks", "e0 add can_tag_objects"),
    Difference("the order of refusals, of a trace", "e0 trace t0 0 -1"),
    Difference("the order of refusals, of a location", "e0 location t0 -1"),
    Difference("a running thread that is asked, and then makes a step", f"{IN_A}; e0 count t0; t0 enter b; t0 poll", -3),
    Difference("a running thread that is asked, and then ends", f"{IN_A}; e0 count t0; t0 end", -2),
    Difference("a state before a suspension takes place", f"{IN_A}; e0 suspend t0; e0 state t0; t0 poll", -2),
    Difference("a resumption before a suspension takes place", f"{IN_A}; e0 suspend t0; e0 resume t0; t0 poll", -2),
    Difference("the state of a running thread without frames", "t0 start; e0 state t0"),
    Difference("the state of a thread that is held without frames", f"{IN_A}; t0 leave; e0 suspend t0; t0 poll; e0 state t0"),
    Difference("the state of a thread that has entered a native method", f"{IN_N}; e0 state t0"),
    Difference("the frames after a pop", f"{POPPED}; e0 count t0"),
    Difference("a second pop", f"{POPPED}; e0 pop t0"),
    Difference("a pop of a blocked thread", f"{IN_A}; t0 enter b; t0 block park; e0 suspend t0; e0 pop t0"),
    Difference("a pop of the only frame, a native one", f"{IN_N}; t0 native; e0 suspend t0; e0 pop t0"),
)
