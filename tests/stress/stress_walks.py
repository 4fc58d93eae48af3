"""The places that a thread's walk goes through, and its refused operations, as long as nobody pops its frames."""

import dataclasses

BITS = {
    "new": 0x0,
    "ended": 0x2,
    "running": 0x5,
    "native": 0x400005,
    "monitor": 0x401,
    "wait": 0x191,
    "timed_wait": 0x1A1,
    "sleep": 0xE1,
    "park": 0x291,
    "timed_park": 0x2A1,
}


@dataclasses.dataclass
class Place:
    """A part of a walk in which the thread's state and frames stay. Calls that wait take place there where it `stands`."""

    bits: int
    frames: tuple = ()
    stands: bool = True

    @property
    def alive(self):
        return self.bits not in (BITS["new"], BITS["ended"])


class Walk:
    """A thread's walk of which no frame is popped: its places, and its refused operations with their errors."""

    def __init__(self, limits, operations):
        self.depth, self.own = limits["depth"], limits["own"]
        self.places, self.refused = [Place(BITS["new"])], []
        for number, operation in enumerate(operations):
            error = self.make(operation)
            if error:
                self.refused.append((number, error))
        if self.here.bits == BITS["running"]:
            self.go("ended", ())

    @property
    def here(self):
        return self.places[-1]

    def go(self, state, frames, cost=0):
        self.own -= cost
        self.places.append(Place(BITS[state], frames, state != "running"))

    def make(self, operation):
        """Why the operation is refused, or None."""
        word, here = operation[0], self.here
        if word == "start":
            return 210 if here.bits != BITS["new"] else self.go("running", ())
        if word == "back":
            safe = here.alive and here.bits != BITS["running"]
            return self.go("running", here.frames) if safe else 205
        if here.bits != BITS["running"]:
            return 204
        if word == "poll":
            here.stands = True
        elif word == "end":
            self.go("ended", ())
        elif word in ("native", "block"):
            return self.hand_over(word, operation)
        else:
            return self.step(word, operation)
        return None

    def hand_over(self, word, operation):
        frames = self.here.frames
        if word == "native" and not (frames and frames[0][1] == -1):
            return 207
        if self.own < 2:
            return 208
        return self.go("native" if word == "native" else operation[1], frames, 2)

    def step(self, word, operation):
        frames = self.here.frames
        if word in ("enter", "enter_native"):
            error = 201 if len(frames) >= self.depth else None
            after = ((operation[1], -1 if word == "enter_native" else 0), *frames)
        else:
            error = 202 if not frames else 203 if word == "at" and frames[0][1] == -1 else None
            after = frames[1:] if word == "leave" or not frames else ((frames[0][0], operation[1]), *frames[1:])
        if error or self.own < 1:
            return error or 208
        return self.go("running", after, 1)
