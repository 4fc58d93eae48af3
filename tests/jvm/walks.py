"""Random walks. A Java VM can carry each of them out."""

import random

from sketch import Sketch

KINDS = ("monitor", "wait", "timed_wait", "sleep", "park", "timed_park")
METHODS = ("a", "b", "n")
# a method has so many places (Frames.java)
PLACES = 3
GREATEST, LEAST = 2**31 - 1, -(2**31)
# no walk meets one of these
LIMITS = {"depth": 64, "own": 65_536, "calls": 1_024}
# how often an agent makes which call
TASTE = {
    "state": 12,
    "count": 8,
    "trace": 14,
    "location": 10,
    "suspend": 14,
    "resume": 9,
    "pop": 8,
    "get": 5,
    "set": 5,
    "add": 6,
    "relinquish": 2,
    "caps": 3,
    "getenv": 2,
    "setenv": 2,
}


class Walk:
    """A walk that grows event by event."""

    def __init__(self, chance, pops):
        self.chance = chance
        self.sketch = Sketch(chance.choice((1, 1, 1, 2, 3)), chance.choice((1, 2, 2, 3)), pops)
        self.events = []

    def grow(self):
        """Adds an event, if what chance proposes fits."""
        event = self.proposed()
        if self.sketch.fits(event):
            self.add(event)

    def add(self, event):
        self.events.append(event)
        self.sketch.note(event)

    def proposed(self):
        chance = self.chance
        for number, thread in enumerate(self.sketch.threads):
            if thread.waiting and chance.random() < 0.6:
                return [f"t{number}", *(["poll"] if chance.random() < 0.8 else ["block", chance.choice(KINDS)])]
        number = chance.randrange(len(self.sketch.threads))
        thread = self.sketch.threads[number]
        if chance.random() < self.likely_own(thread):
            return [f"t{number}", *self.own_event(thread)]
        return self.call(chance.randrange(len(self.sketch.held)), number)

    @staticmethod
    def likely_own(thread):
        """How likely the thread's next event is its own."""
        if thread.suspended:
            return 0.06
        return {"new": 0.5, "running": 0.45, "ended": 0.1}.get(thread.mode, 0.25)

    def own_event(self, thread):
        """Mostly an event that fits the thread's mode."""
        chance = self.chance
        anything = [["start"], ["back"], ["leave"], ["native"], ["poll"], ["at", 2], ["enter", "a"], ["block", "park"], ["end"]]
        if chance.random() < 0.04:
            return chance.choice(anything)
        if thread.mode == "new":
            return ["start"]
        if thread.mode == "ended":
            return chance.choice((["start"], ["back"], ["poll"], ["end"]))
        return self.step(thread) if thread.mode == "running" else ["back"]

    def step(self, thread):
        chance = self.chance
        steps = [["enter", chance.choice("ab")]] * 4 + [["enter_native", "n"]] * 2 + [["poll"]]
        if chance.random() < 0.1:
            steps += [["end"]]
        if thread.frames:
            steps += [["leave"]] * (2 + len(thread.frames) // 3)
        if thread.newest == "n":
            steps += [["native"]] * 8
        elif thread.frames:
            steps += [["block", chance.choice(KINDS)]] * 4 + [["at", chance.randrange(PLACES)]] * 3
        return chance.choice(steps)

    def call(self, agent, number):
        """A call of the agent, mostly at the thread of that number if it is about a thread."""
        chance, thread = self.chance, self.sketch.threads[number]
        word = self.word(agent, thread)
        if word in ("caps", "getenv"):
            return [f"e{agent}", word]
        if word in ("add", "relinquish"):
            return [f"e{agent}", word, self.capabilities()]
        if word == "setenv":
            return [f"e{agent}", word, self.stored()]
        named = chance.choices((f"t{number}", number, chance.choice((len(self.sketch.threads), 9, 2**32 - 1))), (90, 7, 3))[0]
        return [f"e{agent}", word, named, *self.numbers(word, len(thread.frames))]

    def word(self, agent, thread):
        """A call's word. An agent wants the capability first, and pops if it can."""
        taste = dict(TASTE)
        if "can_suspend" not in self.sketch.held[agent]:
            taste.update(suspend=2, resume=2, add=16)
        if thread.suspended and len(thread.frames) > 1:
            taste.update(pop=24)
        if thread.popped:
            taste.update(resume=24)
        return self.chance.choices(list(taste), list(taste.values()))[0]

    def capabilities(self):
        chance = self.chance
        if chance.random() < 0.6:
            return ["can_suspend", "can_pop_frame"]
        names = ("can_suspend", "can_pop_frame", "can_tag_objects")
        return [chance.choice(names) for _ in range(chance.choice((0, 1, 1, 2, 3)))]

    def numbers(self, word, depth):
        """What stands after the thread."""
        chance = self.chance
        if word == "trace":
            start = chance.choice((0, chance.randint(-depth - 2, depth + 2), chance.randint(-depth - 2, depth + 2)))
            most = chance.choice((0, 1, 2, depth, depth + 3, chance.randint(0, 5), chance.randint(0, 5), -1))
            return [self.seldom(start, GREATEST, LEAST), self.seldom(most, GREATEST, LEAST)]
        if word == "location":
            return [self.seldom(chance.choice((0, chance.randint(-1, depth + 1), chance.randint(0, depth))), GREATEST, LEAST)]
        return [self.stored()] if word == "set" else []

    def seldom(self, usual, *others):
        return usual if self.chance.random() < 0.92 else self.chance.choice(others)

    def stored(self):
        return self.chance.choice((0, 1, 7, 2**64 - 1, self.chance.getrandbits(64)))

    def document(self):
        return {
            "limits": LIMITS,
            "threads": [f"t{number}" for number in range(len(self.sketch.threads))],
            "agents": [f"e{number}" for number in range(len(self.sketch.held))],
            "methods": list(METHODS),
            "events": self.events,
        }


def walk(seed, number, pops=True):
    """The document of that number of a seed, as a tree. If the VM pops no frames, no agent has that capability."""
    chance = random.Random(f"{seed}/{number}")
    made = Walk(chance, pops)
    for _ in range(chance.choice((20, 60, 120, 160))):
        made.grow()
    for place, thread in enumerate(made.sketch.threads):
        if thread.waiting:
            made.add([f"t{place}", "poll"])
    return made.document()
