"""What a live run of a document may tell (`docs/PROFILE.md`), found without running it.

An agent's refusals by itself, its capabilities and its own word follow from its own calls, one after another. So do the
refused operations of a thread from its walk, as long as nobody pops its frames; then all that an agent is told of that
thread has to be true at places of its walk that never go back, and at one place while the thread is suspended by this
agent, where no other suspends or resumes it. For threads with popped frames, only the forms of the replies are looked at.
"""

import dataclasses
import itertools
import re

from stress_accounts import ASKS, Account, number_of
from stress_walks import Walk

SUSPENDED = 0x100000
# what a thread of which frames are popped may tell of a call, whatever its walk
FRAMES = r"( [\w.$/<>]+@(-1|\d+))*"
LOOSE = {
    "state": r"state 0x[0-9a-f]+",
    "count": r"count \d+|error 15",
    "trace": rf"trace{FRAMES}|error (15|103)",
    "location": r"location [\w.$/<>]+@(-1|\d+)|error (15|31)",
    "suspend": r"ok|error (14|15)",
    "resume": r"ok|error (13|15)",
    "pop": r"ok|error (13|15|31|32)",
    "set": r"ok|error 15",
}
STEP_ERRORS = {201, 202, 203, 204, 205, 207, 208, 210}


class Wrong(Exception):
    """What a run told that it may not."""


# ---- what an agent is told of a thread


@dataclasses.dataclass
class Dealings:
    """Who does what at a thread: whether frames are popped, and which agents suspend or resume it."""

    popped: bool = False
    suspended: bool = False
    by: set = dataclasses.field(default_factory=set)


def dealings_of(tree):
    dealings = [Dealings() for _ in tree["threads"]]
    for agent, calls in enumerate(tree["calls"]):
        account = Account(tree)
        for word, thread in itertools.chain.from_iterable(account.make(call)[0] for call in calls):
            there = dealings[thread]
            there.popped |= word == "pop"
            there.suspended |= word == "suspend"
            if word in ("suspend", "resume"):
                there.by.add(agent)
    return dealings


def frames_text(frames):
    return "".join(f" {method}@{place}" for method, place in frames)


class Sight:
    """What one agent has been told of one thread so far: where in its walk the thread may be."""

    def __init__(self, agent, walk, dealings):
        self.walk, self.loose, self.may_be_suspended = walk, dealings.popped, dealings.suspended
        self.alone = dealings.by == {agent}
        self.word, self.least, self.held = 0, 0, None

    def at(self, may_be):
        """The agent is told what is so at these places only."""
        places = self.walk.places
        if self.held is not None:
            self.held = [n for n in self.held if may_be(places[n])]
            found = self.held[0] if self.held else None
        else:
            found = next((n for n in range(self.least, len(places)) if may_be(places[n])), None)
        if found is None:
            raise Wrong("nowhere in the rest of the walk")
        self.least = found

    def flagged(self, bits):
        """The bits without that of a suspension, which has to be there or not where that is known."""
        if not self.loose:
            if not self.may_be_suspended and bits & SUSPENDED or self.alone and bool(bits & SUSPENDED) != (self.held is not None):
                raise Wrong("suspended, or not")
        return bits & ~SUSPENDED

    def told(self, word, arguments, reply):
        """The thread's reply to a call."""
        if word == "get":
            self.gets(reply)
        elif self.loose:
            if not re.fullmatch(LOOSE[word], reply):
                raise Wrong("no such reply")
        elif word == "state":
            bits = self.flagged(int(self.part(reply, "state 0x"), 16))
            self.at(lambda place: place.bits == bits)
        elif word in ("suspend", "resume"):
            self.flips(word, reply)
        elif word == "set":
            self.at(lambda place: reply == ("ok" if place.alive else "error 15"))
        else:
            tells = {"count": self.count, "trace": self.trace, "location": self.location}[word]
            self.at(lambda place: place.stands and reply == (tells(place.frames, *arguments) if place.alive else "error 15"))
        if word == "set" and reply == "ok":
            self.word = arguments[0]

    def part(self, reply, head):
        if not re.fullmatch(re.escape(head) + "[0-9a-f]+", reply):
            raise Wrong("no such reply")
        return reply[len(head) :]

    def gets(self, reply):
        if reply not in (f"word {self.word}", "error 15"):
            raise Wrong(f"the word is {self.word}")
        if not self.loose:
            self.at(lambda place: place.alive == (reply != "error 15"))

    def flips(self, word, reply):
        error = "error 14" if word == "suspend" else "error 13"
        if reply not in ("ok", error, "error 15"):
            raise Wrong("no such reply")
        known = self.alone or not self.may_be_suspended
        there = word == "suspend" and self.held is not None or word == "resume" and self.held is None
        if known and reply != "error 15" and (reply == error) != there:
            raise Wrong("suspended, or not")
        self.at(lambda place: place.alive == (reply != "error 15") and (place.stands or word == "resume"))
        if self.alone and reply == "ok":
            if word == "suspend":
                places = self.walk.places
                self.held = [n for n in range(self.least, len(places)) if places[n].alive and places[n].stands]
            else:
                self.held = None

    def seen(self, bits, frames, most):
        """What a trace of several threads tells of it."""
        bits = self.flagged(bits)
        if not self.loose:
            self.at(lambda place: place.stands and place.bits == bits and frames_text(place.frames[:most]) == frames)

    def not_alive(self):
        if not self.loose:
            self.at(lambda place: not place.alive)

    @staticmethod
    def count(frames):
        return f"count {len(frames)}"

    @staticmethod
    def trace(frames, start, most):
        if 0 < start >= len(frames) or start < -len(frames):
            return "error 103"
        first = start if start >= 0 else len(frames) + start
        return "trace" + frames_text(frames[first : first + most])

    @staticmethod
    def location(frames, depth):
        return "location" + frames_text(frames[depth : depth + 1]) if depth < len(frames) else "error 31"


# ---- the whole of a run


def check_codes(sights, word, threads, refusals, reply):
    codes = reply.split(" ")
    if codes[0] != "codes" or len(codes) != 1 + len(refusals):
        raise Wrong("other codes")
    for thread, why, code in zip(threads, refusals, codes[1:]):
        if why:
            if code != str(why):
                raise Wrong(f"the code is {why}")
        else:
            sights[thread].told(word, (), "ok" if code == "0" else f"error {code}")


STACK = re.compile(rf"(\w+) 0x([0-9a-f]+)({FRAMES})")


def check_stacks(tree, sights, call, listed, reply):
    parts = reply.split(" | ")
    stacks = [STACK.fullmatch(part) for part in parts[1:]]
    if parts[0] != "stacks" or not all(stack and stack[1] in tree["threads"] for stack in stacks):
        raise Wrong("no stacks")
    told = [(tree["threads"].index(stack[1]), int(stack[2], 16), stack[3]) for stack in stacks]
    numbers = [number for number, _, _ in told]
    if call[0] == "list" and numbers != listed or call[0] == "all" and numbers != sorted(set(numbers)):
        raise Wrong("other threads")
    for number, bits, frames in told:
        if call[0] == "all" and not bits & 1:
            raise Wrong("a thread that is not alive")
        sights[number].seen(bits, frames, call[-1])
    if call[0] == "all":
        for number in set(range(len(sights))) - set(numbers):
            sights[number].not_alive()


def check_reply(tree, account, sights, call, reply):
    word = call[0]
    _, refused = account.make(call)
    if isinstance(refused, int):
        wanted = f"error {refused}"
    elif word.endswith("_list"):
        return check_codes(sights, word[: -len("_list")], account.listed(call), refused, reply)
    elif word in ("all", "list"):
        return check_stacks(tree, sights, call, account.listed(call), reply)
    elif word not in ASKS:
        wanted = account.own_reply(call)
    elif refused[0] is None:
        return sights[number_of(tree, call[1])].told(word, call[2:], reply)
    else:
        wanted = f"error {refused[0]}"
    if reply != wanted:
        raise Wrong(f"it is {wanted}")
    return None


def check_agent(tree, walks, dealings, agent, lines):
    account = Account(tree)
    sights = [Sight(agent, walk, there) for walk, there in zip(walks, dealings)]
    for number, call in enumerate(tree["calls"][agent]):
        line = next(lines, "")
        head = f"{tree['agents'][agent]} {number} "
        try:
            if not line.startswith(head):
                raise Wrong("another line")
            check_reply(tree, account, sights, call, line[len(head) :])
        except Wrong as wrong:
            raise Wrong(f"{line!r} to {call}: {wrong}") from None


def check_thread(name, walk, popped, lines):
    refused = []
    for line in lines:
        if line == f"{name} legal":
            break
        told = re.fullmatch(rf"{re.escape(name)} (\d+) error (\d+)", line)
        if not told:
            raise Wrong(f"{line!r} of {name}")
        refused.append((int(told[1]), int(told[2])))
    else:
        raise Wrong(f"no line of {name}'s history")
    if not popped and refused != walk.refused:
        raise Wrong(f"{name} has {refused}, and not {walk.refused}")
    if any(error not in STEP_ERRORS for _, error in refused) or refused != sorted(set(refused)):
        raise Wrong(f"{name} has {refused}")


def fault_of(tree, text):
    """What is wrong with the text of a run of this document, or None."""
    if not text.endswith("\n"):
        return "no last line"
    lines = iter(text[:-1].split("\n"))
    walks = [Walk(tree["limits"], operations) for operations in tree["walks"]]
    dealings = dealings_of(tree)
    try:
        for agent in range(len(tree["agents"])):
            check_agent(tree, walks, dealings, agent, lines)
        for name, walk, there in zip(tree["threads"], walks, dealings):
            check_thread(name, walk, there.popped, lines)
    except Wrong as wrong:
        return str(wrong)
    rest = next(lines, None)
    return None if rest is None else f"one line more, {rest!r}"
