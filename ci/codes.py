"""Which codes each function gives, as the comments of the headers say it.

- "CQ_NAME 123" is a code that the function gives. One that is only spoken of has no number.
- "codes are those of cq_other" stands for the codes of that function, and ", but for CQ_NAME" behind it names those that are missing.
- "CQ_OK is its only code" stands for no other code, and "never gives CQ_NAME" for one that its time would let it give.
- "the code of the call": the function also gives whatever the call gives whose answer it collects.

A function of cebdyraq_wait.h has the codes of its namesake, but for those that its waiting ends. If it lists some of them, it has to list
all. CQ_MISUSED is in a list only where it has a further reason there.
"""

import re

import api

NUMBERED = re.compile(r"\bCQ_(\w+) (\d+)\b")
SAME = re.compile(r"codes are those of (cq_\w+)(, but for [CQ_\w, ]+)?")
NO_OTHER = "CQ_OK is its only code"
NEVER = re.compile(r"never gives CQ_(\w+)")
OF_THE_CALL = "the code of the call"
# What the section says that has codes of all its functions.
IN_COMMON = "may be refused before it reaches the thread"
ENDED_BY_WAITING = {"BUSY", "HELD", "WAITING", "NONE", "BARRED", "ALREADY_STOPPED", "STILL_RUNNING"}
# What a call at a thread does not give, since it waits for room.
ENDED_AT_A_THREAD = {"FULL"}
TIME = "timeout_ns"


class Codes:
    """The codes of functions, in their order, without CQ_ before them."""

    def __init__(self, table):
        self.functions = {one.name: one for one in table.functions}
        self.numbers = {one.bare: one.number for one in table.enum("cq_code").constants}
        self.known = {}

    def listed(self, comment, where):
        """The codes that a comment gives a number to."""
        found = NUMBERED.findall(api.flat(comment))
        for name, number in found:
            if self.numbers.get(name) != int(number):
                raise ValueError(f"{where}: CQ_{name} {number} is no code")
        return [name for name, _ in found]

    def at_a_thread(self, name):
        """Whether the codes that all calls at a thread have in common are the function's as well."""
        same = self.functions.get(self.functions[name].namesake)
        return IN_COMMON in api.flat((same or self.functions[name]).section)

    def in_common(self):
        """The codes that all calls at a thread have in common."""
        [section] = {one.section for one in self.functions.values() if IN_COMMON in api.flat(one.section)}
        return [name for name in self.listed(section, "calls at a thread") if name != "WAITING"]

    def of_the_call(self, name):
        """Whether the function gives the code of a call whose answer it collects."""
        one = self.functions[name]
        return any(OF_THE_CALL in api.flat(other.comment) for other in (one, self.functions.get(one.namesake)) if other)

    def has_namesake(self, function):
        return function.namesake != function.name and function.namesake in self.functions

    def said_elsewhere(self, function):
        """The codes of its namesake, and of the functions that its comment names."""
        others, without = [function.namesake] if self.has_namesake(function) else [], set()
        for other, but_for in SAME.findall(api.flat(function.comment)):
            if other not in self.functions:
                raise ValueError(f"{function.name}: there is no {other}")
            others.append(other)
            without.update(re.findall(r"CQ_(\w+)", but_for))
        if function.name != function.namesake:
            without |= ENDED_BY_WAITING
            without |= ENDED_AT_A_THREAD if self.at_a_thread(function.name) else set()
        return [code for other in others for code in self.of(other) if code not in without]

    def may_time_out(self, function):
        """Whether its time may be over, unless its comment or that of a function with the same codes says never."""
        comment = api.flat(function.comment)
        others = [self.functions[other] for other, _ in SAME.findall(comment)]
        never = {name for one in (function, *others) for name in NEVER.findall(api.flat(one.comment))}
        return "TIMED_OUT" not in never and any(one.name == TIME for one in function.parameters)

    def made_of(self, function):
        if NO_OTHER in api.flat(function.comment):
            return []
        own, others = self.listed(function.comment, function.name), self.said_elsewhere(function)
        listed = set(own) - ENDED_BY_WAITING - {"TIMED_OUT"}
        if self.has_namesake(function) and listed and listed != set(others):
            raise ValueError(f"{function.name} does not list the codes of {function.namesake}: {', '.join(sorted(listed ^ set(others)))}")
        found = dict.fromkeys(others + own)
        if self.may_time_out(function):
            found.pop("TIMED_OUT", None)
            found["TIMED_OUT"] = None
        return list(found)

    def of(self, name):
        """The codes of a function, without what at_a_thread and of_the_call say."""
        if name not in self.known:
            self.known[name] = self.made_of(self.functions[name])
        return self.known[name]

    def given_by_none(self):
        """The codes that no function gives."""
        given = {"OK", *self.in_common(), *(code for name in self.functions for code in self.of(name))}
        return [f"CQ_{name}" for name in self.numbers if name not in given]
