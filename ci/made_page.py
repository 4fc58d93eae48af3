"""What `ci/generate.py` writes for readers: docs/CODES.md."""

import api
import codes
import header
from made_c import SAID

HEAD = """# Codes

{said}

What each code means, and which functions give it. `man 3 cebdyraq` says when. Numbers below 200 are JVM TI 11's. `cq_code_name` and `cq_code_text` tell a program what stands here.

| Number | Name | When |
|---|---|---|
{meanings}

## By function

If several codes fit, a function gives the first of its list, except that BUSY may come before any of them.

- Each function that takes a {handles} also gives MISUSED, before all others{never}.
- *Calls at a thread* may also give {in_common}. Where `cebdyraq_wait.h` has the call it waits in place of {waits}.
- *The call's* are the codes of the call whose answer is collected.
- A `cq_wait_` function that is not below gives what its namesake gives, without {ended}, and TIMED_OUT if it takes a time.
"""
PART = """
### {header}

| Function | Codes |
|---|---|
{rows}
"""


def listed(names, last=" or "):
    *before, end = names
    return f"{', '.join(before)}{last}{end}" if before else end


def quoted(names):
    return [f"`{name}`" for name in names]


def meaning(constant):
    return f"| {constant.number} | {constant.bare} | {constant.meaning} |"


class Page:
    def __init__(self, table):
        self.table, self.codes = table, codes.Codes(table)

    def given(self, function):
        """What a function gives, as a cell of the table."""
        told = [", ".join(self.codes.of(function.name))] if self.codes.of(function.name) else []
        if self.codes.at_a_thread(function.name):
            told.insert(0, "*Calls at a thread*")
        if self.codes.of_the_call(function.name):
            told.append("*The call's*")
        return "; ".join(told)

    def follows(self, function):
        """Whether a waiting function gives what its namesake gives, but for what its waiting ends."""
        if function.namesake == function.name or function.namesake not in self.codes.functions:
            return False
        ended = codes.ENDED_BY_WAITING | (codes.ENDED_AT_A_THREAD if self.codes.at_a_thread(function.name) else set())
        left = set(self.codes.of(function.namesake)) - ended
        return set(self.codes.of(function.name)) == left | ({"TIMED_OUT"} if self.codes.may_time_out(function) else set())

    def part(self, name):
        """The functions of a header that give a code, but for those that follow their namesakes."""
        functions = [one for one in self.table.functions if one.header == name and one.result == api.Type("uint32_t") and one.parameters]
        functions = [one for one in functions if not self.follows(one)]
        rows = [f"| `{one.name}` | {self.given(one)} |" for one in functions if self.given(one)]
        others = [one.name for one in functions if not self.given(one)]
        return PART.format(header=name, rows="\n".join(rows)) + (f"\nNo other code: {', '.join(quoted(others))}.\n" if others else "")

    def text(self):
        handles = [one.name for one in self.table.structs if one.members and [member.name for member in one.members][:2] == ["kind", "at"]]
        never = [one.name for one in self.table.functions if codes.NO_OTHER in api.flat(one.comment)]
        common = self.codes.in_common()
        waits = [name for name in common if name in codes.ENDED_BY_WAITING | codes.ENDED_AT_A_THREAD]
        head = HEAD.format(said=SAID, meanings="\n".join(map(meaning, self.table.enum("cq_code").constants)), handles=listed(quoted(handles)),
                           never=f", but for {listed(quoted(never))}" if never else "", in_common=listed(common, " and "),
                           waits=listed(waits), ended=listed(sorted(codes.ENDED_BY_WAITING)))
        return head + "".join(map(self.part, header.HEADERS))


def codes_page(table):
    return Page(table).text()
