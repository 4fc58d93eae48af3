"""What the tests of the profiler have in common: a profile is made, read, and compared with plain Lua's."""
import collections
import math
import pathlib
import re

from shared import LUA, cqlua, run

RATE = 1000


def folded(path):
    """The stacks of a profile, and how often each was seen. A line that does not parse is an error."""
    stacks = collections.Counter()
    for line in pathlib.Path(path).read_text().splitlines():
        stack, count = re.fullmatch(r"(.+) (\d+)", line).groups()
        stacks[tuple(stack.split(";"))] += int(count)
    return stacks


def profile(folder, *words):
    path = str(pathlib.Path(folder) / "profile.txt")
    result = cqlua("prof", "--rate", str(RATE), "-o", path, *words)
    match = re.search(r"(\d+) ticks in ([\d.]+) s, (\d+) stacks, (\d+) times late, worth (\d+)", result.stderr)
    return result, folded(path), [float(number) for number in match.groups()] if match else None


def newest(stacks):
    """Counts by the place of the newest Lua function's definition. What a C function takes is its caller's, as it is in
    plain Lua, whose hook is called in Lua functions alone."""
    counts = collections.Counter()
    for stack, count in stacks.items():
        last = next((frame for frame in reversed(stack) if not frame.startswith("[C]") and frame != "late"), "late")
        counts[re.sub(r".*\((.*)\)", r"\1", last)] += count
    return counts


def counts_of_plain_lua(folder, name):
    path = pathlib.Path(folder) / "counts.txt"
    run(LUA, "traceback_counts.lua", name, str(RATE), str(path))
    counts = collections.Counter()
    for line in path.read_text().splitlines():
        count, where = line.split(" ", 1)
        counts[where] += int(count)
    return counts


def other_shares(ours, plain, worth):
    """The functions whose shares in two lists of counts differ, each with both shares and the standard error.

    If the share is p, it is seen in n samples with a standard error of sqrt(p (1 - p) / n). A stack that came late
    counts as often as it was due. So n is not the number of stacks, but what they are worth: as many that count once
    would err as much. The tolerance is four standard errors of the difference, and a hundredth besides, since the hook
    of plain Lua takes time for each instruction alike.
    """
    n1, n2 = sum(ours.values()), sum(plain.values())
    for where in sorted(set(ours) | set(plain)):
        a, b = ours[where] / n1, plain[where] / n2
        p = (ours[where] + plain[where]) / (n1 + n2)
        error = math.sqrt(p * (1 - p) * (1 / worth + 1 / n2))
        if max(a, b) >= 0.005 and abs(a - b) > 4 * error + 0.01:
            yield where, a, b, error
