"""Large live scripts, at any part of their size. Each comes to its end on every schedule.

A thread that is suspended waits for a resumption, and each agent resumes what it suspends: whatever the others do, after
the last suspension of a thread there is a resumption. No call is refused for want of calls, so no resumption is either.
Each thread parks after its last operation, so that calls that come late are answered with its frames, too.
"""

import itertools
import random

OPERATIONS = 65536
CALLS = 1024


def script(depth, methods, walks, calls):
    return {
        "limits": {"depth": depth, "own": 65536, "calls": CALLS},
        "threads": [f"t{n}" for n in range(len(walks))],
        "agents": [f"a{n}" for n in range(len(calls))],
        "methods": [f"m{n}" for n in range(methods)],
        "walks": walks,
        "calls": calls,
    }


def walking(count, depth):
    """A walk of so many operations: to that depth, then steps with a poll after each second one, then it parks."""
    turn = (["enter", "m0"], ["at", 7], ["poll"], ["leave"], ["at", 8], ["poll"])
    steps = itertools.islice(itertools.cycle(turn), count - depth - 2)
    return [["start"], *[["enter", "m0"]] * depth, *steps, ["block", "park"]]


def polls(part):
    """One thread that steps and polls all the time, and an agent that asks its state and sets and gets a word there."""
    calls = sum(([["state", "t0"], ["set", "t0", n], ["get", "t0"], ["setenv", n]] for n in range(CALLS // 3 // part)), [])
    return script(64, 1, [walking(OPERATIONS // part, 1)], [calls])


def mixed(part):
    """4 threads that step, poll, block and go native, and 4 agents with calls of all sorts."""
    chance = random.Random(7)
    walks = [sum((some_steps(chance) for _ in range(OPERATIONS // 4 // 9 // part)), []) for _ in range(4)]
    head, tail = [["start"]] + [["enter", "m0"]] * 40, [["block", "park"]]
    capable = [["add", ["can_suspend", "can_pop_frame"]]]
    calls = [sum((some_calls(chance) for _ in range(CALLS // 15 // part)), capable) for _ in range(4)]
    return script(64, 50, [head + walk + tail for walk in walks], calls)


def some_steps(chance):
    """Eight or nine operations, which leave a running thread as deep as it was."""
    method, place = f"m{chance.randrange(50)}", chance.randrange(1000)
    steps = [["enter", method], ["at", place], ["poll"]]
    if chance.random() < 0.25:
        return steps + [["enter_native", method], ["native"], ["back"], ["leave"], ["leave"]]
    kind = chance.choice(["park", "monitor", "wait", "sleep"])
    return steps + [["enter", method], ["poll"], ["block", kind], ["back"], ["leave"], ["leave"]]


def some_calls(chance):
    """43 calls in a random order, which cost 15 at a thread."""
    threads = [f"t{n}" for n in range(4)]
    calls = []
    for thread in threads:
        calls += [
            [["state", thread]],
            [["count", thread]],
            [["trace", thread, 0, 8]],
            [["location", thread, 0]],
            [["set", thread, chance.randrange(1000)], ["get", thread]],
            [["suspend", thread], ["pop", thread], ["resume", thread]],
        ]
    calls += [[["suspend_list", threads], ["resume_list", threads]], [["all", 8]], [["list", threads[1:], 4]]]
    calls += [[["caps"]], [["getenv"]], [["setenv", 5]]]
    chance.shuffle(calls)
    return sum(calls, [])


def deep(part):
    """One thread that goes to depth 4,090 and parks there, and 8 agents with 1,024 traces each of its 256 oldest frames."""
    walk = [["start"]] + [["enter", "m0"]] * (4090 // part) + [["poll"], ["block", "park"]]
    return script(4096, 1, [walk], [[["trace", "t0", -256, 256]] * (CALLS // part)] * 8)


def stacks(part):
    """4 threads that step and poll from depth 16 on, and 4 agents with 512 times all stacks each."""
    walk = walking(OPERATIONS // 4 // part, 16)
    return script(64, 1, [walk] * 4, [[["all", 16]] * (CALLS // 2 // part)] * 4)


def held(part):
    """8 threads that are suspended amid their steps, while an agent takes 8,000 traces of them, and resumed then."""
    threads = [f"t{n}" for n in range(8)]
    suspensions = [["add", ["can_suspend"]]] + [["suspend_list", threads]] * 4
    traces = [["trace", thread, 0, 16] for _ in range(1000 // part) for thread in threads]
    return script(64, 1, [walking(OPERATIONS // 8 // part, 16)] * 8, [suspensions + traces + [["resume_list", threads]]])


PARKED = [["start"], *[["enter", "m0"]] * 16, ["block", "park"]]


def asked(part):
    """64 parked threads, and 4 agents with 240 calls at each: its state, its word set and got, its frames counted."""
    calls = [
        call
        for n in range(60 // part)
        for thread in range(64)
        for call in (["state", thread], ["set", thread, n], ["get", thread], ["count", thread])
    ]
    return script(64, 1, [PARKED] * 64, [calls] * 4)


def parked(part):
    """64 parked threads, and 4 agents with 512 times all stacks each."""
    return script(64, 1, [PARKED] * 64, [[["all", 16]] * (CALLS // 2 // part)] * 4)


def lists(part):
    """64 parked threads, and 8 agents with 128 lists each of 512 suspensions or resumptions."""
    threads = list(range(64)) * 8
    calls = [["suspend_list", threads], ["resume_list", threads]] * (64 // part)
    return script(64, 1, [PARKED] * 64, [[["add", ["can_suspend"]], *calls]] * 8)


DOCUMENTS = (
    ("polls", polls),
    ("mixed calls", mixed),
    ("deep traces", deep),
    ("all stacks", stacks),
    ("held threads", held),
    ("single calls", asked),
    ("parked stacks", parked),
    ("list calls", lists),
)
