#!/usr/bin/env python3
"""Measures `tiwalk` on large documents at 1/8, 1/4, 1/2 and all of their size.

For each document and size it prints how many items it has and how many bytes were written, and of each program the
millions of instructions, where they can be counted, the seconds of processor time and of wall time (the least of three
runs), and the peak memory (the greatest). Growth is to be linear: four times the size, four times the instructions.

Live scripts (`live_documents.py`) come last. Their threads wait for each other, so their instructions are not counted:
the programs take turns. What a run writes depends on its schedule, and a run that wrote less than nine tenths of the most
is left out, since its agents came before the threads had begun; there are runs until ten of each program count, but no
more than eighty.

    bench/bench.py [--callgrind] [--live] [PROGRAM..]

`make run` builds crates/tiwalk/out/tiwalk, the program by default. Where bench/plain/target/release/plain is there, too,
it stands beside it (`plain/src/main.rs` says how it is built). `--live` leaves out all but the live scripts.

Instructions are counted by `perf stat`, or by valgrind's callgrind where `--callgrind` asks for it (some minutes); `-`
stands where nothing counts them. For several programs the columns stand side by side, so that one tree is compared with
another; `-` stands for a document that a program refuses. For two programs each line ends with the ratios of the first to
the second, of processor time and of memory.
"""

import dataclasses
import json
import multiprocessing
import os
import random
import re
import subprocess
import sys
import tempfile
import time

sys.dont_write_bytecode = True

import live_documents

EVENTS = 65536
RUNS = 3
LIVE_RUNS = 10
MOST_RUNS = 80
TIWALK = "crates/tiwalk/out/tiwalk"
PLAIN = "bench/plain/target/release/plain"
PARTS = (8, 4, 2, 1)
AGENTS = [f"a{n}" for n in range(8)]


def walk(limits, threads, agents, methods, events):
    return {"limits": limits, "threads": threads, "agents": agents, "methods": methods, "events": events}


def mixed(part):
    """A natural mix over 64 threads and 8 agents: steps, polls, hand-overs, questions and words."""
    chance = random.Random(7)
    threads = [f"t{n}" for n in range(64)]
    methods = [f"m{n}" for n in range(50)]
    events = [[agent, "add", ["can_suspend"]] for agent in AGENTS] + [[thread, "start"] for thread in threads]
    while len(events) < EVENTS // part:
        thread, agent = chance.choice(threads), chance.choice(AGENTS)
        events.append(
            chance.choices(
                [
                    [thread, "enter", chance.choice(methods)],
                    [thread, "leave"],
                    [thread, "at", chance.randrange(1000)],
                    [thread, "poll"],
                    [thread, "block", "park"],
                    [thread, "back"],
                    [agent, "count", thread],
                    [agent, "trace", thread, 0, 8],
                    [agent, "set", thread, chance.randrange(1000)],
                    [agent, "get", thread],
                    [agent, "suspend", thread],
                    [agent, "resume", thread],
                ],
                [20, 14, 10, 14, 3, 5, 9, 9, 6, 6, 2, 2],
            )[0]
        )
    return walk({"depth": 64, "own": 65536, "calls": 1024}, threads, AGENTS, methods, events[: EVENTS // part])


def deep(part):
    """One thread that goes near depth 4,096, and 8,192 traces of its 256 oldest frames, eight at each poll."""
    events = [["t", "start"]] + [["t", "enter", "m"] for _ in range(4090 // part)]
    for turn in range(1024 // part):
        events += [[agent, "trace", "t", -256, 256] for agent in AGENTS]
        events += [["t", "at", turn]] * 51 + [["t", "poll"]]
    return walk({"depth": 4096, "own": 65536, "calls": 1024}, ["t"], AGENTS, ["m"], events)


def waiting(part):
    """8 agents with the 1,024 waiting calls that each may have at each of 7 running threads, answered by one poll each."""
    threads = [f"t{n}" for n in range(7)]
    events = [[thread, "start"] for thread in threads]
    for thread in threads:
        events += [[agent, "count", thread] for _ in range(1024 // part) for agent in AGENTS]
    events += [[thread, "poll"] for thread in threads]
    return walk({"depth": 4, "own": 32, "calls": 1024}, threads, AGENTS, [], events)


def rooms(part):
    """The greatest core, of 64 threads of 4,096 frames and 32 agents, which is hardly used: a start, a question, a poll."""
    threads, agents = [f"t{n}" for n in range(64 // part)], [f"a{n}" for n in range(32)]
    events = [["t0", "start"], ["a0", "count", "t0"], ["t0", "poll"]]
    return walk({"depth": 4096, "own": 65536, "calls": 1024}, threads, agents, [], events)


def history(entries, agents=8):
    limits = {"depth": 4, "own": 65536, "calls": 1024}
    return {"format": 1 if agents <= 8 else 2, "limits": limits, "agents": agents, "entries": entries}


def steps(part):
    """All own steps that a thread has, and its end."""
    return [["enter", 0], ["leave"]] * (65536 // part // 2) + [["end"]]


def longest(part, agents=32):
    """The longest legal history, of 196,610 entries: each environment spends its calls on stops, which leave four each."""
    stops = [
        entry
        for _ in range(1024 // part)
        for env in range(agents)
        for entry in (["stop", env], ["hand", "poll"], ["go", env], ["back"])
    ]
    return history([["start"]] + stops + steps(part), agents)


def longest_of_eight(part):
    """The same of eight environments, as format 1 has it: 98,306 entries."""
    return longest(part, 8)


def illegal(part):
    """The longest history with an end too many."""
    return history(longest(part)["entries"] + [["end"]], 32)


def asked(part):
    """A legal history in which each environment spends its calls on questions, all asked at once and answered by one
    hand-over for each 64 of them."""
    entries = [["start"]]
    for number in range(1024 // part):
        entries += [["asked", env, number, "count"] for env in range(8)]
        if number % 8 == 7:
            entries += [["hand", "poll"], ["back"]]
    return history(entries + steps(part))


def greatest(part):
    """As many entries as a document may have. At the whole size they are more than a legal history has: illegal where the
    own steps are used up."""
    return history((longest(1)["entries"][:-1] + [["leave"]] * 262144)[: 262144 // part], 32)


@dataclasses.dataclass
class Cost:
    """What a run took, and how much it wrote."""

    seconds: float
    wall: float
    memory: int
    written: int


def run(program, arguments, path):
    """What one run took; None where the program refuses the document."""
    with open(path, "rb") as source, tempfile.TemporaryFile() as sink, open(os.devnull, "wb") as silence:
        start = time.perf_counter()
        child = os.fork()
        if child == 0:
            for stream, number in ((source, 0), (sink, 1), (silence, 2)):
                os.dup2(stream.fileno(), number)
            os.execv(program, [program] + arguments)
        _, status, usage = os.wait4(child, 0)
        wall = time.perf_counter() - start
        written = sink.seek(0, os.SEEK_END)
    code = os.waitstatus_to_exitcode(status)
    if code not in (0, 1, 2):
        sys.exit(f"{program} ended with status {code}")
    return None if code == 2 else Cost(usage.ru_utime + usage.ru_stime, wall, usage.ru_maxrss, written)


def counter(asks_callgrind):
    """The words that count the instructions of the command after them, with the pattern of the count; or None."""
    if asks_callgrind:
        return ["valgrind", "--tool=callgrind", "--callgrind-out-file=/dev/null"], r"refs:\s+([\d,]+)"
    perf = ["perf", "stat", "-x", ";", "-e", "instructions:u"], r"^(\d+);"
    try:
        tried = subprocess.run([*perf[0], "true"], capture_output=True, text=True)
    except OSError:
        return None
    return perf if re.search(perf[1], tried.stderr, re.M) else None


def millions(count, program, arguments, path):
    """The millions of instructions of one run, or None."""
    if not count:
        return None
    words, pattern = count
    with open(path, "rb") as source:
        done = subprocess.run([*words, program, *arguments], stdin=source, stdout=subprocess.DEVNULL, stderr=subprocess.PIPE)
    return int(re.search(pattern, done.stderr.decode(), re.M)[1].replace(",", "")) / 1e6


def summed_up(costs):
    """The least times and the greatest memory of some runs; None where there is none."""
    if not costs:
        return None
    seconds, wall = (min(getattr(cost, name) for cost in costs) for name in ("seconds", "wall"))
    return Cost(seconds, wall, max(cost.memory for cost in costs), max(cost.written for cost in costs))


def counted(costs, written):
    """The runs that count: not those that wrote much less than the most that was written."""
    return [cost for cost in costs if cost and 10 * cost.written >= 9 * written]


def measured(programs, arguments, path):
    """What each program took, and the most that was written."""
    least, most = (LIVE_RUNS, MOST_RUNS) if arguments == ["live"] else (RUNS, RUNS)
    costs, written = [[] for _ in programs], 0
    for turn in range(most):
        if turn >= least and all(len(counted(its, written)) >= least for its in costs):
            break
        for program, its in zip(programs, costs):
            its.append(run(program, arguments, path))
        written = max([written, *(its[-1].written for its in costs if its[-1])])
    return [summed_up(counted(its, written)) for its in costs], written


def columns(cost, instructions):
    """The columns of one program."""
    if not cost:
        return f"{'-':>10} {'-':>8} {'-':>8} {'-':>8}"
    first = "-" if instructions is None else f"{instructions:.1f}"
    return f"{first:>10} {cost.seconds:8.3f} {cost.wall:8.3f} {cost.memory:8}"


def ratios(costs):
    """The columns of the ratios, where there are two programs."""
    if len(costs) != 2:
        return []
    if None in costs:
        return [f"{'-':>8} {'-':>8}"]
    ours, others = costs
    return [f"{ours.seconds / others.seconds:8.2f} {ours.memory / others.memory:8.2f}"]


DOCUMENTS = (
    ("mixed walk", mixed, []),
    ("deep traces", deep, []),
    ("waiting calls", waiting, []),
    ("greatest rooms", rooms, []),
    ("longest history", longest, ["check"]),
    ("longest of eight", longest_of_eight, ["check"]),
    ("one end more", illegal, ["check"]),
    ("asked history", asked, ["check"]),
    ("262,144 entries", greatest, ["check"]),
)
LIVE = tuple((f"live: {name}", make, ["live"]) for name, make in live_documents.DOCUMENTS)


def items_of(document):
    """The events of a walk, the entries of a history, the operations and calls of a live script."""
    if "walks" in document:
        return sum(map(len, document["walks"])) + sum(map(len, document["calls"]))
    return len(document.get("events", document.get("entries")))


def write(make, part, path):
    """Writes a document of that size, and gives the number of its items."""
    document = make(part)
    with open(path, "w") as file:
        json.dump(document, file, separators=(",", ":"))
    return items_of(document)


def main():
    words = sys.argv[1:]
    count = counter("--callgrind" in words)
    programs = [os.path.abspath(word) for word in words if not word.startswith("--")]
    programs = programs or [os.path.abspath(TIWALK), *filter(os.path.isfile, [os.path.abspath(PLAIN)])]
    for program in programs:
        if not os.path.isfile(program):
            sys.exit(f"there is no {program}: `make run` builds it")
        print(f"program: {program}")
    heads = [f"{'M instr.':>10} {'seconds':>8} {'wall':>8} {'peak KB':>8}"] * len(programs)
    heads += [f"{'time':>8} {'memory':>8}"] if len(programs) == 2 else []
    print(f"{'document':17} {'part':>5} {'items':>8} {'written':>10}", *heads, sep=" | ")
    # documents are made in a process of their own, since a run's peak is at least what this one has
    with multiprocessing.Pool(1) as maker, tempfile.TemporaryDirectory() as room:
        path = os.path.join(room, "document.json")
        for name, make, arguments in LIVE if "--live" in words else DOCUMENTS + LIVE:
            for part in PARTS:
                items = maker.apply(write, (make, part, path))
                costs, written = measured(programs, arguments, path)
                counts = [None if arguments == ["live"] or not cost else millions(count, program, arguments, path)
                          for program, cost in zip(programs, costs)]
                line = f"{name:17} {'1/' + str(part):>5} {items:8} {written:>10}"
                print(line, *map(columns, costs, counts), *ratios(costs), sep=" | ", flush=True)


if __name__ == "__main__":
    main()
