#!/usr/bin/env python3
"""What the service costs: python3 measure.py [--rounds N] [--callgrind] [SCRIPT..]

Each round runs each script in three ways, one after the other, and each round begins with another way: without the
service, attached with nobody asking, and sampled 1,000 times a second. A ratio is that of two runs of one round. The
tables have the medians of the ratios, and between which values half of them lie. The time on processors is that of the
process, less what the agent took. On a machine with other work it says more than the clock.

With --deep the script runs at a depth of its own stack, in the last two ways. The table has the medians of the ratios
of the time on processors.

With --stops a debugger is attached, and has a breakpoint in another script, or in a function of the script that runs once.

With --hits a debugger has a breakpoint in a function that is called all the time. The table has the clock's microseconds for a hit
that JDWP's Count counts, and for one that is told, after which the thread is resumed.

With --callgrind valgrind counts the instructions of the first two ways, which no other work changes. The table has the
least of five runs, since Lua's hashes differ from run to run. With both, it counts what it takes to read the stack
once.
"""
import argparse
import contextlib
import os
import pathlib
import re
import statistics
import struct
import subprocess
import sys
import tempfile
import time

sys.dont_write_bytecode = True

import jdwp

HERE = pathlib.Path(__file__).resolve().parent
SCRIPTS = HERE / "scripts"
CQLUA = str((HERE / os.environ.get("OUT", "out") / "cqlua").resolve())
SIZES = {"nbody.lua": 60000, "binary_trees.lua": 13, "fannkuch.lua": 9, "spectral_norm.lua": 250, "sleeper.lua": 5}
COUNTED = {"nbody.lua": 5000, "binary_trees.lua": 10, "fannkuch.lua": 7, "spectral_norm.lua": 100, "sleeper.lua": 1}
WAYS = {"without": ["run", "--no-service"], "attached": ["run"], "sampled": ["prof", "--rate", "1000"]}
DEPTHS = [10, 1000, 10000, 150000]
DEEP = """
local function work() local s = 0 for i = 1, N do s = (s * 3 + i) % 11 end return s end
local function down(n) if n > 1 then return 1 + down(n - 1) end return 1 + work() end
down(DEPTH)
"""
BREAKPOINT, SUSPENDS_ALL = 2, 2
# A line of rests.lua that is not reached, and for each script a function that runs once or twice, and a line of it.
REST_LINE = 6
CALLED_LINE = 3
COLD = {"nbody.lua": ("energy", 46), "fannkuch.lua": ("main", 64), "spectral_norm.lua": ("main", 49)}
ASKED = {("attached", "without"): 1.02, ("sampled", "attached"): 1.03}


def run(way, name, folder):
    """The time of a run on the clock, and of the scripts' threads on processors."""
    words = [CQLUA, *WAYS[way], "-e", f"N = {SIZES[name]}"]
    if way == "sampled":
        words += ["-o", str(pathlib.Path(folder) / "profile.txt")]
    start = time.perf_counter()
    process = subprocess.Popen([*words, name], cwd=SCRIPTS, stdout=subprocess.DEVNULL, stderr=subprocess.PIPE,
                               text=True)
    text = process.stderr.read()
    _, status, usage = os.wait4(process.pid, 0)
    process.returncode = os.waitstatus_to_exitcode(status)
    seconds = time.perf_counter() - start
    if process.returncode:
        sys.exit(f"{' '.join(words)}: {text}")
    agent = re.search(r"the agent took ([\d.]+) s", text)
    return seconds, usage.ru_utime + usage.ru_stime - (float(agent.group(1)) if agent else 0)


def row(name, rounds, which):
    """A line of a table. `rounds` has the two times of each way, for each round, and the table is of one of them."""
    times = {way: [one[way][which] for one in rounds] for way in WAYS}
    cells = [name, f"{statistics.median(times['without']):.2f}"]
    for above, below in ASKED:
        low, middle, high = statistics.quantiles((a / b for a, b in zip(times[above], times[below])), n=4)
        cells.append(f"{middle:.3f} ({low:.3f} to {high:.3f})")
    return "| " + " | ".join(cells) + " |"


def instructions(way, name):
    """How many the least of five runs takes, by valgrind."""
    words = ["valgrind", "--tool=callgrind", "--callgrind-out-file=/dev/null", CQLUA, *WAYS[way], "-e",
             f"N = {COUNTED[name]}", name]
    texts = [subprocess.run(words, cwd=SCRIPTS, capture_output=True, text=True).stderr for _ in range(5)]
    return min(int(re.search(r"Collected : (\d+)", text).group(1)) for text in texts)


def count_instructions(names):
    print("\n| script | millions of instructions without | attached / without |\n|---|---|---|")
    for name in names:
        without, attached = instructions("without", name), instructions("attached", name)
        print(f"| {name} | {without / 1e6:.1f} | {attached / without:.5f} |", flush=True)


def deep_script(folder):
    path = pathlib.Path(folder) / "deep.lua"
    path.write_text(DEEP)
    return str(path)


def processor_time(way, depth, path, folder):
    SIZES[path] = 15000000
    WAYS["deep"] = [*WAYS[way], "-e", f"DEPTH = {depth}"]
    return run("deep", path, folder)[1]


def measure_deep(rounds):
    """A line for each depth: the script's time on processors with samples, beside without."""
    print("\n| depth | attached, s | sampled / attached |\n|---|---|---|")
    with tempfile.TemporaryDirectory() as folder:
        path = deep_script(folder)
        for depth in DEPTHS:
            times = [[processor_time(way, depth, path, folder) for way in ("attached", "sampled")]
                     for _ in range(rounds)]
            low, middle, high = statistics.quantiles((b / a for a, b in times), n=4)
            attached = statistics.median(a for a, _ in times)
            print(f"| {depth:,} | {attached:.2f} | {middle:.3f} ({low:.3f} to {high:.3f}) |", flush=True)


def instructions_of_a_reading(depth, path, folder):
    """How many it takes to read the stack once, at this depth, and how often it was read."""
    out = pathlib.Path(folder) / "callgrind.out"
    subprocess.run(["valgrind", "--tool=callgrind", f"--callgrind-out-file={out}", CQLUA, "prof", "--rate", "100",
                    "-o", os.devnull, "-e", f"DEPTH = {depth} N = 500000", path], capture_output=True, check=True)
    text = subprocess.run(["callgrind_annotate", "--inclusive=yes", "--threshold=100", str(out)], capture_output=True,
                          text=True, check=True).stdout
    count = re.search(r"^ *([\d,]+) \([^)]*\) +\S*:stack_read \[", text, re.M).group(1)
    times = int(re.search(r"=> \S*:stack_read \((\d+)x\)", text).group(1))
    return int(count.replace(",", "")) / times, times


def count_deep():
    print("\n| depth | readings | instructions of one |\n|---|---|---|")
    with tempfile.TemporaryDirectory() as folder:
        path = deep_script(folder)
        for depth in DEPTHS:
            count, times = instructions_of_a_reading(depth, path, folder)
            print(f"| {depth:,} | {times} | {count:,.0f} |", flush=True)


def stopper(wire, script, method, line, count=None):
    """Asks for a breakpoint at a line of a method, or for the last of so many hits."""
    class_ = wire.classes()[f"L{script};"][0]
    number = next(number for number, name in wire.methods(class_).items() if name == method)
    modifiers = [struct.pack(">BB", 7, 1) + jdwp.ids(class_, number, line)]
    if count is not None:
        modifiers.append(struct.pack(">Bi", 1, count))
    wire.ask(15, 1, struct.pack(">BBi", BREAKPOINT, SUSPENDS_ALL, len(modifiers)) + b"".join(modifiers))


def time_with_debugger(name, place):
    """The scripts' time on processors, beside a script that sleeps, while a debugger has a breakpoint at this place, or has none."""
    words = [CQLUA, "run", "--debug", "127.0.0.1:0", "--suspend", "-e", f"N = {SIZES[name]}", name, "rests.lua"]
    process = subprocess.Popen(words, cwd=SCRIPTS, stdout=subprocess.DEVNULL, stderr=subprocess.PIPE, text=True)
    with jdwp.Wire(int(re.search(r":(\d+)\n", process.stderr.readline())[1])) as wire:
        if place:
            stopper(wire, *place)
        with contextlib.suppress(jdwp.Closed):
            while True:
                wire.resume()
                wire.read()
    _, status, usage = os.wait4(process.pid, 0)
    process.returncode = os.waitstatus_to_exitcode(status)
    return usage.ru_utime + usage.ru_stime


def measure_stops(rounds, names):
    """A line for each script: its time with a debugger that has a breakpoint in another script, or in a function of its own that runs
    once, beside the time with a debugger that has none."""
    print("\n| script | no breakpoint, s | in another script | in a cold function of its own |\n|---|---|---|---|")
    for name in names:
        places = (None, ("rests", "rest", REST_LINE), (pathlib.Path(name).stem, *COLD[name]))
        none, elsewhere, own = (min(time_with_debugger(name, place) for _ in range(rounds)) for place in places)
        print(f"| {name} | {none:.2f} | {elsewhere / none:.2f} | {own / none:.2f} |", flush=True)


def await_event(wire):
    while not wire.events:
        wire.read()
    wire.events.pop()


def time_hits(count):
    """The clock's microseconds for each of so many hits that are counted, and that are told."""
    words = [CQLUA, "run", "--debug", "127.0.0.1:0", "--suspend", "calls.lua"]
    with subprocess.Popen(words, cwd=SCRIPTS, stderr=subprocess.PIPE, text=True) as process:
        with jdwp.Wire(int(re.search(r":(\d+)\n", process.stderr.readline())[1])) as wire:
            await_event(wire)
            wire.resume()
            while "Lcalls;" not in wire.classes():
                time.sleep(0.01)
            times = [time.monotonic()]
            stopper(wire, "calls", "add", CALLED_LINE, count)
            await_event(wire)
            times.append(time.monotonic())
            stopper(wire, "calls", "add", CALLED_LINE)
            for _ in range(count):
                wire.resume()
                await_event(wire)
            times.append(time.monotonic())
        process.kill()
    return [1e6 * (after - before) / count for before, after in zip(times, times[1:])]


def measure_hits(rounds):
    counted, told = (sorted(times) for times in zip(*(time_hits(1000) for _ in range(rounds))))
    print("\n| a hit | least, us | median, us |\n|---|---|---|")
    for name, times in ("counted", counted), ("told, and the thread resumed", told):
        print(f"| {name} | {times[0]:.1f} | {statistics.median(times):.1f} |")


def table(title, results, which):
    heads = ["script", "without, s"] + [f"{above} / {below}" for above, below in ASKED]
    print(f"\n{title}:\n\n| " + " | ".join(heads) + " |\n" + "|---" * len(heads) + "|")
    for name, rounds in results.items():
        print(row(name, rounds, which))


def main():
    parser = argparse.ArgumentParser()
    parser.add_argument("--rounds", type=int, default=30)
    parser.add_argument("--callgrind", action="store_true")
    parser.add_argument("--deep", action="store_true")
    parser.add_argument("--stops", action="store_true")
    parser.add_argument("--hits", action="store_true")
    parser.add_argument("scripts", nargs="*", default=list(SIZES))
    options = parser.parse_args()
    if subprocess.run(["make", "-s", "-C", str(HERE)]).returncode:
        sys.exit(1)
    if options.hits:
        return measure_hits(options.rounds)
    if options.stops:
        return measure_stops(options.rounds, [name for name in options.scripts if name in COLD])
    if options.deep:
        return count_deep() if options.callgrind else measure_deep(options.rounds)
    if options.callgrind:
        return count_instructions(options.scripts)
    print(f"{options.rounds} rounds, {os.cpu_count()} processors, load {os.getloadavg()[0]:.1f} at the start")
    print("asked: " + ", ".join(f"{above} / {below} at most {most}" for (above, below), most in ASKED.items()))
    sys.stdout.flush()
    ways, results = list(WAYS), {name: [] for name in options.scripts}
    with tempfile.TemporaryDirectory() as folder:
        for number in range(options.rounds):
            first = number % len(ways)
            for name in options.scripts:
                results[name].append({way: run(way, name, folder) for way in ways[first:] + ways[:first]})
    table("On the clock", results, 0)
    table("On processors, the scripts' threads", results, 1)
    print(f"\nload {os.getloadavg()[0]:.1f} at the end")


if __name__ == "__main__":
    main()
