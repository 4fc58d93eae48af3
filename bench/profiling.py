#!/usr/bin/env python3
"""What sampling costs the worker that is sampled, how long samples of many workers take, and whether memory grows.

    cd crates/tiprof && rt run -- --samples 0; cd ../..
    python3 bench/profiling.py [ROUNDS]
    python3 bench/profiling.py --callgrind

In each round one worker makes the same jobs at each rate, in both ways, in an order that changes from round to round. A
line gives the processor time of a job, and how much more it is than in the same round's run with no samples: the median
over the rounds, and between which values half of them lie. The aims are of handshakes, on four processors with nothing
else to do. Last comes the peak of the memory of long runs, which has to be below 1.1 times that after a tenth. Otherwise
the status is 1.

With --callgrind it counts the worker's instructions by valgrind, which no other load changes: of a job, and how many more
a sample takes. How many samples a job has at a rate comes from a run without valgrind.
"""

import pathlib
import re
import statistics
import subprocess
import sys
import tempfile

from usage import watch

TIPROF = str(pathlib.Path(__file__).parents[1] / "crates/tiprof/out/tiprof")
WAYS = ("handshake", "standing")
RATES = {100: None, 1_000: 1.0, 10_000: 5.0}
JOBS = 100
MANY = ("--threads", "64", "--samples", "200", "--interval", "1000")
LONG = 3_600_000
MOST = 1.1
# under valgrind: as many rounds of the jobs, and the microseconds between two samples, some ten of which fall on a job
COUNTED_JOBS = 10
COUNTED_INTERVAL = 20_000
SAID = re.compile(
    r"tiprof: (\d+) samples of \d+ threads in (\d+) ms; \d+ live threads seen, \d+ stacks folded; "
    r"(\d+) jobs, (\d+) us of processor"
)


def said(*arguments, before=()):
    """The numbers of a run's last line: samples, milliseconds, jobs, and microseconds of the processor."""
    ended = subprocess.run((*before, TIPROF, *arguments), capture_output=True, text=True, check=True)
    lines = [line for line in ended.stderr.splitlines() if line.startswith("tiprof: ")]
    return [int(number) for number in SAID.match(lines[-1]).groups()]


def job(way, rate):
    """The microseconds of the processor of a job, at so many samples a second."""
    interval = 1_000_000 // rate if rate else 60_000_000
    samples, millis, jobs, micros = said(
        "--threads", "1", "--jobs", str(JOBS), "--interval", str(interval), f"--{way}"
    )
    return micros / jobs, samples * 1000 / millis


def costs(rounds):
    """The runs at each rate: the time of a job, that beside none in percent, and the samples a second."""
    kinds = [(way, rate) for rate in RATES for way in WAYS]
    runs = {kind: [] for kind in kinds}
    none = []
    for turn in range(rounds):
        bare, _ = job(WAYS[0], 0)
        none.append(bare)
        first = turn % len(kinds)
        for kind in kinds[first:] + kinds[:first]:
            micros, rate = job(*kind)
            runs[kind].append((micros, (micros / bare - 1) * 100, rate))
    return none, runs


def write_costs(rounds):
    none, runs = costs(rounds)
    print(f"one worker, {rounds} rounds of {4 * JOBS} jobs at each rate")
    print(f"  no samples: {statistics.median(none):.0f} us a job")
    for (way, rate), found in runs.items():
        micros, more, rates = zip(*found)
        low, middle, high = statistics.quantiles(more, n=4)
        aim = RATES[rate] if way == "handshake" else None
        verdict = "" if aim is None else f"; aim below {aim:g} %: {'met' if middle < aim else 'missed'}"
        print(
            f"  {rate:6} a second, {way}: {statistics.median(micros):.0f} us a job, {middle:+.1f} % "
            f"({low:+.1f} to {high:+.1f}); {statistics.median(rates):.0f} a second were taken{verdict}"
        )


def write_many(rounds):
    print("64 workers, 200 samples at 1 ms; the aim is 400 ms")
    for way in WAYS:
        took = sorted(said(*MANY, f"--{way}")[1] for _ in range(rounds))
        print(f"  {way}: {statistics.median(took):.0f} ms ({took[0]} to {took[-1]})")


def write_memory():
    """Whether a long run takes no more memory than a tenth of it."""
    flat = True
    print("memory of one worker at the interval 1")
    for way in WAYS:
        part, whole = (
            watch(TIPROF, "--threads", "1", "--interval", "1", "--samples", str(samples), f"--{way}")
            for samples in (LONG // 10, LONG)
        )
        ratio = whole.kilobytes / part.kilobytes
        flat = flat and ratio < MOST
        print(f"  {way}: {part.kilobytes} KB at most for {LONG // 10} samples, {whole.kilobytes} for {LONG}: {ratio:.2f}")
    return flat


def counted(way, interval):
    """The instructions of the worker, which is the thread with the most, its jobs, and the samples, by valgrind."""
    with tempfile.TemporaryDirectory() as folder:
        tool = ("valgrind", "--tool=callgrind", "--separate-threads=yes", f"--callgrind-out-file={folder}/out")
        samples, _, jobs, _ = said(
            "--threads", "1", "--jobs", str(COUNTED_JOBS), "--interval", str(interval), f"--{way}", before=tool
        )
        texts = (file.read_text() for file in pathlib.Path(folder).iterdir())
        totals = [int(total) for text in texts for total in re.findall(r"^totals: (\d+)$", text, re.M)]
    return max(totals), jobs, samples


def write_instructions():
    bare, jobs, _ = counted(WAYS[0], 60_000_000)
    print(f"instructions of the worker, by valgrind: {bare / jobs:.0f} a job")
    for way in WAYS:
        instructions, _, samples = counted(way, COUNTED_INTERVAL)
        each = (instructions - bare) / samples
        print(f"  {way}: {each:.0f} more a sample ({samples} samples)")
        for rate in RATES:
            samples, _, native_jobs, _ = said(
                "--threads", "1", "--jobs", str(JOBS), "--interval", str(1_000_000 // rate), f"--{way}"
            )
            print(f"    {rate:6} a second: {each * samples / native_jobs * jobs / bare * 100:+.3f} % of a job's")


def main():
    if sys.argv[1:] == ["--callgrind"]:
        write_instructions()
        return
    rounds = int(sys.argv[1]) if sys.argv[1:] else 12
    write_costs(rounds)
    write_many(min(rounds, 5))
    if not write_memory():
        sys.exit(f"memory grows: a peak is not below {MOST} times that after a tenth")


if __name__ == "__main__":
    main()
