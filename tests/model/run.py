#!/usr/bin/env python3
"""Goes through the schedules of the waiting layer, `c/cebdyraq_wait.c`, and of the servers, `c/cebdyraq_serve.c`.

    run.py ARCHIVE --gate      the scenarios alone
    run.py ARCHIVE             also with each fault planted (`faults.py`), and the models with theirs, for which it needs spin

It writes TAP, with a test for each scenario and bounds, fault and model. CC names the compiler, otherwise cc. Without one nothing is
tried.
"""

import os
import pathlib
import re
import shutil
import subprocess
import sys
import tempfile
from concurrent.futures import ThreadPoolExecutor

sys.dont_write_bytecode = True

HERE = pathlib.Path(__file__).resolve().parent
TOP = HERE.parent.parent
sys.path.append(str(TOP / "ci"))

import faults
import tap

C = TOP / "c"
SCENARIOS = [HERE / f"{name}.c" for name in ("scenarios", "calls_at_threads", "traces", "stops", "news", "serving")]
SOURCES = [*SCENARIOS, *(HERE / f"{name}.c" for name in ("explore", "system", "sockets", "debuggers", "waits", "servers")),
           *(C / f"cebdyraq_{name}.c" for name in ("heap", "classes", "variables", "version"))]
FLAGS = ["-std=gnu11", "-O2", "-Wall", "-Wextra", "-Werror"]
LONGEST = 600
DO_NOT_WAIT = {"cq_server_variables", "cq_server_pops_frames", "cq_server_port"}

# The bounds of the gate: preemptions (-p), CQ_BUSY (-b), sleeps that end for no reason (-e), and runs of a scenario (-m). Some take
# schedules by chance (-r).
BOUNDS = [
    "-p 1 -m 100000",
    "-p 2 -m 30000",
    "-p 1 -b 1 -m 30000",
    "-b 3 -m 20000",
    "-p 1 -e 1 -m 20000",
    "-p 1 -b 1 -m 10000 -n",
    "-p 1 -b 1 -m 20000 -t 70000",
    "-p 1 -b 1 -m 20000 -s",
    "-r -p 4 -b 3 -e 2 -m 10000",
    "-w -p 1 -m 30000",
    "-w -p 2 -m 8000",
    "-w -p 1 -b 1 -m 4000",
    "-w -b 3 -m 2000",
    "-w -p 1 -e 1 -m 4000",
    "-w -p 1 -b 1 -m 2000 -n",
    "-w -p 1 -b 1 -m 2000 -t 70000",
    "-w -p 1 -b 1 -m 2000 -s",
    "-w -r -p 2 -b 2 -e 2 -m 4000",
]

# A fault is looked for by these, up to the first that finds it.
BOUNDS_OF_FAULTS = {
    "waits": ["-m 2000", "-w -m 200", "-p 1 -m 5000", "-p 1 -b 1 -m 5000", "-p 1 -b 1 -m 5000 -t 70000", "-p 2 -m 20000"],
    "servers": ["-w -m 2000", "-w -p 1 -m 3000", "-w -p 1 -e 1 -m 3000", "-w -p 2 -m 8000"],
}

# The models as they are, and with a fault: then a search ends in a state in which nobody goes on.
ONE = ["-DN=1", "-DBLOCKS"]
RIGHT = [("wait.pml", [*ONE]), ("wait.pml", [*ONE, "-DTIMED"]), ("wait.pml", [*ONE, "-DSUSPENDS"]), ("wait.pml", ["-DN=2"]),
         ("wait.pml", [*ONE, "-DF_SWALLOW", "-DALONE"]), ("cell.pml", []), ("cell.pml", ["-DOTHER"]),
         *(("watch.pml", [*words, *how]) for how in ([], ["-DFD"]) for words in ([], ["-DN=2", "-DPOSTS=1", "-DWATCHED"])),
         ("watch.pml", ["-DPOSTS=1", "-DWATCHED", "-DAGAIN"]), ("watch.pml", ["-DPOSTS=1", "-DPOLLS"])]
WRONG = [*(("wait.pml", [*ONE, fault]) for fault in ("-DF_EARLY", "-DF_LATE", "-DF_TRACE", "-DF_SWALLOW")),
         *(("wait.pml", [*ONE, "-DSUSPENDS", fault]) for fault in ("-DF_BIT", "-DF_END")),
         ("wait.pml", ["-DN=2", "-DF_ORDER"]),
         *(("cell.pml", [fault]) for fault in ("-DF_ADD", "-DF_LOAD", "-DF_QUIET", "-DF_CALLED", "-DF_FREE")),
         *(("watch.pml", [fault]) for fault in ("-DF_NEWS", "-DF_TOLD", "-DF_WANTED", "-DF_LOOK", "-DF_BEFORE", "-DF_SEEN", "-DF_TAKE", "-DF_WAKERS",
                                                "-DF_BACK", "-DF_ONCE")),
         *(("watch.pml", ["-DFD", fault]) for fault in ("-DF_ARM", "-DF_TRY")), ("watch.pml", ["-DPOLLS", "-DF_NEXT"])]


def run(command, **more):
    return subprocess.run(command, text=True, errors="replace", stdout=subprocess.PIPE, stderr=subprocess.STDOUT, **more)


def compiler():
    return shutil.which(os.environ.get("CC", "cc"))


def run_well(command, **more):
    done = run(command, **more)
    if done.returncode:
        raise SystemExit(done.stdout)


def build(archive, folder):
    """Builds the search in a folder, from objects there."""
    run_well([compiler(), *FLAGS, f"-I{C}", "-c", *SOURCES], cwd=folder)
    objects = [folder / f"{source.stem}.o" for source in SOURCES]
    run_well([compiler(), *objects, archive, "-lpthread", "-o", folder / "explore"])


def build_anew(archive, folder, part, source, made):
    """Builds the search with this file in the place of the one that this part of it includes. It may leave a function unused."""
    run_well([compiler(), *FLAGS, "-w", f"-I{C}", f'-D{part.upper()}_C="{source}"', "-c", HERE / f"{part}.c", "-o", f"{made}.o"])
    objects = [folder / f"{source.stem}.o" for source in SOURCES if source.stem != part]
    run_well([compiler(), *objects, f"{made}.o", archive, "-lpthread", "-o", made])


def untried():
    """The functions of the waiting layer and of servers that no scenario calls, but for those that do not wait."""
    headers = "".join((C / f"cebdyraq_{name}.h").read_text() for name in ("wait", "serve"))
    names = set(re.findall(r"^(?:uint32_t|void) (cq_(?:wa|serve|debug)\w*)\(", headers, re.M)) - DO_NOT_WAIT
    text = "".join(source.read_text() for source in SCENARIOS)
    return sorted(name for name in names if not re.search(rf"\b{name}\(", text))


def search(program, words):
    """The lines of a search."""
    done = run([program, *words.split()], timeout=LONGEST)
    if done.returncode not in (0, 1):
        raise SystemExit(f"{words}: status {done.returncode}\n{done.stdout}")
    return done.stdout.splitlines()


def explore(told, program):
    """Tells whether each scenario passed, for each of the bounds. Two searches run at a time."""
    with ThreadPoolExecutor(2) as pool:
        searches = zip(BOUNDS, pool.map(lambda words: search(program, words), BOUNDS))
    for words, lines in searches:
        for line in lines:
            told.result(f"{words}: {line.partition(':')[0]}", line if ": WRONG: " in line else "")
        runs = sum(int(count) for count in re.findall(r": (\d+) runs", "\n".join(lines)))
        tap.comment(f"{words}: {len(lines)} scenarios, {runs} runs")


def is_found(archive, folder, part, name):
    """Whether the search finds a fault."""
    source, made = folder / f"fault_{name}.c", folder / f"fault_{name}"
    source.write_text(faults.planted((C / faults.PLANTED_IN[part]).read_text(), part, name))
    build_anew(archive, folder, part, source, made)
    return any(": WRONG: " in line for words in BOUNDS_OF_FAULTS[part] for line in search(made, words + " -f"))


def model_ends_well(model, defines, folder):
    """Whether an exhaustive search of a model finds nothing wrong: True, or False for a state in which nobody goes on."""
    folder = pathlib.Path(tempfile.mkdtemp(dir=folder))
    for command in (["spin", "-a", *defines, HERE / model], [compiler(), "-O2", "-w", "-DSAFETY", "-DVECTORSZ=2048", "-DCOLLAPSE",
                                                             "-DMEMLIM=3000", "-o", "pan", "pan.c"]):
        done = run(command, cwd=folder)
        if done.returncode:
            raise SystemExit(done.stdout)
    said = run(["./pan", "-m2000000"], cwd=folder, timeout=LONGEST).stdout
    if "pan:1: invalid end state" in said:
        return False
    if "errors: 0" in said and "pan:1" not in said and "max search depth too small" not in said and "out of memory" not in said:
        return True
    raise SystemExit(f"{model} {defines}:\n{said}")


def check_models(told, folder):
    if not shutil.which("spin"):
        told.not_ok("the models are searched", "there is no spin (Debian's package `spin`)")
        return
    for model, defines in RIGHT:
        told.result(f"{model} {' '.join(defines)}", "" if model_ends_well(model, defines, folder) else "nobody goes on")
    for model, defines in WRONG:
        told.result(f"{model} {' '.join(defines)}: the fault is found", "it is not" if model_ends_well(model, defines, folder) else "")


def main(words):
    if len(words) not in (2, 3) or words[2:] not in ([], ["--gate"]):
        print(__doc__)
        return 2
    if not compiler():
        return tap.skip_all("there is no C compiler")
    archive, told = pathlib.Path(words[1]).resolve(), tap.Tap()
    with tempfile.TemporaryDirectory() as name:
        folder = pathlib.Path(name)
        build(archive, folder)
        told.result("each function that waits is in a scenario", ", ".join(untried()))
        explore(told, folder / "explore")
        if not words[2:]:
            for part, those in faults.FAULTS.items():
                for fault in those:
                    told.result(f"fault {fault} is found", "" if is_found(archive, folder, part, fault) else "it is not")
            check_models(told, folder)
    return told.end()


if __name__ == "__main__":
    sys.exit(main(sys.argv))
