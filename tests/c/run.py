#!/usr/bin/env python3
"""Compiles and runs the C programs over libcebdyraq.a.

    run.py ARCHIVE [PROGRAM ...]

Each program is run plain, with the address and undefined-behaviour sanitizers, with the thread sanitizer, and under
valgrind. The archive itself is not instrumented. CC and CXX name the compilers, otherwise cc and c++. It writes TAP, with a
test for each program and mode.
"""

import os
import pathlib
import shutil
import signal
import subprocess
import sys
import tempfile

sys.dont_write_bytecode = True

HERE = pathlib.Path(__file__).resolve().parent
TOP = HERE.parent.parent
sys.path.append(str(TOP / "ci"))

import lib
import tap

C = TOP / "c"
WAIT = [C / "cebdyraq_wait.c"]
HEAP = [C / "cebdyraq_heap.c"]
COUNTED_HEAP = [HERE / "counted_heap.c"]
STRINGS = [C / "cebdyraq_classes.c"]
NAMES = [C / "cebdyraq_codes.c"]
VERSION = [C / "cebdyraq_version.c"]
VARIABLES = [C / "cebdyraq_variables.c"]
SERVE = [C / name for name in ("cebdyraq_serve.c", "cebdyraq_listen.c", "cebdyraq_peer.c")] + VARIABLES + VERSION
# A program that has these is linked with the archive that they call.
CALLS = C / "cebdyraq_calls.c"
WATCH = [CALLS, C / "cebdyraq_watch.c"]
MODEL = [HERE / name for name in ("model.c", "model_calls.c", "model_envs.c", "model_traces.c")]

PLAIN, ADDRESS, THREAD, VALGRIND = "plain", "address,undefined", "thread", "valgrind"
MODES = [PLAIN, ADDRESS, THREAD, VALGRIND]
LONGEST = 900
COPIES = ["memcpy", "memmove", "memset"]


class Program:
    def __init__(self, name, sources, others, arguments=None, wait=WAIT):
        self.name = name
        self.sources = [HERE / source for source in sources] + others + wait
        self.arguments = arguments or {}

    def calls(self):
        return CALLS in self.sources

    def is_cxx(self):
        return any(source.suffix == ".cpp" for source in self.sources)


CLASSES = ["classes.c", "classes_wrong.c", "classes_threads.c"]
SERVED = ["serve.c", "serve_wrong.c", "serve_many.c", "serve_few.c", "serve_fork.c", "client.c"]
DEBUGGER = ["debugger.c", "debugger_asks.c", "debugger_suspends.c", "debugger_variables.c", "debugger_pops.c", "debugger_memory.c",
            "debugger_random.c", "debugger_streams.c", "jdwp.c"]
DEBUGGED = ["debug_listen.c", "debug_users.c", "debug_variables.c", "debug_starts.c", "debug_classes.c", "debug_stops.c", "debug_ends.c",
            "client.c", "jdwp.c"]
WATCHED = ["watch.c", "watch_told.c", "watch_others.c"]
CODES = ["codes.c", "codes_threads.c", "codes_envs.c", "codes_memory.c", "codes_gather.c"]
PROGRAMS = [
    Program("two_threads", ["two_threads.c"], HEAP),
    Program("life", ["life.c"], COUNTED_HEAP),
    Program("successor", ["successor.c"], COUNTED_HEAP),
    Program("codes", CODES, COUNTED_HEAP),
    Program("names", ["names.c"], NAMES, wait=[]),
    Program("classes", CLASSES, COUNTED_HEAP + STRINGS, wait=[]),
    Program("pops", ["pops.c", "pops_unwound.c"], COUNTED_HEAP),
    Program("stops", ["stops.c", "stops_threads.c"], COUNTED_HEAP + STRINGS),
    Program("events", ["events.c"], HEAP + STRINGS),
    Program("gather", ["gather.c"], COUNTED_HEAP),
    Program("wait", ["wait.c", "wait_any.c", "wait_cancelled.c", "wait_crowd.c", "wait_dispose.c", "wait_news.c",
                     "wait_resumed.c", "wait_window.c"], HEAP),
    Program("held", ["held.c"], HEAP, wait=[]),
    Program("gather_waits", ["gather_waits.c"], HEAP, {VALGRIND: ["100"]}),
    Program("gather_busy", ["gather_busy.c"], HEAP, wait=[]),
    Program("gather_lost", ["gather_lost.c"], HEAP),
    Program("turns", ["turns.c"], HEAP, {VALGRIND: ["100"]}, wait=[HERE / "slow_wait.c"]),
    Program("poll_word", ["poll_word.c"], HEAP, {VALGRIND: ["100"]}),
    Program("proxy", ["proxy.c"], HEAP, {THREAD: ["1000"], VALGRIND: ["60"]}),
    Program("green", ["green.c"], COUNTED_HEAP, {THREAD: ["512"], VALGRIND: ["128"]}),
    Program("meet_on", ["meet_on.c"], COUNTED_HEAP, {VALGRIND: ["1"]}, wait=[]),
    Program("cxx", ["cxx.cpp"], HEAP + NAMES),
    Program("objects", ["objects.cpp"], HEAP + VERSION + NAMES),
    Program("door", ["door.c", "door_random.c"], COUNTED_HEAP + VERSION, {ADDRESS: ["20000"], THREAD: ["5000"], VALGRIND: ["300"]}, wait=[]),
    Program("serve", SERVED, HEAP + STRINGS + SERVE, {VALGRIND: ["quick"]}),
    Program("tells", ["tells.c"], COUNTED_HEAP + VARIABLES, wait=[]),
    Program("debugger", DEBUGGER, COUNTED_HEAP + STRINGS + VARIABLES + VERSION, {THREAD: ["5000"], VALGRIND: ["300"]}, wait=[]),
    Program("debug_listen", DEBUGGED, HEAP + STRINGS + SERVE),
    Program("watch", WATCHED, COUNTED_HEAP + VERSION + WATCH),
    Program("watch_threads", ["watch_threads.c"], HEAP + WATCH, {ADDRESS: ["1000"], THREAD: ["500"], VALGRIND: ["30"]}),
    Program("fuzz", ["fuzz.c", "fuzz_calls.c"], MODEL + COUNTED_HEAP,
            {ADDRESS: ["1", "20000"], THREAD: ["1", "10000"], VALGRIND: ["1", "500"]}),
    Program("stress", ["stress.c", "stress_agents.c"], COUNTED_HEAP,
            {ADDRESS: ["200000"], THREAD: ["50000"], VALGRIND: ["3000"]}),
]


def run(command, **more):
    pipes = {"stdout": subprocess.PIPE, "stderr": subprocess.STDOUT}
    return subprocess.run(command, text=True, errors="replace", **pipes, **more)


def compiler(is_cxx):
    return os.environ.get("CXX", "c++") if is_cxx else os.environ.get("CC", "cc")


def flags(mode):
    base = ["-O2", "-gdwarf-4", "-Wall", "-Wextra", "-Werror"]
    return base + ["-fsanitize=" + mode, "-fno-sanitize-recover=all"] if mode in (ADDRESS, THREAD) else base


def with_plain_memory(archive, folder):
    """The archive with other names for what it needs of the C library, and an object that has these (plain_memory.c)."""
    copy, made = folder / "plain.a", folder / "plain_memory.o"
    renamed = [word for name in COPIES for word in ("--redefine-sym", "%s=plain_%s" % (name, name))]
    run(["objcopy", *renamed, str(archive), str(copy)], check=True)
    source = str(HERE / "plain_memory.c")
    run([compiler(False), "-std=c11", "-O2", "-Wall", "-Wextra", "-Werror", "-c", source, "-o", str(made)], check=True)
    return [str(copy), str(made)]


def compile_program(program, mode, archive, folder):
    """Compiles a program, and gives what the compiler said when it failed."""
    objects = []
    for source in program.sources:
        is_cxx = source.suffix == ".cpp"
        made = folder / (source.stem + ".o")
        standard = "-std=c++17" if is_cxx else "-std=c11"
        done = run([compiler(is_cxx), *flags(mode), standard, "-c", str(source), "-o", str(made)])
        if done.returncode != 0:
            return done.stdout
        objects.append(str(made))
    made = folder / program.name
    if program.calls():
        archive = lib.with_calls_renamed(archive, folder)
    linked = with_plain_memory(archive, folder) if mode == THREAD else [str(archive)]
    done = run([compiler(program.is_cxx()), *flags(mode), *objects, *linked, "-lpthread", "-o", str(made)])
    return done.stdout if done.returncode != 0 else None


def command_of(program, mode, folder):
    command = [str(folder / program.name), *program.arguments.get(mode, [])]
    if mode == VALGRIND:
        leaks = ["--leak-check=full", "--errors-for-leak-kinds=all"]
        return ["valgrind", "--quiet", "--error-exitcode=9", "--fair-sched=yes", *leaks, *command]
    return command


def fault_of(program, mode, archive):
    """What is said if a program fails in a mode, or None."""
    with tempfile.TemporaryDirectory() as name:
        folder = pathlib.Path(name)
        said = compile_program(program, mode, archive, folder)
        if said is not None:
            return said or "it does not compile"
        try:
            done = run(command_of(program, mode, folder), timeout=LONGEST)
        except subprocess.TimeoutExpired:
            return "it did not end in %d seconds" % LONGEST
        return "exit status %d\n%s" % (done.returncode, done.stdout) if done.returncode else None


def is_missing(mode):
    """Why a mode can't be had here, or None."""
    if mode == VALGRIND:
        return None if shutil.which("valgrind") else "there is no valgrind"
    if mode == PLAIN:
        return None
    with tempfile.TemporaryDirectory() as name:
        source, made = pathlib.Path(name) / "probe.c", pathlib.Path(name) / "probe"
        source.write_text("int main(void) { return 0; }\n")
        if run([compiler(False), *flags(mode), str(source), "-o", str(made)]).returncode != 0:
            return "the compiler has no -fsanitize=" + mode
        if run([str(made)]).returncode != 0:
            return "no program with -fsanitize=%s runs here" % mode
        return None


OF_THE_SYSTEM = ("cebdyraq_heap.o", "cebdyraq_wait.o", "cebdyraq_serve.o")


def needed(archive):
    """The functions that the library needs, but for those of its objects that are OF_THE_SYSTEM."""
    defined, wanted = set(), set()
    for line in run(["nm", "-A", str(archive)]).stdout.splitlines():
        where, kind, name = (line.rsplit(None, 2) + ["", ""])[:3]
        if kind in ("T", "W", "D", "B", "R", "V"):
            defined.add(name)
        elif kind == "U" and not any(part in where for part in OF_THE_SYSTEM):
            wanted.add(name)
    return wanted - defined - {"rattle_alloc", "rattle_realloc", "rattle_dealloc"} - set(COPIES)


def built_plain(source, folder):
    made = folder / (source.stem + ".o")
    run([compiler(False), *flags(PLAIN), "-std=c11", "-c", str(source), "-o", str(made)], check=True)
    return str(made)


def fault_of_order(archive):
    """The thread sanitizer over the library as it is built, with the suppressions that are installed: a program that keeps to the
    library's order is right, and the same with a race in it is reported."""
    with tempfile.TemporaryDirectory() as name:
        folder = pathlib.Path(name)
        parts = [built_plain(source, folder) for source in [CALLS] + WAIT + HEAP]
        parts.append(str(lib.with_calls_renamed(archive, folder)))
        made = str(folder / "ordered")
        run([compiler(False), *flags(THREAD), "-std=c11", str(HERE / "ordered.c"), *parts, "-lpthread", "-o", made], check=True)
        environment = dict(os.environ, TSAN_OPTIONS="exitcode=66 suppressions=%s" % (C / "tsan.supp"))
        right, wrong = (run([made, *words], env=environment, timeout=LONGEST) for words in ([], ["race"]))
    passed = (right.returncode, right.stdout) == (0, "") and wrong.returncode == 66 and "in count\n" in wrong.stdout
    return None if passed else "exit status %d and %d\n%s" % (right.returncode, wrong.returncode, right.stdout + wrong.stdout)


def fault_without_exceptions(archive):
    """The header for C++ without exceptions: a call that is refused ends the program. No name in it hides another."""
    with tempfile.TemporaryDirectory() as name:
        folder = pathlib.Path(name)
        parts = [built_plain(source, folder) for source in WAIT + HEAP + VERSION + NAMES]
        made = str(folder / "no_exceptions")
        built = run([compiler(True), *flags(PLAIN), "-std=c++17", "-Wshadow", "-fno-exceptions", str(HERE / "no_exceptions.cpp"), *parts,
                     str(archive), "-lpthread", "-o", made])
        right, wrong = (run([made, *words], timeout=LONGEST) for words in ([], ["twice"])) if built.returncode == 0 else (built, built)
    refusal = "cebdyraq: 210 CQ_NOT_NEW: a start of a thread that has started\n"
    passed = (right.returncode, right.stdout) == (0, "") and (wrong.returncode, wrong.stdout) == (-signal.SIGABRT, refusal)
    return None if passed else "exit status %d and %d\n%s" % (right.returncode, wrong.returncode, right.stdout + wrong.stdout)


def test_library(told, archive):
    if shutil.which("nm"):
        told.result("the library needs memory alone", ", ".join(sorted(needed(archive))))
    told.result("the header for C++ without exceptions", fault_without_exceptions(archive))
    if is_missing(THREAD) is None:
        told.result("the thread sanitizer knows the library's order", fault_of_order(archive))


def main(words):
    if len(words) < 2:
        print(__doc__)
        return 2
    archive = pathlib.Path(words[1]).resolve()
    if not archive.is_file():
        sys.exit("there is no archive %s" % archive)
    chosen = [program for program in PROGRAMS if not words[2:] or program.name in words[2:]]
    told = tap.Tap()
    if not words[2:]:
        test_library(told, archive)
    for mode in MODES:
        missing = is_missing(mode)
        for program in chosen:
            name = "%s, %s" % (program.name, mode)
            if missing is None:
                told.result(name, fault_of(program, mode, archive))
            else:
                told.skip(name, missing)
    return told.end()


if __name__ == "__main__":
    sys.exit(main(sys.argv))
