#!/usr/bin/env python3
"""Runs `tiwalk` on each example with the first allocation refused, then with the second alone, and so on, until a run
meets no refusal; and so with each start of a thread of a live run.

Each run has to end with status 3, `tiwalk: memory` and nothing written, or with the example's status and text, where the
line of at most one `trace` or `read` of a walk, or of one call for frames or of a list in a live run, is `error 110`
instead. It writes TAP. (A trace that is refused does not wait, so in each example something else
waits too at the poll that would answer it: no other line depends on it. In live examples no line depends on another.)

    ci/refused_memory.py [PROGRAM [DOCUMENT..]]        crates/tiwalk/out/tiwalk by default: `make run` builds it
    ci/refused_memory.py --gate PROGRAM                on a walk of traces, on histories and on a live script of lists

Documents in place of the examples are files NAME with the text beside them, in NAME with the last suffix `.out`. One
with a member `entries` is given to `tiwalk check`, one with `walks` to `tiwalk live`.

It needs a C compiler, for a small library that stands between the program and the C library's allocator.
"""

import dataclasses
import itertools
import json
import os
import pathlib
import shutil
import subprocess
import sys
import tempfile

sys.dont_write_bytecode = True

import tap

SHIM = r"""
#define _GNU_SOURCE
#include <dlfcn.h>
#include <errno.h>
#include <pthread.h>
#include <stdatomic.h>
#include <stdio.h>
#include <stdlib.h>
static atomic_long allocations = 0, threads = 0;
static int is_refused(atomic_long *count, const char *which) {
    const char *text = getenv(which);
    return atomic_fetch_add(count, 1) + 1 == (text ? atol(text) : 0);
}
#define NEXT(name) dlsym(RTLD_NEXT, name)
void *malloc(size_t n) { if (is_refused(&allocations, "ALLOCATION")) { errno = ENOMEM; return 0; } return ((void *(*)(size_t))NEXT("malloc"))(n); }
void *realloc(void *p, size_t n) { if (is_refused(&allocations, "ALLOCATION")) { errno = ENOMEM; return 0; } return ((void *(*)(void *, size_t))NEXT("realloc"))(p, n); }
void *aligned_alloc(size_t a, size_t n) { if (is_refused(&allocations, "ALLOCATION")) { errno = ENOMEM; return 0; } return ((void *(*)(size_t, size_t))NEXT("aligned_alloc"))(a, n); }
int posix_memalign(void **p, size_t a, size_t n) { if (is_refused(&allocations, "ALLOCATION")) return ENOMEM; return ((int (*)(void **, size_t, size_t))NEXT("posix_memalign"))(p, a, n); }
int pthread_create(pthread_t *t, const pthread_attr_t *a, void *(*f)(void *), void *x) { if (is_refused(&threads, "THREAD")) return EAGAIN; return ((int (*)(pthread_t *, const pthread_attr_t *, void *(*)(void *), void *))NEXT("pthread_create"))(t, a, f, x); }
__attribute__((destructor)) static void tell(void) {
    const char *path = getenv("COUNT");
    long allocated = atomic_load(&allocations), started = atomic_load(&threads);
    FILE *file = path ? fopen(path, "w") : 0;
    if (file) { fprintf(file, "%ld %ld\n", allocated, started); fclose(file); }
}
void _exit(int status) { tell(); ((void (*)(int))NEXT("_exit"))(status); __builtin_unreachable(); }
"""


SECONDS = 60
# the documents that the gate runs
GATED = ("tests/cases/walk/trace-starts.in", "examples/legal-history.json", "examples/illegal-history.json", "tests/cases/live/live-lists-of-new-threads.in")
# the calls whose answers take memory
TAKING_MEMORY = ("trace", "read", "suspend_list", "resume_list", "all", "list")


@dataclasses.dataclass
class Run:
    """A run with one allocation or one start of a thread refused: what it came to, and how many of either there were."""

    out: bytes
    err: bytes
    status: int
    allocations: int
    threads: int


def run(program, arguments, document, shim, folder, **refused):
    count = folder / "count"
    env = dict(os.environ, LD_PRELOAD=str(shim), COUNT=str(count), **{name: str(n) for name, n in refused.items()})
    done = subprocess.run([program, *arguments], input=document, capture_output=True, env=env, timeout=SECONDS)
    return Run(done.stdout, done.stderr, done.returncode, *map(int, count.read_text().split()))


def argument(document):
    return "check" if "entries" in document else "live" if "walks" in document else "walk"


def wanting_memory(document):
    """The lines, by their places, of answers that take memory, as they are where there was none for them."""
    if "walks" in document:
        made = [(f"{name} {n}", call[0]) for name, calls in zip(document["agents"], document["calls"]) for n, call in enumerate(calls)]
    else:
        made = [(str(n), event[1]) for n, event in enumerate(document.get("events", ()))]
    return {place: f"{name} error 110".encode() for place, (name, word) in enumerate(made) if word in TAKING_MEMORY}


def is_right(document, done, wanted, status):
    """Whether a run with a refusal ended as it may, given the text and status of one with none."""
    if done.status == 3:
        return done.out == b"" and done.err == b"tiwalk: memory\n"
    lines, wanted = done.out.split(b"\n"), wanted.split(b"\n")
    if (done.status, done.err, len(lines)) != (status, b"", len(wanted)):
        return False
    changed = [place for place, pair in enumerate(zip(lines, wanted)) if pair[0] != pair[1]]
    return len(changed) <= 1 and all(lines[place] == wanting_memory(document).get(place) for place in changed)


def refuse_one(program, document, data, wanted, shim, folder, what, number):
    """Whether there was anything to refuse, and what is wrong with how the run ended, or None."""
    status = 1 if wanted.startswith(b"illegal") else 0
    try:
        done = run(program, [argument(document)], data, shim, folder, **{what: number})
    except subprocess.TimeoutExpired:
        return False, f"no end within {SECONDS} seconds"
    met = number <= (done.allocations if what == "ALLOCATION" else done.threads)
    # a live run has the lines of all its threads and agents: one that cannot be started is want of memory
    well = done.status == 3 if met and what == "THREAD" else True
    well = well and (is_right(document, done, wanted, status) if met else (done.out, done.status) == (wanted, status))
    return met, None if well else f"status {done.status}, {done.out!r}"


def refuse_each(told, program, path, shim, folder):
    """Tells of each run on a document whether it ended as it may."""
    data, wanted = path.read_bytes(), path.with_suffix(".out").read_bytes()
    document = json.loads(data)
    for what in ("ALLOCATION", "THREAD"):
        for number in itertools.count(1):
            met, fault = refuse_one(program, document, data, wanted, shim, folder, what, number)
            told.result(f"{path.name}: {what} {number} is refused", fault)
            if not met:
                break


def given(words):
    """The program that the words name, and the documents, or the examples."""
    if words[:1] == ["--gate"]:
        words = [*words[1:], *GATED]
    program = os.path.abspath(words[0] if words else "crates/tiwalk/out/tiwalk")
    if not os.path.isfile(program):
        sys.exit(f"there is no {program}: `make run` builds it")
    return program, [pathlib.Path(name) for name in words[1:]] or sorted(pathlib.Path("examples").glob("*.json"))


def built(text, folder):
    """The library of this text, in a folder."""
    source, shim = folder / "shim.c", folder / "shim.so"
    source.write_text(text)
    subprocess.run(["cc", "-shared", "-fPIC", "-O1", "-o", shim, source, "-ldl"], check=True)
    return shim


def main():
    program, documents = given(sys.argv[1:])
    if not shutil.which("cc"):
        return tap.skip_all("there is no C compiler")
    told = tap.Tap()
    with tempfile.TemporaryDirectory() as name:
        folder = pathlib.Path(name)
        shim = built(SHIM, folder)
        for path in documents:
            refuse_each(told, program, path, shim, folder)
    return told.end()


if __name__ == "__main__":
    sys.exit(main())
