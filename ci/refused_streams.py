#!/usr/bin/env python3
"""Runs `tiwalk` on each example with standard input that fails after some bytes, and with standard output that takes some
bytes and then fails, or takes none.

Input that comes byte by byte changes nothing. Input that fails ends with status 4, `tiwalk: read` and nothing written,
wherever it fails. Output that takes the first K bytes, for each K below the length of the example's text, ends with status
4 and `tiwalk: write`, and has just these. It writes TAP.

    ci/refused_streams.py [PROGRAM [DOCUMENT..]]       crates/tiwalk/out/tiwalk by default: `make run` builds it

Documents in place of the examples are as in `ci/refused_memory.py`. It needs a C compiler, for a small library that stands
between the program and the C library's `read` and `write`.
"""

import json
import os
import pathlib
import subprocess
import sys
import tempfile

sys.dont_write_bytecode = True

import refused_memory
import tap

SHIM = r"""
#define _GNU_SOURCE
#include <dlfcn.h>
#include <errno.h>
#include <stdlib.h>
#include <unistd.h>
static long given = 0, taken = 0;
static long number(const char *name) { const char *text = getenv(name); return text ? atol(text) : -1; }
ssize_t read(int fd, void *to, size_t n) {
    ssize_t (*next)(int, void *, size_t) = (ssize_t (*)(int, void *, size_t))dlsym(RTLD_NEXT, "read");
    if (fd != 0) return next(fd, to, n);
    if (given == number("GIVES")) { errno = EIO; return -1; }
    ssize_t got = next(fd, to, n ? 1 : 0);
    if (got > 0) given += got;
    return got;
}
ssize_t write(int fd, const void *from, size_t n) {
    ssize_t (*next)(int, const void *, size_t) = (ssize_t (*)(int, const void *, size_t))dlsym(RTLD_NEXT, "write");
    long most = number("TAKES");
    if (fd != 1 || most < 0) return next(fd, from, n);
    if (taken == most) { if (getenv("NONE")) return 0; errno = EIO; return -1; }
    ssize_t put = next(fd, from, n < (size_t)(most - taken) ? n : (size_t)(most - taken));
    if (put > 0) taken += put;
    return put;
}
"""


def run(program, words, data, shim, **limits):
    env = dict(os.environ, LD_PRELOAD=str(shim), **{name: str(n) for name, n in limits.items()})
    done = subprocess.run([program, *words], input=data, capture_output=True, env=env, timeout=60)
    return done.stdout, done.stderr, done.returncode


def ends_of(program, path, shim):
    """What is wanted of each run on an example, and what came."""
    data, text = path.read_bytes(), path.with_suffix(".out").read_bytes()
    words = [refused_memory.argument(json.loads(data))]
    whole = text, b"", 1 if text.startswith(b"illegal") else 0
    yield "byte by byte", whole, run(program, words, data, shim)
    for most in sorted({0, 1, 10, len(data) // 2, len(data) - 1, len(data)}):
        wanted = b"", b"tiwalk: read\n", 4
        yield f"input fails after {most} bytes", wanted, run(program, words, data, shim, GIVES=most)
    for most in range(len(text)):
        wanted = text[:most], b"tiwalk: write\n", 4
        yield f"output fails after {most} bytes", wanted, run(program, words, data, shim, TAKES=most)
        yield f"output takes {most} bytes", wanted, run(program, words, data, shim, TAKES=most, NONE=1)


def main():
    program, documents = refused_memory.given(sys.argv[1:])
    told = tap.Tap()
    with tempfile.TemporaryDirectory() as name:
        shim = refused_memory.built(SHIM, pathlib.Path(name))
        for path in documents:
            for what, wanted, came in ends_of(program, path, shim):
                told.result(f"{path.name}: {what}", "" if came == wanted else came)
    return told.end()


if __name__ == "__main__":
    sys.exit(main())
