#!/usr/bin/env python3
"""Runs what README.md, CONTRIBUTING.md, docs/USING.md and examples/README.md show, as it is printed.

    ci/snippets.py [KIND..]        of these kinds, or of all: rattle, json, sh, c, cpp

A snippet is a fenced block of one of these kinds:

- rattle: a whole program. `rt try` compiles and runs it, with nothing proved (`ci/unproved.py`).
- json: a document. The program that `make run` has built reads it.
- sh: commands. `sh -e` runs them at the top of the repository.
- c, cpp: a whole program. It is compiled and linked with all warnings, over the library that `make lib` has built. Without a
  compiler it is skipped.

Each has to end with status 0. If the block after it has no kind, that is what it has to write to standard output. A block
without a kind that follows no snippet is not read. It writes TAP.
"""

import json
import os
import pathlib
import re
import shutil
import subprocess
import sys
import tempfile
from collections import namedtuple

sys.dont_write_bytecode = True

import refused_memory
import tap
import unproved

PAGES = ("README.md", "CONTRIBUTING.md", "docs/USING.md", "examples/README.md")
PROGRAM = "crates/tiwalk/out/tiwalk"
FENCED = re.compile(r"^```(\w*)\n(.*?)^```$", re.M | re.S)
COMPILERS = {"c": ("CC", "cc", "-std=c11"), "cpp": ("CXX", "c++", "-std=c++17")}
FLAGS = ("-O2", "-Wall", "-Wextra", "-Werror", "-Idist/include")
LINKED = ("dist/lib/libcebdyraq.a", "-lpthread")
SECONDS = 300

# `wanted` is what it has to write, or None.
Snippet = namedtuple("Snippet", "place kind text wanted")


def snippets_of(page):
    """The snippets of a page, in their order."""
    text = pathlib.Path(page).read_text()
    blocks = [(text.count("\n", 0, found.start()) + 1, found[1], found[2]) for found in FENCED.finditer(text)]
    after = [body if not kind else None for _, kind, body in blocks[1:]] + [None]
    return [Snippet(f"{page}:{line}", kind, body, wanted) for (line, kind, body), wanted in zip(blocks, after) if kind]


def run(command, **more):
    return subprocess.run(command, stdout=subprocess.PIPE, stderr=subprocess.PIPE, text=True, errors="replace", timeout=SECONDS, **more)


def run_rattle(text, _folder):
    with unproved.copy_of_crates() as root:
        return run(["rt", "try"], cwd=unproved.add_program(root, "snippet", text))


def run_json(text, _folder):
    return run([PROGRAM, refused_memory.argument(json.loads(text))], input=text)


def run_sh(text, _folder):
    return run(["sh", "-e", "-c", text])


def compiler(kind):
    return os.environ.get(*COMPILERS[kind][:2])


def run_compiled(kind, text, folder):
    source, made = pathlib.Path(folder, f"snippet.{kind}"), pathlib.Path(folder, "snippet")
    source.write_text(text)
    done = run([compiler(kind), COMPILERS[kind][2], *FLAGS, str(source), *LINKED, "-o", str(made)])
    return done if done.returncode else run([str(made)])


def run_c(text, folder):
    return run_compiled("c", text, folder)


def run_cpp(text, folder):
    return run_compiled("cpp", text, folder)


RUNS = {"rattle": run_rattle, "json": run_json, "sh": run_sh, "c": run_c, "cpp": run_cpp}


def fault_of(snippet):
    """What is wrong with a snippet, or None."""
    with tempfile.TemporaryDirectory(prefix="snippet-") as folder:
        try:
            done = RUNS[snippet.kind](snippet.text, folder)
        except (OSError, ValueError, subprocess.TimeoutExpired) as error:
            return repr(error)
    if done.returncode:
        return f"status {done.returncode}\n{done.stdout}{done.stderr}"
    if snippet.wanted is not None and done.stdout != snippet.wanted:
        return f"it writes\n{done.stdout}"
    return None


def main():
    kinds = sys.argv[1:] or list(RUNS)
    if not set(kinds) <= set(RUNS):
        sys.exit(__doc__.strip())
    snippets = [snippet for page in PAGES for snippet in snippets_of(page) if snippet.kind in kinds]
    told = tap.Tap()
    for snippet in snippets:
        name = f"{snippet.place}: {snippet.kind}"
        if snippet.kind in COMPILERS and not shutil.which(compiler(snippet.kind)):
            told.skip(name, f"there is no {compiler(snippet.kind)}")
        else:
            told.result(name, fault_of(snippet))
    return told.end()


if __name__ == "__main__":
    sys.exit(main())
