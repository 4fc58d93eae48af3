"""How cqlua is built, and what it does with a service that refuses a stack."""
import os
import pathlib
import re
import shutil
import subprocess
import time

from shared import HERE, Debugger, WithFolder, run

LIBRARY = pathlib.Path(os.environ.get("CEBDYRAQ", HERE / "../../dist"))
# Gives a code in place of cq_set_frames, once it was called so often, if there are more frames than so many.
REFUSE = """
#include <stdint.h>
#include <stdlib.h>
#include "cebdyraq.h"

uint32_t __real_cq_set_frames(cq_thread *thread, const cq_frame *frames, size_t count);
uint32_t __wrap_cq_set_frames(cq_thread *thread, const cq_frame *frames, size_t count);
uint32_t __wrap_cq_set_frames(cq_thread *thread, const cq_frame *frames, size_t count) {
    static long calls;  /* by one script */
    if (calls++ >= strtol(getenv("AFTER"), NULL, 10) && (long)count > strtol(getenv("MOST"), NULL, 10))
        return (uint32_t)strtoul(getenv("CODE"), NULL, 10);
    return __real_cq_set_frames(thread, frames, count);
}
"""
TALL = """
local function leaf() repeat sleep(0.01) until io.open(STOP) return 1 end
local function f5() return 1 + leaf() end
local function f4() return 1 + f5() end
local function f3() return 1 + f4() end
local function f2() return 1 + f3() end
local function f1() return 1 + f2() end
f1() print("it ran on")
"""
WHOLE = ["[C] sleep", "leaf", "f5", "f4", "f3", "f2", "f1", "main"]
CUT = "(frames left out)"
# What is shown if so many frames are taken at most: half of them each time, with one that says so.
SHOWN = {8: WHOLE, 7: WHOLE[:3] + [CUT], 4: WHOLE[:3] + [CUT], 3: WHOLE[:1] + [CUT], 2: WHOLE[:1] + [CUT], 1: [CUT],
         0: [CUT]}


class Built(WithFolder):
    """A copy of the host alone, and of the library's headers and archive alone."""

    def make(self, *words):
        environment = {name: value for name, value in os.environ.items() if name not in ("CEBDYRAQ", "CEBDYRAQ_LIB", "OUT")}
        host = self.folder / "host"
        shutil.copytree(HERE, host, ignore=shutil.ignore_patterns("out*", "__pycache__"))
        return subprocess.run(["make", "-s", "-C", str(host), *words], env=environment, capture_output=True, text=True)

    def test_build_over_what_is_installed(self):
        library = self.folder / "library"
        for part in "include", "lib":
            shutil.copytree(LIBRARY / part, library / part, symlinks=True)
        made = self.make(f"CEBDYRAQ={library}")
        self.assertEqual(made.returncode, 0, made.stderr)
        result = run(str(self.folder / "host/out/cqlua"), "prof", "-e", "N = 100", "spectral_norm.lua")
        self.assertIn("1.274219991", result.stdout)
        self.assertIn(" ticks in ", result.stderr)
        self.assertEqual(result.returncode, 0)

    def test_build_without_a_library(self):
        made = self.make(f"CEBDYRAQ={self.folder}/none", f"OUT={self.folder}/other")
        self.assertIn("CEBDYRAQ= says where", made.stderr)
        self.assertNotEqual(made.returncode, 0)


class Refused(WithFolder):
    """A cqlua whose service refuses stacks."""

    def setUp(self):
        super().setUp()
        source, out = self.folder / "refuse.c", self.folder / "out"
        source.write_text(REFUSE)
        subprocess.run(["cc", "-std=c11", "-Wall", "-Werror", f"-I{LIBRARY / 'include'}", "-c", str(source), "-o",
                        f"{self.folder}/refuse.o"], check=True)
        subprocess.run(["make", "-s", "-C", str(HERE), f"OUT={out}", f"LDFLAGS=-Wl,--wrap=cq_set_frames {self.folder}/refuse.o"],
                       check=True)
        self.program = str(out / "cqlua")

    def shown(self, code, most, after=0):
        """What `bt` shows of a script that runs to its end, if stacks of more than so many frames are refused."""
        self.stop.unlink(missing_ok=True)
        os.environ.update(CODE=str(code), MOST=str(most), AFTER=str(after))
        d = Debugger("-e", f"STOP = '{self.stop}'", self.script("tall.lua", TALL), program=self.program)
        time.sleep(0.3)
        text = d.say("bt 0")
        self.stop.touch()
        status, last = d.end()
        self.assertIn("it ran on", last)
        self.assertEqual(status, 0)
        return text

    def test_refused_stacks_are_cut(self):
        for code, why in (201, "too many frames"), (110, "no memory"), (103, "a frame that is none"):
            for most, frames in SHOWN.items():
                with self.subTest(why, most=most):
                    text = self.shown(code, most)
                    self.assertEqual(re.findall(r"^#\d+ +(\(frames left out\)|(?:\[C\] )?\w+)", text, re.M), frames, text)

    def test_refused_stacks_are_not_shown(self):
        """Nor is the stack that was given before."""
        for code, why in (204, "the thread does not run"), (208, "no step is left"), (304, "a handle that is misused"):
            with self.subTest(why):
                text = self.shown(code, -1, after=5)
                self.assertIn("it has ended", text)
                self.assertNotIn("#", text)

    def test_refused_stacks_in_a_profile(self):
        os.environ.update(CODE="110", MOST="2", AFTER="0")
        result = run(self.program, "prof", self.script("cut.lua", """
            local function inner() local s = 0 for i = 1, 2e7 do s = (s * 3 + i) % 11 end return s end
            local function outer() return 1 + inner() end
            local s = 1 + outer()
        """))
        self.assertIn(f"{CUT};inner", [re.sub(r" \([^)]*:\d+\)| \d+$", "", line) for line in result.stdout.splitlines()])
        self.assertIn("the whole stack is refused with code 110", result.stderr)
