"""The profiler."""
import os
import pathlib
import re
import time
import xml.etree.ElementTree

from profiles import RATE, counts_of_plain_lua, newest, other_shares, profile
from shared import WithFolder, cqlua

BYTES = {"one byte": b"\xff", "a start alone": b"\xc3", "too long a form": b"\xc0\xaf", "a surrogate": b"\xed\xa0\x80",
         "no character of XML": b"\xef\xbf\xbe", "beyond Unicode": b"\xf4\x90\x80\x80", "a control": b"\x01\x7f",
         "markup": b"<&>;\"'", "text": "\u017elu\u0165 \U0001f600".encode(), "text that is cut": "\u017e".encode() * 150}
SPIN = "local s = 0 for i = 1, 2e6 do s = (s * 3 + i) % 11 end return s"


def titles_of(path):
    """The titles of a picture's bars."""
    return [title.text for title in xml.etree.ElementTree.parse(path).iter("{http://www.w3.org/2000/svg}title")]


class Prof(WithFolder):
    def test_prof(self):
        """Two scripts. Each function has the share that it has by a hook of plain Lua."""
        names = ["spectral_norm.lua", "nbody.lua"]
        result, stacks, numbers = profile(self.folder, *names)
        self.assertEqual(result.returncode, 0, result.stderr)
        self.assertIsNotNone(numbers, result.stderr)
        ticks, seconds, all_stacks, _, worth = numbers
        self.assertEqual(sum(stacks.values()), all_stacks)
        for stack in stacks:
            self.assertRegex(stack[0], r"\A(late|main \(\w+\.lua:0\))\Z")
            self.assertLessEqual(len(set(re.findall(r"\((\w+\.lua):", ";".join(stack)))), 1, "functions of one script")
        self.assertGreaterEqual(ticks, RATE * seconds / 2, "at least half of the samples are taken on a busy machine")
        for name in names:
            with self.subTest(name):
                mine = {stack: count for stack, count in stacks.items() if name in stack[0]}
                plain = counts_of_plain_lua(self.folder, name)
                self.assertTrue(mine and plain)
                self.assertEqual(list(other_shares(newest(mine), plain, worth * sum(mine.values()) / all_stacks)), [])

    def test_prof_in_coroutines(self):
        """A coroutine's stack lies over that of its resumer. One that is over is not in the stack."""
        path = self.script("co.lua", """
            local function spin(n) local s = 0 for i = 1, n do s = s + i % 7 end return s end
            local function inner() while true do spin(20000) coroutine.yield() end end
            local function outer() local step = coroutine.wrap(inner) while true do step() coroutine.yield() end end
            local co = coroutine.create(outer)
            for i = 1, 1500 do assert(coroutine.resume(co)) end
            local bad = coroutine.wrap(function() spin(20000) error("x") end)
            pcall(bad) for i = 1, 300 do spin(20000) end
        """)
        _, stacks, _ = profile(self.folder, path)
        places = {tuple(re.sub(r" \(.*:(\d+)\)", r" \1", frame) for frame in stack) for stack in stacks}
        self.assertIn(("main 0", "[C] resume", "outer 4", "[C] step", "inner 3", "spin 2"), places)
        self.assertIn(("main 0", "spin 2"), places)
        self.assertLessEqual({stack[0] for stack in places}, {"main 0", "late"})

    def test_prof_draws(self):
        """The picture is XML with a title for each bar. It needs nothing else, and has no script."""
        path = self.folder / "flame.svg"
        result = cqlua("prof", "--svg", "-o", str(path), "-e", "N = 300", "spectral_norm.lua")
        self.assertEqual(result.returncode, 0, result)
        titles = titles_of(path)
        self.assertGreater(len(titles), 3)
        self.assertTrue(titles[0].startswith("all: "), titles)
        self.assertTrue(any(title.startswith("A (spectral_norm.lua:6): ") for title in titles), titles)
        text = path.read_text()
        self.assertNotIn("<script", text)
        self.assertNotIn("href", text)

    def test_prof_for_seconds(self):
        """The samples end, and the script runs on. Without -o the profile is on standard output."""
        start = time.time()
        result = cqlua("prof", "--seconds", "0.3", "-e", "N = 20", "sleeper.lua")
        self.assertGreater(time.time() - start, 1)
        self.assertLess(float(re.search(r"in ([\d.]+) s", result.stderr)[1]), 0.6)
        self.assertIn("20 rounds: ", result.stdout)
        self.assertRegex(result.stdout, r"(?m)^main \(sleeper.lua:0\).*\[C\] sleep \d+$")

    def test_prof_to_a_file_that_cannot_be_written(self):
        result = cqlua("prof", "-o", "/not/there", "sleeper.lua")
        self.assertEqual(result.returncode, 1)
        self.assertIn("/not/there", result.stderr)

    def test_prof_of_names_that_are_no_text(self):
        """Names of chunks and fields of all kinds of bytes: the picture is XML, and the stacks are UTF-8, in which text stays."""
        for what, name in BYTES.items():
            with self.subTest(what):
                literal = "".join(f"\\{byte:03d}" for byte in name)
                path = self.script("names.lua", f"local t = {{}} t['{literal}'] = load('{SPIN}', '={literal}') local s = t['{literal}']() + 0\n"
                                   f"t['{literal}'] = function() {SPIN} end s = t['{literal}']() + 0\n")
                svg, text = (self.folder / f"flame.{kind}" for kind in ("svg", "txt"))
                for words in ["--svg", "-o", str(svg)], ["-o", str(text)]:
                    result = cqlua("prof", *words, path)
                    self.assertEqual(result.returncode, 0, result)
                self.assertGreater(len(titles_of(svg)), 2)
                stacks = text.read_bytes().decode()
                self.assertNotEqual(stacks, "")
                if what.startswith("text"):
                    self.assertIn(name.decode()[:5].replace(";", ":"), stacks)

    def test_prof_of_a_file_whose_name_is_no_text(self):
        odd = pathlib.Path(os.fsencode(self.folder).decode()) / os.fsdecode(b"latin\xe9.lua")
        odd.write_text(SPIN)
        svg = self.folder / "odd.svg"
        result = cqlua("prof", "--svg", "-o", str(svg), str(odd))
        self.assertEqual(result.returncode, 0, result)
        self.assertTrue(any("latin?.lua" in title for title in titles_of(svg)), titles_of(svg))
