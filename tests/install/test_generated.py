"""What is generated from the headers (ci/generate.py), and which mistakes are refused, each made in a copy."""

import ctypes
import functools
import re
import shutil
import sys
import unittest

import api
import codes
import header
from installed import HERE, TOP, new_folder, run

PARTS = ("bindings", "c", "ci", "crates/ti_capi/src", "docs")
H, WAIT_H = "c/cebdyraq.h", "c/cebdyraq_wait.h"
MAJOR, MINOR, PATCH = header.version()
NEXT = MINOR + 1
# How a program of tests/c says which code a function gives.
GOT = (re.compile(r'\{ "(cq_\w+)", CQ_(\w+),'), re.compile(r"SAME\((cq_\w+)\((?:[^()]|\([^()]*\))*\), CQ_(\w+)\)"))
# A mistake: in which file, what becomes of what, and what is said.
MISTAKES = (
    ("a prototype that was changed", H, "cq_enter(cq_thread *thread, uint32_t method)", "cq_enter(cq_thread *thread, uint64_t method)",
     "+    pub fn cq_enter(thread: *mut cq_thread, method: u64) -> u32;"),
    ("a version that was raised in the header alone", H, f"CQ_VERSION_PATCH {PATCH}", f"CQ_VERSION_PATCH {PATCH + 1}",
     f'+version = "{MAJOR}.{NEXT}.{PATCH + 1}"'),
    ("a version that was forgotten in one place", "bindings/rust/Cargo.toml", f'version = "{MAJOR}.{NEXT}.{PATCH}"', 'version = "1.0.0"',
     f'+version = "{MAJOR}.{NEXT}.{PATCH}"'),
    ("a code that no function gives", H, "CQ_SYSTEM = 306 ", "CQ_NEVER = 307, /* never */\n    CQ_SYSTEM = 306 ", "no function gives CQ_NEVER"),
    ("a code without a text", H, "CQ_OK = 0,                        /* it is done, or the answer is there */", "CQ_OK = 0,",
     "nothing beside CQ_OK says when it comes"),
    ("a code with another number", H, "CQ_NOT_NEW 210  the thread", "CQ_NOT_NEW 211  the thread", "cq_start: CQ_NOT_NEW 211 is no code"),
    ("a function that does not say since when it is there", H, "bool cq_poll_clear(", "bool cq_comes(cq_thread *thread);\nbool cq_poll_clear(",
     f"cq_comes came with {MAJOR}.{NEXT}, and its comment says {MAJOR}.0"),
    ("a function that says another version", WAIT_H, "cq_let_go_of_all. Since 2.1.", "cq_let_go_of_all. Since 2.2.",
     "cq_wait_let_go_of_all came with 2.1, and its comment says 2.2"),
    ("a waiting function with other codes", H, " *   CQ_NO_NATIVE_FRAME 207  the newest frame is not native, or there is none\n", "",
     "cq_wait_native does not list the codes of cq_native: NO_NATIVE_FRAME"),
    ("codes of a function that is not there", H, "codes are those of cq_enter.", "codes are those of cq_enters.", "cq_enter_native: there is no cq_enters"),
    ("a prototype of a form that is not read", H, "cq_leave(cq_thread *thread)", "cq_leave(cq_thread thread[static 1])", "not read: cq_thread thread[static 1]"),
    ("an enum without a name", H, "enum cq_stop_kind {", "enum {", "the enum of CQ_BREAKPOINT has no name"),
    ("a generated file that was edited", "c/cebdyraq.map", "cq_poll_word; ", "", "+    global: cq_poll_word; "),
)


def put(path, before, after):
    text = path.read_text()
    if text.count(before) != 1:
        raise AssertionError(f"{path} has {text.count(before)} times: {before}")
    path.write_text(text.replace(before, after))


@functools.cache
def next_version():
    """A copy of the next minor version, in which all is as the headers say."""
    made = new_folder()
    for name in PARTS:
        shutil.copytree(TOP / name, made / name, ignore=shutil.ignore_patterns("target", "__pycache__"))
    put(made / H, f"CQ_VERSION_MINOR {MINOR}\n", f"CQ_VERSION_MINOR {NEXT}\n")
    run(sys.executable, made / "ci/generate.py")
    run(sys.executable, made / "ci/generate.py", "--check")
    return made


def copy():
    made = new_folder()
    shutil.copytree(next_version(), made, dirs_exist_ok=True)
    return made


class Generated(unittest.TestCase):
    def test_each_file_is_as_the_headers_say(self):
        said = run(sys.executable, TOP / "ci/generate.py", "--check")
        self.assertRegex(said, r"\n1\.\.[1-9]\d*\n$")

    def test_mistakes_are_refused(self):
        for what, name, before, after, why in MISTAKES:
            with self.subTest(what):
                made = copy()
                put(made / name, before, after)
                self.assertIn(why, run(sys.executable, made / "ci/generate.py", "--check", status=1))

    def test_a_function_that_came_is_written(self):
        made = copy()
        before = "bool cq_poll_clear(cq_thread *thread);\n"
        put(made / H, before, f"{before}\n/* Comes. Since {MAJOR}.{NEXT}. */\nbool cq_comes(cq_thread *thread);\n")
        run(sys.executable, made / "ci/generate.py")
        run(sys.executable, made / "ci/generate.py", "--check")
        for name in ("bindings/python/cebdyraq/_api.py", "bindings/rust/cebdyraq-sys/src/api.rs", "c/cebdyraq.map"):
            self.assertIn("cq_comes", (made / name).read_text())


class Witnesses(unittest.TestCase):
    """What is written by hand a second time, so that a mistake in the headers is found."""

    def test_layout_has_each_number_and_each_place(self):
        table, text = api.read(), (HERE / "layout.c").read_text()
        for enum in table.enums:
            for one in enum.constants:
                self.assertIn(f"NUMBER({one.name}, ", text)
        for struct in table.structs:
            if struct.members:
                self.assertIn(f"SIZE({struct.name}, ", text)
            for one in (struct.members or []) if not struct.opaque else []:
                self.assertIn(f"PLACE({struct.name}, {one.name}, ", text)

    def test_python_has_the_sizes_and_places(self):
        sys.path.insert(0, str(TOP / "bindings/python"))
        from cebdyraq import _api as declared
        text = (HERE / "layout.c").read_text()
        sizes, places = re.findall(r"^SIZE\((\w+), (\d+)\)", text, re.M), re.findall(r"^PLACE\((\w+), (\w+), (\d+)\)", text, re.M)
        self.assertTrue(sizes and places)
        for name, size in sizes:
            self.assertEqual(ctypes.sizeof(getattr(declared, api.camel(name))), int(size), name)
        for name, member, place in places:
            self.assertEqual(getattr(getattr(declared, api.camel(name)), member).offset, int(place), f"{name}.{member}")

    def test_codes_that_the_programs_of_tests_c_get_are_listed(self):
        known, found = codes.Codes(api.read()), set()
        for path in (TOP / "tests/c").glob("*.c"):
            for form in GOT:
                found.update(form.findall(path.read_text()))
        found = {(name, code) for name, code in found if code not in ("OK", "MISUSED")}
        self.assertGreater(len(found), 100)
        for name, code in sorted(found):
            listed = known.of(name) + (known.in_common() if known.at_a_thread(name) else [])
            self.assertTrue(code in listed or known.of_the_call(name), f"{name} gives CQ_{code}")
