"""The bindings as packages: each is built from the installed library alone, and refuses a library that it is not for."""

import functools
import os
import pathlib
import shutil
import sys
import unittest

import header
from installed import CC, CXX, TOP, VERSION, compiled, new_folder, prefix, run, wants

PYTHON, RUST = TOP / "bindings/python", TOP / "bindings/rust"
# This Python, or the system's, which may have setuptools and wheel where this one has not.
PYTHONS = (sys.executable, "/usr/bin/python3")
AGENT = 'fn main() { drop(cebdyraq::Service::make(4, 1, 1).unwrap()); println!("made"); }\n'


def copy(folder):
    made = new_folder() / folder.name
    shutil.copytree(folder, made, ignore=shutil.ignore_patterns("target", "build", "__pycache__", "*.egg-info"))
    return made


def wheel_maker():
    """A Python that can make a wheel without a network, or None."""
    for python in PYTHONS:
        if os.access(python, os.X_OK) and "made" in run(python, "-c", "import setuptools, wheel, pip; print('made')", status=None):
            return python
    return None


@functools.cache
def wheel():
    folder = new_folder()
    run(wheel_maker(), "-m", "pip", "wheel", "--quiet", "--no-index", "--no-build-isolation", "--no-deps", "-w", folder, copy(PYTHON))
    [made] = folder.glob("*.whl")
    return made


@functools.cache
def installed_package():
    folder = new_folder()
    run(wheel_maker(), "-m", "pip", "install", "--quiet", "--no-index", "--no-deps", "--target", folder, wheel())
    return folder


def library_of_version(number):
    """A folder with a libcebdyraq.so.2 of this version, none of whose other functions may be called."""
    folder = new_folder()
    source = folder / "library.c"
    bodies = [f"{prototype[:-1]} {{ {f'return {number};' if name == 'cq_version' else '__builtin_trap();'} }}\n"
              for name, prototype in header.functions().items()]
    source.write_text("".join(f'#include "{name}"\n' for name in header.HEADERS) + "".join(bodies))
    run(*CC, "-w", "-fPIC", "-shared", f"-I{header.C}", source, "-Wl,-soname,libcebdyraq.so.2", f"-Wl,--version-script={header.C}/cebdyraq.map",
        "-o", folder / "libcebdyraq.so.2")
    return folder


def with_library(folder):
    return {**os.environ, "LD_LIBRARY_PATH": str(folder)}


def next_major():
    return (header.version()[0] + 1) * 1000000


@unittest.skipUnless(wheel_maker(), "there is no Python with pip, setuptools and wheel")
class Python(unittest.TestCase):
    def test_wheel_has_the_package_and_its_types(self):
        self.assertEqual(wheel().name, f"cebdyraq-{VERSION}-py3-none-any.whl")
        listed = run(sys.executable, "-m", "zipfile", "-l", wheel())
        for name in ("__init__.py", "_api.py", "_environment.py", "_library.py", "_types.py", "_values.py", "py.typed"):
            self.assertIn(f"cebdyraq/{name} ", listed)

    def test_agent_over_the_shared_library(self):
        """The package's own tests, from a folder in which nothing else is."""
        folder = new_folder() / "package"
        shutil.copytree(installed_package(), folder)
        for name in ("test.py", "runtime.c"):
            shutil.copy(PYTHON / name, folder)
        here = {**os.environ, "PYTHONPATH": str(TOP / "ci")}
        said = run(sys.executable, folder / "test.py", prefix() / "lib/libcebdyraq.so", prefix() / "include", cwd=folder, env=here)
        self.assertRegex(said, r"\n1\.\.[1-9]\d*\n")

    def test_another_version_is_refused(self):
        code = "import cebdyraq\ntry: cebdyraq.load()\nexcept ImportError as why: print(why)\nelse: print('loaded')"
        later_minor = header.version()[0] * 1000000 + 999000
        for number, wanted in ((next_major(), f"libcebdyraq {header.version()[0] + 1}.0 does not fit"), (later_minor, "loaded")):
            here = {**with_library(library_of_version(number)), "PYTHONPATH": str(installed_package())}
            self.assertIn(wanted, run(sys.executable, "-c", code, env=here))

    @wants("mypy")
    def test_types(self):
        run("/usr/bin/mypy" if os.access("/usr/bin/mypy", os.X_OK) else "mypy", "--strict", copy(PYTHON) / "cebdyraq")


@wants("cargo", "pkg-config")
class Rust(unittest.TestCase):
    def cargo(self, folder, *words):
        lib = prefix() / "lib"
        here = {**with_library(lib), "PKG_CONFIG_LIBDIR": str(lib / "pkgconfig"), "PKG_CONFIG_PATH": "", "CARGO_TARGET_DIR": str(self.target)}
        here.pop("CEBDYRAQ_LIB_DIR", None)
        return run("cargo", *words, "--offline", env=here, cwd=folder)

    @classmethod
    def setUpClass(cls):
        cls.folder, cls.target = copy(RUST), new_folder()
        path = cls.folder / "cebdyraq/examples/agent.rs"
        path.parent.mkdir(exist_ok=True)
        path.write_text(AGENT)

    def test_tests_with_the_shared_library(self):
        said = self.cargo(self.folder, "test")
        self.assertRegex(said, r"test result: ok\. [1-9]\d* passed")
        self.assertNotIn("FAILED", said)

    def test_packages(self):
        self.cargo(copy(RUST), "package", "--workspace", "--allow-dirty")
        made = {path.name for path in pathlib.Path(self.target, "package").glob("*.crate")}
        self.assertEqual(made, {f"cebdyraq-{VERSION}.crate", f"cebdyraq-sys-{VERSION}.crate"})

    def test_another_version_is_refused(self):
        self.assertEqual(self.cargo(self.folder, "run", "--quiet", "--example", "agent"), "made\n")
        agent = self.target / "debug/examples/agent"
        self.assertIn("does not fit", run(agent, env=with_library(library_of_version(next_major())), status=101))

    def test_without_the_library(self):
        here = {**os.environ, "PKG_CONFIG_LIBDIR": str(new_folder()), "PKG_CONFIG_PATH": "", "CARGO_TARGET_DIR": str(new_folder())}
        here.pop("CEBDYRAQ_LIB_DIR", None)
        self.assertIn("pkg-config does not find it", run("cargo", "build", "--offline", cwd=copy(RUST), env=here, status=101))


@wants(CXX[0])
class Cxx(unittest.TestCase):
    @wants("valgrind")
    def test_types_free_what_they_hold(self):
        leaks = ("--leak-check=full", "--errors-for-leak-kinds=all")
        run("valgrind", "--quiet", *leaks, "--error-exitcode=9", "--fair-sched=yes", compiled("types.cpp"))

    def test_another_version_is_refused(self):
        program = compiled("types.cpp")
        said = run(program, env=with_library(library_of_version(next_major())), status=-6)
        self.assertIn(f"libcebdyraq has the version {next_major()}, which does not fit the header", said)
