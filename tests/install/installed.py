"""An installation of the library below an empty prefix, and programs that are compiled against it and nothing else."""

import atexit
import functools
import os
import pathlib
import re
import shlex
import shutil
import subprocess
import sys
import tempfile
import unittest

HERE = pathlib.Path(__file__).resolve().parent
TOP = HERE.parent.parent
sys.path.insert(0, str(TOP / "ci"))

import header

CC, CXX = (shlex.split(os.environ.get(name, otherwise)) for name, otherwise in (("CC", "cc"), ("CXX", "c++")))
WARNINGS = ("-Wall", "-Wextra", "-Wpedantic", "-Werror")
VERSION = ".".join(map(str, header.version()))
SECONDS = 600


def run(*command, status=0, **more):
    """What a command writes. It has to end with this status."""
    more = {"stdout": subprocess.PIPE, "stderr": subprocess.STDOUT, "timeout": SECONDS, **more}
    done = subprocess.run([str(word) for word in command], text=True, errors="replace", **more)
    if status is not None and done.returncode != status:
        raise AssertionError(f"status {done.returncode} of {shlex.join(map(str, command))}\n{done.stdout}")
    return done.stdout


def wants(*programs):
    """A test that is skipped where one of these programs is missing."""
    missing = [name for name in programs if not shutil.which(name)]
    return unittest.skipIf(missing, f"there is no {', '.join(missing)}")


@functools.cache
def room():
    """A folder that is removed at the end."""
    made = tempfile.mkdtemp(prefix="installed-")
    atexit.register(shutil.rmtree, made, True)
    return pathlib.Path(made)


def new_folder():
    return pathlib.Path(tempfile.mkdtemp(dir=room()))


def make(target, **variables):
    run("make", "--silent", "--no-print-directory", "-C", TOP, target, *(f"{name}={value}" for name, value in variables.items()))


@functools.cache
def prefix():
    """The prefix below which the library is installed."""
    made = room() / "prefix"
    make("install", PREFIX=made)
    return made


def files(folder):
    return {str(path.relative_to(folder)) for path in folder.rglob("*") if path.is_symlink() or not path.is_dir()}


def pkg_config(*words, libdir=None):
    """What pkg-config says of the installed library, or what it would say of it where it is missing."""
    folder = (libdir or prefix() / "lib") / "pkgconfig"
    if shutil.which("pkg-config"):
        here = {**os.environ, "PKG_CONFIG_LIBDIR": str(folder), "PKG_CONFIG_PATH": ""}
        return shlex.split(run("pkg-config", *words, "cebdyraq", env=here))
    text = (folder / "cebdyraq.pc").read_text().replace("${pcfiledir}", str(folder))
    fields = dict(re.findall(r"^(\w+)[=:] *(.*)$", text, re.M))
    expanded = " ".join(fields[{"--cflags": "Cflags", "--libs": "Libs"}[word]] for word in words)
    while "${" in expanded:
        expanded = re.sub(r"\$\{(\w+)\}", lambda found: fields[found[1]], expanded)
    return shlex.split(expanded)


def flags(static=False):
    """The flags by which a program is compiled and linked against the installed library."""
    lib = prefix() / "lib"
    linked = [lib / "libcebdyraq.a"] if static else [*pkg_config("--libs"), f"-Wl,-rpath,{lib}"]
    return [*pkg_config("--cflags"), *linked, "-lpthread"]


def compiled(*sources, words=(), linked=None):
    """The program that is made of these files of this folder."""
    made = new_folder() / "program"
    is_cxx = any(str(source).endswith(".cpp") for source in sources)
    command = [*CXX, "-std=c++17"] if is_cxx else [*CC, "-std=c11"]
    run(*command, "-O1", "-g", *WARNINGS, *words, *(HERE / source for source in sources), *(flags() if linked is None else linked), "-o", made,
        cwd=room())
    return made
