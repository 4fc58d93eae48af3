"""The ABI of the library, by abidw and abidiff (libabigail).

    abi.py --record      writes that of this version to c/abi, when it is released

The proved half has no debug information, so its types cannot be read from libcebdyraq.so. They are read from a library whose
functions have the headers' prototypes and no bodies.
"""

import pathlib
import subprocess
import sys
import tempfile

from installed import CC, TOP, VERSION, header, run

RECORDS = TOP / "c/abi"
READ = ("--no-corpus-path", "--no-comp-dir-path", "--no-show-locs", "--type-id-style", "hash")


def of_headers(folder):
    """The ABI that the headers of a folder declare, as abidw writes it."""
    with tempfile.TemporaryDirectory() as name:
        source, library = pathlib.Path(name, "bodies.c"), pathlib.Path(name, "libcebdyraq.so")
        bodies = "".join(f"{prototype[:-1]} {{ __builtin_trap(); }}\n" for prototype in header.functions(folder).values())
        source.write_text("".join(f'#include "{name}"\n' for name in header.HEADERS) + bodies)
        run(*CC, "-std=c11", "-g", "-fPIC", "-shared", "-w", f"-I{folder}", source.name, f"-Wl,-soname,libcebdyraq.so.{header.version(folder)[0]}",
            f"-Wl,--version-script={header.C}/cebdyraq.map", "-o", library, cwd=name)
        return run("abidw", *READ, library)


def record_of(version):
    return RECORDS / f"{version}.abi"


def newest_record():
    """The record of the last version up to this one."""
    key = lambda path: tuple(map(int, path.stem.split(".")))
    return max((path for path in RECORDS.glob("*.abi") if key(path) <= header.version()), key=key)


def differs(old, new, *words):
    """What abidiff says of two ABIs, or None if they are the same."""
    with tempfile.TemporaryDirectory() as name:
        files = [pathlib.Path(name, which) for which in ("old.abi", "new.abi")]
        for file, text in zip(files, (old, new)):
            file.write_text(text)
        done = subprocess.run(["abidiff", *words, *map(str, files)], stdout=subprocess.PIPE, stderr=subprocess.STDOUT, text=True, check=False)
        return done.stdout or "abidiff failed" if done.returncode else None


def harms(old, new):
    """What of the new ABI harms a program that was compiled with the old one, or None. Functions that came harm nothing."""
    return differs(old, new, "--no-added-syms")


if __name__ == "__main__":
    if sys.argv[1:] != ["--record"]:
        sys.exit(__doc__.strip())
    RECORDS.mkdir(exist_ok=True)
    record_of(VERSION).write_text(of_headers(header.C))
