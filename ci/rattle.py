"""Calls the toolchain's compiler, `rattle`, over the libraries that `rt ci` has proved and left in crates/NAME/out/rlib.

`rt check` and `rt lib` take a library only if they have built it themselves, and would prove all of them once more. `rattle check` and
`rattle build`, which `rt` calls, take it as it lies there. Whether a crate is proved is their own verdict. They are called as `rt ci`
calls them.
"""

import dataclasses
import pathlib
import re
import shutil
import subprocess

TOP = pathlib.Path(__file__).resolve().parent.parent
KIT = pathlib.Path(shutil.which("rt") or "rt").resolve().parent.parent
# The folders of a crate that a check reads.
PARTS = ("src", "specs", "proofs")
ROW = re.compile(r"^(\w+)([^:#\n]*):?([^#\n]*)", re.M)


@dataclasses.dataclass(frozen=True)
class Crate:
    """A line of crates.txt: whether it is a static library, and the crates and the toolchain's libraries that it uses."""

    name: str
    is_static: bool
    uses: tuple

    @property
    def folder(self):
        return TOP / "crates" / self.name

    def below(self, listed):
        """The repository's crates that it stands on, each behind those that it uses."""
        found = {}
        for name in self.uses:
            if name in listed:
                found.update(dict.fromkeys([*listed[name].below(listed), listed[name]]))
        return list(found)

    def words(self, jobs):
        """What `rattle check` and `rattle build` are given to read the crate in the folder where they run."""
        listed = crates()
        libraries = ["std", *(name for name in self.uses if name not in listed)]
        words = ["--crate-name", self.name, "src/main.rt" if (self.folder / "src/main.rt").is_file() else "src/lib.rt"]
        for name in libraries:
            words += ["--extern", f"{name}={KIT}/rlibs/{name}.rlib"]
        words += ["-L", f"dependency={KIT}/rlibs"]
        for crate in self.below(listed):
            rlib = crate.folder / "out/rlib"
            words += ["--extern", f"{crate.name}={rlib}/{crate.name}.rlib"] * (crate.name in self.uses) + ["-L", f"dependency={rlib}"]
        words += ["--antt-project", f"{KIT}/rattle/logic/antt-project.json", "--logic-built", f"{KIT}/logic_built"]
        words += ["--crate-type", "staticlib"] * self.is_static
        return [*words, "--links", f"{self.name}=", "--jobs", str(jobs)]


def crates():
    """The crates of crates.txt, by their names."""
    rows = ROW.findall((TOP / "crates.txt").read_text())
    return {name: Crate(name, "staticlib" in kind.split(), tuple(uses.split())) for name, kind, uses in rows}


def call(verb, crate, *words, jobs=1, **more):
    """Runs `rattle check` or `rattle build` of a crate."""
    return subprocess.run([f"{KIT}/bin/rattle", verb, *crate.words(jobs), *map(str, words)], stdin=subprocess.DEVNULL, **more)


def build_archive(name, jobs):
    """Proves a static library once more, and compiles what was proved into its archive. Gives the archive, or None if there is none."""
    crate = crates()[name]
    archive = crate.folder / f"out/lib{name}.a"
    archive.unlink(missing_ok=True)
    archive.parent.mkdir(exist_ok=True)
    done = call("build", crate, "--toolchain", f"{KIT}/toolchain", "--backend", "llvm", "-o", archive, jobs=jobs, cwd=crate.folder)
    return archive if done.returncode == 0 else None
