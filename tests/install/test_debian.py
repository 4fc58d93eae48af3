"""What is installed, as Debian's packages: lintian finds no error.

The library, what is needed to compile with it, and the programs that are built are a package each. The packages are made for this
test alone, and say what they are."""

import gzip
import re
import shutil
import unittest

from installed import VERSION, files, make, new_folder, run, wants

MULTIARCH = "usr/lib/x86_64-linux-gnu"
# Each package: its section, what it depends on, what it is, and its files as globs.
PACKAGES = {
    "libcebdyraq2": ("libs", "libc6 (>= 2.34)", "threads of a runtime, inspected by agents", (f"{MULTIARCH}/libcebdyraq.so.*",)),
    "libcebdyraq-dev": (
        "libdevel", f"libcebdyraq2 (= {VERSION}-1), libc6-dev", "threads of a runtime, inspected by agents (headers)",
        ("usr/include/*", f"{MULTIARCH}/libcebdyraq.a", f"{MULTIARCH}/libcebdyraq.so", f"{MULTIARCH}/pkgconfig/*", "usr/share/man/man3/*", "usr/share/cebdyraq/*"),
    ),
    "cebdyraq": ("devel", "libc6 (>= 2.34), python3", "walks and profiles of inspected threads", ("usr/bin/*",)),
}
CONTROL = """Package: {name}
Version: {version}-1
Section: {section}
Priority: optional
Architecture: amd64
{multiarch}Maintainer: Nobody <nobody@example.org>
Depends: {depends}
Installed-Size: {size}
Description: {what}
 A runtime makes one service, to which its threads and the environments of
 agents are attached. An agent asks for the state and the stack of one thread,
 and suspends it, while the other threads run on.
"""
COPYRIGHT = """Made by a test of Cebdyraq, to be read by lintian.

Copyright: none is claimed by this package.
License: none is given by this package.
"""
CHANGELOG = """{name} ({version}-1) unstable; urgency=medium

  * Made by a test.

 -- Nobody <nobody@example.org>  Thu, 01 Jan 2026 00:00:00 +0000
"""


def compress(path, text):
    path.parent.mkdir(parents=True, exist_ok=True)
    path.write_bytes(gzip.compress(text.encode(), mtime=0))


def fill(name, stage):
    """A folder with the files of a package, as Debian has them."""
    folder = new_folder() / name
    for pattern in PACKAGES[name][-1]:
        for path in stage.glob(pattern):
            target = folder / path.relative_to(stage)
            target.parent.mkdir(parents=True, exist_ok=True)
            shutil.copy2(path, target, follow_symlinks=False)
    for page in folder.glob("usr/share/man/man3/*"):
        compress(page.with_name(page.name + ".gz"), page.read_text())
        page.unlink()
    for path in (*folder.glob("usr/bin/*"), *folder.glob(f"{MULTIARCH}/libcebdyraq.so.*.*")):
        if path.read_bytes().startswith(b"\x7fELF"):
            run("strip", "--strip-unneeded", "--remove-section=.comment", "--remove-section=.note", path)
    for path in folder.glob(f"{MULTIARCH}/*.a"):
        run("strip", "--strip-debug", "--remove-section=.comment", "--enable-deterministic-archives", path)
    return folder


def describe(name, folder):
    """Puts into the folder what dpkg and Debian's policy want beside the files."""
    section, depends, what, _ = PACKAGES[name]
    papers = folder / "usr/share/doc" / name
    compress(papers / "changelog.Debian.gz", CHANGELOG.format(name=name, version=VERSION))
    (papers / "copyright").write_text(COPYRIGHT)
    size = sum((folder / path).lstat().st_size for path in files(folder)) // 1024 + 1
    control = folder / "DEBIAN"
    control.mkdir()
    multiarch = "Multi-Arch: same\n" if section.startswith("lib") else ""
    fields = {"name": name, "version": VERSION, "section": section, "multiarch": multiarch, "depends": depends, "size": size, "what": what}
    (control / "control").write_text(CONTROL.format(**fields))
    if section == "libs":
        (control / "shlibs").write_text(f"libcebdyraq {name.removeprefix('libcebdyraq')} {name} (>= {VERSION})\n")
        (control / "triggers").write_text("activate-noawait ldconfig\n")
    run("sh", "-c", 'cd "$1" && find usr -type f -exec md5sum {} + > DEBIAN/md5sums', "sh", folder)
    for path in folder.rglob("*"):
        if not path.is_symlink():
            path.chmod(0o755 if path.is_dir() or path.parent.name == "bin" else 0o644)


@wants("dpkg-deb", "lintian", "strip")
class Debian(unittest.TestCase):
    def test_lintian_finds_no_error(self):
        stage = new_folder()
        make("install", DESTDIR=stage, PREFIX="/usr", LIBDIR=f"/{MULTIARCH}")
        made, left = [], files(stage)
        for name in PACKAGES:
            folder = fill(name, stage)
            if files(folder):
                left -= {re.sub(r"(man3/.*)\.gz$", r"\1", path) for path in files(folder)}
                describe(name, folder)
                made.append(new_folder() / f"{name}_{VERSION}-1_amd64.deb")
                run("dpkg-deb", "--build", "--root-owner-group", folder, made[-1])
        self.assertEqual(left, set(), "no package has these")
        said = run("lintian", "--fail-on", "none", "--allow-root", *made, status=None)
        self.assertEqual(re.findall(r"^[E].*$", said, re.M), [], said)
        self.assertRegex(run("dpkg-deb", "--info", made[0]), r"Package: libcebdyraq2\n")
