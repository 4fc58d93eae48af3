"""Builds the library for C into dist/, which may be moved: the static and the shared library, headers, a pkg-config file, a
manual page, and suppressions for the thread sanitizer.

    ci/lib.py [ARCHIVE]

The proved half is crates/ti_capi/out/libti_capi.a, which `rt lib` makes first, or ARCHIVE as it is. A program is then linked by
one line:

    cc program.c $(PKG_CONFIG_PATH=dist/lib/pkgconfig pkg-config --cflags --libs cebdyraq)

Where there is no pkg-config, the flags are -Idist/include and dist/lib/libcebdyraq.a. CC, CFLAGS, LDFLAGS, AR and OBJCOPY are
taken from the environment. `make install` installs what is in dist/.
"""

import os
import pathlib
import re
import shlex
import shutil
import subprocess
import sys
import tempfile

sys.dont_write_bytecode = True

import header
import man_page

TOP = pathlib.Path(__file__).resolve().parent.parent
CRATE = TOP / "crates/ti_capi"
ARCHIVE = CRATE / "out/libti_capi.a"
DIST = TOP / "dist"
HEADERS = (*header.HEADERS, "cebdyraq.hpp")
SUPPRESSIONS = "tsan.supp"
# The objects of the library, each with its C files.
OBJECTS = {
    "cebdyraq": ("cebdyraq_heap", "cebdyraq_version", "cebdyraq_codes", "cebdyraq_classes", "cebdyraq_variables", "cebdyraq_calls"),
    "cebdyraq_wait": ("cebdyraq_wait",),
    "cebdyraq_serve": ("cebdyraq_serve", "cebdyraq_listen", "cebdyraq_peer"),
    "cebdyraq_watch": ("cebdyraq_watch",),
}
# The names that two of them share beside those of the headers. The shared library does not export them.
SHARED = ("cebdyraq_wake_servers", "cebdyraq_watchers", "cebdyraq_open_watch", "cebdyraq_close_watch", "cebdyraq_watch_thread",
          "cebdyraq_unwatch_thread", "cebdyraq_watch_stops", "cebdyraq_next_wanted", "cebdyraq_news_of")
# The functions of the proved half that have another name in the library, since cebdyraq_calls.c has one of theirs.
CALL = re.compile(r"^\w+ cebdyraq_(\w+)_proved\(", re.M)
FLAGS = ("-std=c11", "-O2", "-g", "-fPIC", "-Wall", "-Wextra", "-Werror", f"-ffile-prefix-map={TOP}/=")
PKG_CONFIG = """prefix=${{pcfiledir}}/../..
includedir=${{prefix}}/include
libdir=${{prefix}}/lib

Name: cebdyraq
Description: Threads of a runtime, inspected by agents while other threads run
Version: {version}
Cflags: -I${{includedir}}
Libs: -L${{libdir}} -Wl,-rpath,${{libdir}} -lcebdyraq -lpthread
"""


def words(name, otherwise):
    return shlex.split(os.environ.get(name, otherwise))


def run(*command, **named):
    subprocess.run([str(word) for word in command], check=True, **named)


def compiled(name, room):
    """The object of a C file."""
    made = room / f"{name}.c.o"
    run(*words("CC", "cc"), *FLAGS, *words("CFLAGS", ""), "-c", f"{header.C}/{name}.c", "-o", made)
    return made


def with_calls_renamed(archive, room):
    """The archive of the proved half, under the names by which cebdyraq_calls.c calls it."""
    table, made = room / "names", room / "proved.a"
    called = CALL.findall((header.C / "cebdyraq_calls.c").read_text())
    table.write_text("".join(f"cq_{name} cebdyraq_{name}_proved\n" for name in called))
    run(*words("OBJCOPY", "objcopy"), "--redefine-syms", table, archive, made)
    return made


def joined(name, parts, room):
    """One object of several, in which only cq_ names are global, and those that objects share."""
    made = room / f"{name}.o"
    run(*words("CC", "cc"), "-nostdlib", "-r", *parts, "-o", made)
    # (the partial link makes LLVM's table of addresses stale)
    kept = [f"--keep-global-symbol={name}" for name in ("cq_*", *SHARED)]
    run(*words("OBJCOPY", "objcopy"), "--wildcard", *kept, "--remove-section=.llvm_addrsig", made)
    return made


def objects(archive, room):
    """The objects of OBJECTS. The first one has the proved half as well."""
    proved = ["-Wl,--whole-archive", with_calls_renamed(archive, room), "-Wl,--no-whole-archive"]
    return [joined(made, proved * (made == "cebdyraq") + [compiled(name, room) for name in names], room) for made, names in OBJECTS.items()]


def link_shared(objects, folder):
    """The shared library, by its whole version, and links to it by its soname and by no version."""
    version = header.version()
    whole, soname = "libcebdyraq.so." + ".".join(map(str, version)), f"libcebdyraq.so.{version[0]}"
    script = f"-Wl,--version-script={header.C}/cebdyraq.map"
    run(*words("CC", "cc"), *words("CFLAGS", ""), "-shared", *objects, f"-Wl,-soname,{soname}", script, "-Wl,-Bsymbolic,-z,defs,-z,relro,-z,now",
        *words("LDFLAGS", ""), "-o", folder / whole)
    os.chmod(folder / whole, 0o644)
    (folder / soname).symlink_to(whole)
    (folder / "libcebdyraq.so").symlink_to(soname)


def build(archive, dist):
    shutil.rmtree(dist, ignore_errors=True)
    include, lib, man, share = dist / "include", dist / "lib", dist / "share/man/man3", dist / "share/cebdyraq"
    for folder in (include, lib / "pkgconfig", man, share):
        folder.mkdir(parents=True)
    for name in HEADERS:
        shutil.copyfile(header.C / name, include / name)
    shutil.copyfile(header.C / SUPPRESSIONS, share / SUPPRESSIONS)
    with tempfile.TemporaryDirectory() as name:
        room = pathlib.Path(name)
        linked = objects(archive, room)
        run(*words("AR", "ar"), "rcs", lib / "libcebdyraq.a", *linked)
        os.chmod(lib / "libcebdyraq.a", 0o644)
        link_shared(linked, lib)
    version = ".".join(map(str, header.version()))
    (lib / "pkgconfig/cebdyraq.pc").write_text(PKG_CONFIG.format(version=version))
    (man / "cebdyraq.3").write_text(man_page.page())


def main():
    if sys.argv[1:]:
        archive = pathlib.Path(sys.argv[1]).resolve()
    else:
        archive = ARCHIVE
        run("rt", "lib", cwd=CRATE)
    build(archive, DIST)
    print("cc program.c $(PKG_CONFIG_PATH=dist/lib/pkgconfig pkg-config --cflags --libs cebdyraq)")


if __name__ == "__main__":
    sys.exit(main())
