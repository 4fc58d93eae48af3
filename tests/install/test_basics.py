"""What a C compiler alone can show: files, versions, exported names, programs, two copies in one process, and the manual page."""

import re
import shutil
import unittest

import header
import installed
import lib
import man_page
from installed import CC, CXX, HERE, TOP, VERSION, WARNINGS, compiled, files, flags, make, new_folder, pkg_config, prefix, run, wants

FILES = {
    "include/cebdyraq.h", "include/cebdyraq.hpp", "include/cebdyraq_serve.h", "include/cebdyraq_wait.h", "include/cebdyraq_watch.h",
    "lib/libcebdyraq.a", "lib/libcebdyraq.so", "lib/libcebdyraq.so.2", f"lib/libcebdyraq.so.{VERSION}", "lib/pkgconfig/cebdyraq.pc", "share/cebdyraq/tsan.supp", "share/man/man3/cebdyraq.3",
}
PROGRAMS = {
    "bin/tiwalk": "crates/tiwalk/out/tiwalk", "bin/tilint": "crates/tilint/out/tilint", "bin/tiprof": "crates/tiprof/out/tiprof",
    "bin/cqlua": "hosts/lua/out/cqlua", "bin/cq-dap": "tools/dap/out/cq-dap",
}
SHOWN = "method 4 at -1\nmethod 3 at 17\n"


def wanted_files():
    return FILES | {path for path, built in PROGRAMS.items() if (TOP / built).is_file()}


def names(text):
    """The names in a table of nm, without their versions."""
    return {line.split()[-1].partition("@")[0] for line in text.splitlines() if len(line.split()) == 3 and " A " not in line}


def versioned(word, number):
    """A folder of headers, with another number in the version."""
    folder = new_folder() / "include"
    shutil.copytree(prefix() / "include", folder)
    path = folder / "cebdyraq.h"
    path.write_text(re.sub(rf"(#define CQ_VERSION_{word}) \d+", rf"\1 {number}", path.read_text()))
    return folder


class Files(unittest.TestCase):
    def test_prefix_has_these_files_and_no_other(self):
        self.assertEqual(files(prefix()), wanted_files())

    def test_what_is_staged_names_the_prefix_alone(self):
        stage = new_folder()
        make("install", DESTDIR=stage, PREFIX="/opt/cq", LIBDIR="/opt/cq/lib/here")
        moved = {re.sub("^lib/", "lib/here/", path) for path in wanted_files()}
        self.assertEqual(files(stage / "opt/cq"), moved)
        text = (stage / "opt/cq/lib/here/pkgconfig/cebdyraq.pc").read_text()
        self.assertIn("\nlibdir=/opt/cq/lib/here\n", text)
        self.assertNotIn(str(stage), text)
        self.assertNotIn("rpath", text)

    def test_uninstall_leaves_other_files_alone(self):
        place = new_folder()
        make("install", PREFIX=place)
        others = {"lib/libother.so.1", f"lib/libcebdyraq.so.{header.version()[0] + 1}", "include/cebdyraq_other.h"}
        for other in others:
            (place / other).write_text("")
        make("uninstall", PREFIX=place)
        self.assertEqual(files(place), others)

    def test_links_lead_by_the_soname_to_the_library(self):
        lib = prefix() / "lib"
        self.assertEqual(str((lib / "libcebdyraq.so").readlink()), "libcebdyraq.so.2")
        self.assertEqual(str((lib / "libcebdyraq.so.2").readlink()), f"libcebdyraq.so.{VERSION}")
        self.assertEqual((lib / f"libcebdyraq.so.{VERSION}").stat().st_mode & 0o777, 0o644)


class Versions(unittest.TestCase):
    def answer(self, *words):
        return run(compiled("version.c", words=words))

    def test_library_has_the_headers_version(self):
        major, minor, patch = header.version()
        self.assertEqual(self.answer(), f"{major * 1000000 + minor * 1000 + patch} fits\n")
        self.assertRegex((prefix() / "lib/pkgconfig/cebdyraq.pc").read_text(), rf"(?m)^Version: {re.escape(VERSION)}$")

    def test_another_major_version_does_not_fit(self):
        self.assertRegex(self.answer(f"-I{versioned('MAJOR', header.version()[0] + 1)}"), "does not fit")

    def test_a_higher_minor_version_does_not_fit(self):
        self.assertRegex(self.answer(f"-I{versioned('MINOR', header.version()[1] + 1)}"), "does not fit")

    def test_another_patch_fits(self):
        self.assertRegex(self.answer(f"-I{versioned('PATCH', header.version()[2] + 1)}"), " fits")

    def test_newest_entry_of_the_changelog(self):
        first = re.search(r"^## (\d\S*)", (TOP / "CHANGELOG.md").read_text(), re.M)
        self.assertEqual(first[1], VERSION)

    @wants("readelf")
    def test_soname_and_what_is_needed(self):
        said = run("readelf", "-d", prefix() / "lib/libcebdyraq.so")
        self.assertEqual(re.findall(r"SONAME\).*\[(.*)\]", said), ["libcebdyraq.so.2"])
        self.assertEqual(re.findall(r"NEEDED\).*\[(.*)\]", said), ["libc.so.6"])


@wants("nm", "objcopy")
class Names(unittest.TestCase):
    def test_shared_library_exports_the_headers_functions(self):
        self.assertEqual(names(run("nm", "-D", "--defined-only", prefix() / "lib/libcebdyraq.so")), set(header.functions()))

    def test_static_library_exports_the_headers_functions(self):
        self.assertEqual(names(run("nm", "-g", "--defined-only", prefix() / "lib/libcebdyraq.a")), {*header.functions(), *lib.SHARED})

    def test_wait_half_is_linked_only_where_it_is_called(self):
        waiting = set(header.prototypes(header.text_of(header.HEADERS[1])))
        linked = {source: names(run("nm", compiled(source, linked=flags(static=True)))) for source in ("heap.c", "program.c")}
        self.assertEqual(linked["heap.c"] & waiting, set())
        self.assertEqual(linked["program.c"] & waiting, waiting)

    def test_sockets_and_watches_are_linked_only_where_they_are_called(self):
        linked = names(run("nm", compiled("program.c", linked=flags(static=True))))
        self.assertEqual(linked & {"cq_serve", "cq_open_watch"}, set())

    def test_shared_library_calls_its_own_functions(self):
        run(compiled("bound.c"))

    def test_two_copies_in_one_program(self):
        """The second is the archive with other names for its functions."""
        folder = new_folder()
        table = folder / "names"
        table.write_text("".join(f"{name} two_{name}\n" for name in (*header.functions(), *lib.SHARED)))
        second, user, archive = folder / "two.o", folder / "user.o", folder / "libtwo.a"
        run(*CC, "-std=c11", *WARNINGS, *pkg_config("--cflags"), "-DCOPY=two_", "-c", HERE / "copy.c", "-o", user)
        run("objcopy", "--redefine-syms", table, user, second)
        run("objcopy", "--redefine-syms", table, prefix() / "lib/libcebdyraq.a", archive)
        run(compiled("copies.c", "copy.c", words=["-DCOPY=one_"], linked=[*flags(static=True), second, archive]))

    def test_two_copies_by_a_plugin(self):
        """The second is in a shared library of its own, which exports no function of it."""
        plugin = new_folder() / "libplugin.so"
        linked = [*flags(static=True), "-Wl,--exclude-libs,ALL"]
        run(*CC, "-std=c11", "-shared", "-fPIC", *WARNINGS, "-DCOPY=two_", HERE / "copy.c", *linked, "-o", plugin)
        self.assertEqual(names(run("nm", "-D", "--defined-only", plugin)) & set(header.functions()), set())
        run(compiled("copies.c", "copy.c", words=["-DCOPY=one_"], linked=[*flags(), plugin, f"-Wl,-rpath,{plugin.parent}"]))


class Programs(unittest.TestCase):
    def test_with_the_shared_library(self):
        self.assertEqual(run(compiled("program.c")), SHOWN)

    def test_with_the_static_library(self):
        self.assertEqual(run(compiled("program.c", linked=flags(static=True))), SHOWN)

    def test_from_a_folder_that_was_moved(self):
        moved = new_folder() / "moved"
        shutil.copytree(TOP / "dist", moved, symlinks=True)
        linked = pkg_config("--cflags", "--libs", libdir=moved / "lib")
        self.assertEqual(run(compiled("program.c", linked=linked)), SHOWN)
        self.assertNotIn(f"{TOP}/", " ".join(linked))

    def test_a_heap_of_its_own(self):
        for static in (False, True):
            run(compiled("heap.c", linked=flags(static)))

    def test_layout(self):
        run(*CC, "-std=c11", *WARNINGS, *pkg_config("--cflags"), "-fsyntax-only", HERE / "layout.c")

    def read(self, language, standard, *names):
        """Compiles nothing but these headers, each of them twice."""
        text = "".join(f"#include <{name}>\n" * 2 for name in names)
        compiler = CC if language == "c" else CXX
        run(*compiler, f"-std={standard}", *WARNINGS, *pkg_config("--cflags"), "-fsyntax-only", "-x", language, "-", input=text)

    def test_each_header_alone(self):
        for name in header.HEADERS:
            for standard in ("c99", "c11"):
                self.read("c", standard, name)

    @wants(CXX[0])
    def test_cxx(self):
        for name in header.HEADERS:
            self.read("c++", "c++11", name)
        self.read("c++", "c++17", "cebdyraq.hpp")
        run(*CXX, "-std=c++11", *WARNINGS, *pkg_config("--cflags"), "-fsyntax-only", "-x", "c++", HERE / "layout.c")
        run(compiled("types.cpp"))


class Page(unittest.TestCase):
    def text(self):
        return (prefix() / "share/man/man3/cebdyraq.3").read_text()

    def test_each_function_is_shown_as_it_is_declared(self):
        for prototype in header.functions().values():
            self.assertIn("\n".join(man_page.escaped(line) for line in prototype.split("\n")), self.text())

    def test_name(self):
        self.assertIn(".SH NAME\ncebdyraq \\- threads of a runtime", self.text())

    @wants("mandoc")
    def test_mandoc_finds_no_error(self):
        said = run("mandoc", "-Tlint", "-W", "warning", prefix() / "share/man/man3/cebdyraq.3", status=None)
        self.assertEqual([line for line in said.splitlines() if "missing date" not in line], [])

    @wants("groff")
    def test_groff_warns_of_nothing(self):
        self.assertEqual(run("groff", "-man", "-Tutf8", "-ww", "-z", prefix() / "share/man/man3/cebdyraq.3"), "")
