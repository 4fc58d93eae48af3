"""The C half on other systems, as far as their compilers are here. The proved half is built for x86-64 Linux alone."""

import subprocess
import unittest

from installed import HERE, TOP, WARNINGS, new_folder, prefix, run, wants

SOURCES = sorted((TOP / "c").glob("*.c"))
# musl's compiler has no headers of the kernel. Debian keeps them beside those of its own C library.
KERNEL_HEADERS = ("-idirafter", "/usr/include", "-idirafter", "/usr/include/x86_64-linux-gnu")
TIMES_OF_64_BITS = ("-D_TIME_BITS=64", "-D_FILE_OFFSET_BITS=64")
SHOWN = "method 4 at -1\nmethod 3 at 17\n"


def compile_half(*compiler):
    for source in SOURCES:
        run(*compiler, "-std=c11", "-O2", *WARNINGS, "-c", source, "-o", new_folder() / "half.o")


def nap(*compiler):
    """nap.c, with nothing in place of what it does not call. It is run where this system runs it."""
    made = new_folder() / "nap"
    run(*compiler, "-std=c11", "-O2", "-static", *WARNINGS, HERE / "nap.c", "-Wl,--unresolved-symbols=ignore-all", "-o", made)
    try:
        run(made)
    except OSError as why:
        raise unittest.SkipTest(f"compiled, and not run: {why}") from None


class Platforms(unittest.TestCase):
    @wants("gcc")
    def test_x86_64_naps(self):
        nap("gcc")

    @wants("clang")
    def test_x86_64_by_clang(self):
        compile_half("clang")

    @wants("aarch64-linux-gnu-gcc")
    def test_aarch64(self):
        compile_half("aarch64-linux-gnu-gcc")
        run("aarch64-linux-gnu-gcc", "-std=c11", *WARNINGS, f"-I{prefix()}/include", "-fsyntax-only", HERE / "layout.c")

    @wants("i686-linux-gnu-gcc")
    def test_32_bits(self):
        for times in ((), TIMES_OF_64_BITS):
            compile_half("i686-linux-gnu-gcc", *times)
            nap("i686-linux-gnu-gcc", *times)

    @wants("musl-gcc")
    def test_musl(self):
        compile_half("musl-gcc", *KERNEL_HEADERS)
        nap("musl-gcc", *KERNEL_HEADERS)

    @wants("musl-gcc")
    def test_installed_archive_with_musl(self):
        made = new_folder() / "program"
        run("musl-gcc", "-std=c11", "-static", *WARNINGS, f"-I{prefix()}/include", HERE / "program.c", prefix() / "lib/libcebdyraq.a", "-o", made)
        self.assertEqual(run(made), SHOWN)
