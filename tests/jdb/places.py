"""Where the programs are, and how a host is run."""
import contextlib
import pathlib
import re
import shutil
import subprocess
import sys
import unittest

HERE = pathlib.Path(__file__).resolve().parent
TOP = HERE.parent.parent
SCRIPTS = HERE / "scripts"
MISSING = [program for program in ("jdb", "javac", "java") if not shutil.which(program)]

sys.path.extend((str(TOP / "hosts/lua"), str(TOP / "ci")))  # jdwp.py, the debugger's end of the wire, and tap.py

cqlua = TOP / "hosts/lua/out/cqlua"
dist = TOP / "dist"

wants_java = unittest.skipIf(MISSING, f"there is no {' and no '.join(MISSING)}")


def set_places(words):
    global cqlua, dist
    cqlua = pathlib.Path(words[0]).resolve() if words else cqlua
    dist = pathlib.Path(words[1]).resolve() if words[1:] else dist


class Host:
    """A process to which a debugger may attach at `port`."""

    def __init__(self, process, line):
        self.process = process
        self.port = int(re.search(r"(\d+)$", line)[1])

    def runs(self):
        return self.process.poll() is None

    def tell(self, word):
        """Writes a line to its standard input."""
        self.process.stdin.write(word + "\n")
        self.process.stdin.flush()


@contextlib.contextmanager
def scripts(*names, statement="", suspended=False):
    """A host that runs these scripts, from their folder. Each has begun, unless they begin suspended: the first word that it writes is
    its name."""
    words = [cqlua, "run", "-e", statement, "--debug", "127.0.0.1:0", *["--suspend"] * suspended, *(f"{name}.lua" for name in names)]
    with subprocess.Popen(words, cwd=SCRIPTS, stderr=subprocess.PIPE, stdout=subprocess.PIPE, text=True) as process:
        try:
            host, begun = Host(process, process.stderr.readline()), set()
            while host.runs() and not suspended and not begun.issuperset(names):
                begun.add(process.stdout.readline().partition("\t")[0].strip())
            yield host
        finally:
            process.kill()


@contextlib.contextmanager
def many(room):
    """many.c, which is built in this folder."""
    subprocess.run(["cc", "-std=c11", "-D_GNU_SOURCE", "-O2", "-Wall", "-Wextra", "-Werror", f"-I{dist / 'include'}",
                    HERE / "many.c", dist / "lib/libcebdyraq.a", "-lpthread", "-o", f"{room}/many"], check=True)
    with subprocess.Popen([f"{room}/many"], stdin=subprocess.PIPE, stdout=subprocess.PIPE, text=True) as process:
        try:
            yield Host(process, process.stdout.readline())
        finally:
            process.kill()
