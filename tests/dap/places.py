"""Where things are, and programs to attach to."""
import contextlib
import pathlib
import re
import subprocess
import sys
import threading

HERE = pathlib.Path(__file__).resolve().parent
TOP = HERE.parent.parent
SCRIPTS = HERE / "scripts"
DAP = TOP / "tools/dap"
ADAPTER = DAP / "out/cq-dap"
EXTENSION = DAP / "out/cebdyraq-debug.vsix"

sys.path.extend((str(TOP / "ci"), str(DAP)))  # tap.py, and the adapter's own modules

cqlua = TOP / "hosts/lua/out/cqlua"
dist = TOP / "dist"


def script(name):
    return str(SCRIPTS / f"{name}.lua")


class Host:
    """A process to which a debugger may attach at `port`."""

    def __init__(self, process, line):
        self.process = process
        self.port = int(re.search(r"(\d+)$", line.strip())[1])

    def runs(self):
        return self.process.poll() is None

    def tell(self, word):
        """Writes a line to a program that answers each."""
        self.process.stdin.write(word + "\n")
        self.process.stdin.flush()
        return self.process.stdout.readline()


@contextlib.contextmanager
def running(*paths, suspended=True, folder=SCRIPTS):
    """A host that runs these scripts, from this folder. Each has begun, unless they begin suspended."""
    words = [cqlua, "run", "-e", "print('begins') io.stdout:flush()", "--debug", "127.0.0.1:0", *["--suspend"] * suspended, *paths]
    with subprocess.Popen(words, cwd=folder, stdout=subprocess.PIPE, stderr=subprocess.PIPE, text=True) as process:
        try:
            host = Host(process, process.stderr.readline())
            for _ in () if suspended else paths:
                process.stdout.readline()
            for stream in process.stdout, process.stderr:
                threading.Thread(target=stream.read, daemon=True).start()
            yield host
        finally:
            process.kill()


@contextlib.contextmanager
def many(room):
    """tests/jdb/many.c, which pops frames, and whose threads come and go as it is told. It is built in this folder."""
    subprocess.run(["cc", "-std=c11", "-D_GNU_SOURCE", "-O2", f"-I{dist / 'include'}", TOP / "tests/jdb/many.c", dist / "lib/libcebdyraq.a",
                    "-lpthread", "-o", f"{room}/many"], check=True)
    with subprocess.Popen([f"{room}/many"], cwd=room, stdin=subprocess.PIPE, stdout=subprocess.PIPE, text=True) as process:
        try:
            yield Host(process, process.stdout.readline())
        finally:
            process.kill()
