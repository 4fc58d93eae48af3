"""What the tests share: how a script is run or served, and how the debugger on the terminal is talked to."""
import contextlib
import os
import pathlib
import shutil
import subprocess
import tempfile
import unittest

HERE = pathlib.Path(__file__).resolve().parent
SCRIPTS = HERE / "scripts"
CQLUA = str((HERE / os.environ.get("OUT", "out") / "cqlua").resolve())
LUA = shutil.which("lua5.4") or shutil.which("lua")
PROMPT = "(cqlua) "

WORKER = """
    local function step(s, i)
        return (s * 31 + i) % 1000003
    end
    local function work()
        local s = 0
        for i = 1, 50000 do
            s = step(s, i)
        end
        return s
    end
    local function stop() local file = io.open(STOP) return file and file:close() end
    repeat local s = work() until stop()
    print("the worker has ended")
"""
SLEEPER = """
    repeat sleep(0.02) local file = io.open(STOP) until file
    print("the sleeper has ended")
"""


def run(*words, **more):
    return subprocess.run(words, cwd=SCRIPTS, capture_output=True, text=True, timeout=600, **more)


def cqlua(*words, **more):
    return run(CQLUA, *words, **more)


class WithFolder(unittest.TestCase):
    """A test that has a folder for its scripts."""

    def setUp(self):
        folder = tempfile.TemporaryDirectory()
        self.addCleanup(folder.cleanup)
        self.folder = pathlib.Path(folder.name)
        self.stop = self.folder / "stop"

    def script(self, name, text):
        path = self.folder / name
        path.write_text(text)
        return str(path)

    @contextlib.contextmanager
    def served(self, *words, where=SCRIPTS):
        """A host whose first line on standard error tells where it listens. Its scripts end when there is a file STOP."""
        options = 2 if words[0] == "serve" else 1
        command = [CQLUA, *words[:options], "-e", f"STOP = '{self.stop}'", *words[options:]]
        with subprocess.Popen(command, cwd=where, stderr=subprocess.PIPE, stdout=subprocess.PIPE, text=True) as host:
            try:
                yield host, host.stderr.readline()
            finally:
                self.stop.touch()
                host.communicate(timeout=60)


class Debugger:
    def __init__(self, *scripts, program=CQLUA):
        self.process = subprocess.Popen([program, "debug", *scripts], cwd=SCRIPTS, stdin=subprocess.PIPE,
                                        stdout=subprocess.PIPE)
        self.read()

    def read(self):
        """What is written up to the next prompt, or to the end."""
        text = b""
        while not text.endswith(PROMPT.encode()):
            more = os.read(self.process.stdout.fileno(), 65536)
            if not more:
                return text.decode()
            text += more
        return text.decode()[:-len(PROMPT)]

    def say(self, command):
        self.process.stdin.write(command.encode() + b"\n")
        self.process.stdin.flush()
        return self.read()

    def processor_time(self, name):
        """Of the thread of this name, in seconds."""
        for task in pathlib.Path(f"/proc/{self.process.pid}/task").iterdir():
            if (task / "comm").read_text().startswith(name):
                fields = (task / "stat").read_text().rsplit(")", 1)[1].split()
                spent = (int(fields[11]) + int(fields[12])) / os.sysconf("SC_CLK_TCK")
                exact = task / "schedstat"
                return int(exact.read_text().split()[0]) / 1e9 if exact.exists() else spent
        return None

    def end(self):
        self.process.stdin.close()
        text = self.read()
        self.process.stdout.close()
        return self.process.wait(), text
