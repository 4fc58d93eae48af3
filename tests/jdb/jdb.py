"""The real jdb, by pipes."""
import os
import re
import select
import subprocess
import time

# jdb may write it twice, as it attaches to threads that are suspended.
PROMPT = re.compile(r"(?:\A|(?<=\n))(?:> |\S+\[\d+\] )+\Z")
PATIENCE = 120  # seconds that jdb may take for one answer, on a busy machine


class Jdb:
    """A jdb that has attached. What it writes up to its prompt is what it says to a command."""

    def __init__(self, port):
        self.process = subprocess.Popen(["jdb", "-attach", f"127.0.0.1:{port}"], stdin=subprocess.PIPE,
                                        stdout=subprocess.PIPE, stderr=subprocess.STDOUT)
        self.greeting = self.read(PROMPT)

    def __enter__(self):
        return self

    def __exit__(self, *_):
        self.process.kill()
        self.process.wait()
        self.process.stdin.close()
        self.process.stdout.close()

    def read(self, until):
        """What is written until this matches, or to the end if `until` is None."""
        text, end = "", time.monotonic() + PATIENCE
        output = self.process.stdout.fileno()
        while until is None or not until.search(text):
            if not select.select([output], [], [], max(0, end - time.monotonic()))[0]:
                raise TimeoutError(f"jdb said only {text!r}")
            more = os.read(output, 65536).decode()
            if not more and until is not None:
                raise EOFError(f"jdb ended after {text!r}")
            if not more:
                return text
            text += more
        return text

    def say(self, command):
        """What jdb answers, without the prompt."""
        self.process.stdin.write(command.encode() + b"\n")
        self.process.stdin.flush()
        text = self.read(PROMPT)
        return text[:PROMPT.search(text).start()]

    def say_until(self, command, pattern):
        """Says it until the answer has this pattern, and gives the answer."""
        end = time.monotonic() + PATIENCE
        text = self.say(command)
        while not re.search(pattern, text, re.M):
            if time.monotonic() > end:
                raise TimeoutError(f"{command}: {text!r}")
            text = self.say(command)
        return text

    def quit(self):
        """Quits, and gives the status."""
        self.process.stdin.write(b"quit\n")
        self.process.stdin.flush()
        self.read(None)
        return self.process.wait(PATIENCE)


def attach(port):
    """A jdb that has attached to this port. As long as the debugger before it is there, it is refused."""
    end = time.monotonic() + PATIENCE
    while True:
        try:
            return Jdb(port)
        except EOFError:
            if time.monotonic() > end:
                raise
