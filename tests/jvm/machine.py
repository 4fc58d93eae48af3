"""A Java VM that carries walks out, one after another."""

import subprocess
import threading

import build

# a walk takes some hundredths of a second
SECONDS = 120


class Broken(Exception):
    """Why the VM did not carry a walk out."""


class Machine:
    """A process of the VM, which is started again after it broke down."""

    def __init__(self):
        self.process = None
        self.start()

    def start(self):
        words = ["java", f"-Djava.library.path={build.BUILT}", f"-agentpath:{build.LIBRARY}", "-cp", build.CLASSES, "Driver"]
        self.process = subprocess.Popen(words, stdin=subprocess.PIPE, stdout=subprocess.PIPE, text=True)
        self.name, pops, self.above = self.in_time(lambda: [self.told(word) for word in ("vm", "pops", "above")])
        self.pops = pops == "true"

    def stop(self):
        if self.process:
            self.process.kill()
            self.process.communicate()
        self.process = None

    def in_time(self, work):
        """What the work gives. The VM is stopped if that takes too long, and if it breaks down."""
        timer = threading.Timer(SECONDS, self.process.kill)
        timer.start()
        try:
            return work()
        except (Broken, OSError):
            self.stop()
            raise
        finally:
            timer.cancel()

    def line(self):
        line = self.process.stdout.readline()
        if not line or line.startswith("!"):
            raise Broken(line[1:].strip() or f"the VM ended, or took more than {SECONDS} seconds")
        return line.rstrip("\n")

    def told(self, word):
        """What the driver tells after this word."""
        line = self.line()
        if not line.startswith(f"{word} "):
            raise Broken(f"the VM does not begin: {line}")
        return line[len(word) + 1 :]

    def carry_out(self, document):
        """The walk's lines."""
        if not self.process:
            self.start()
        return self.in_time(lambda: self.converse(text_of(document)))

    def converse(self, text):
        self.process.stdin.write(text)
        self.process.stdin.flush()
        return list(iter(self.line, "."))


def text_of(document):
    """The walk as the driver reads it: subjects and threads are numbers, and `-` is a thread that is not there."""
    lines = [f"walk {len(document['threads'])}"]
    lines += [" ".join(map(str, words_of(document, *event))) for event in document["events"]]
    return "\n".join([*lines, "go\n"])


def words_of(document, subject, word, *rest):
    threads = document["threads"]
    if subject in threads:
        return ["thread", threads.index(subject), word, *rest]
    agent = ["agent", document["agents"].index(subject), word]
    if word in ("add", "relinquish"):
        return [*agent, *rest[0]]
    if word in ("caps", "getenv", "setenv"):
        return [*agent, *rest]
    number = threads.index(rest[0]) if isinstance(rest[0], str) else rest[0]
    return [*agent, number if number < len(threads) else "-", *rest[1:]]
