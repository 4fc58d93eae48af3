"""Cases that take more than a document: streams that fail, a pipe that gives byte by byte, an argument that is no text."""

import dataclasses
import os
import pathlib
import resource
import subprocess
import typing

SECONDS = 60
# a device that takes no byte
FULL = "/dev/full"
USAGE = b"tiwalk: usage: tiwalk [walk|live|check]\n"
LINT_USAGE = b"tilint: usage: tilint [walk|live|check]\n"
TOO_LONG = b"document: more than 8,388,608 bytes, the most that are read\ntiwalk: limit input\n"


@dataclasses.dataclass
class End:
    """A way to run the program, and what it has to come to."""

    name: str
    how: typing.Callable
    wanted: tuple
    arguments: tuple = ()
    document: bytes = b""

    def run(self, program):
        return self.how(program)


def example(name):
    return pathlib.Path("examples", name).read_bytes()


def call(words, **how):
    """What standard output and standard error got, where they were kept, and the status."""
    how = {"stdout": subprocess.PIPE, "stderr": subprocess.PIPE, "timeout": SECONDS, **how}
    done = subprocess.run(words, **how)
    return done.stdout or b"", done.stderr or b"", done.returncode


def reader_fails(program):
    folder = os.open(".", os.O_RDONLY)
    try:
        return call([program], stdin=folder)
    finally:
        os.close(folder)


def to_full(stream, *words, document):
    def run(program):
        with open(FULL, "wb") as full:
            return call([program, *words], input=document, **{stream: full})

    return run


def byte_by_byte(program):
    streams = {"stdin": subprocess.PIPE, "stdout": subprocess.PIPE, "stderr": subprocess.PIPE}
    with subprocess.Popen([program], bufsize=0, **streams) as started:
        for byte in example("first.json"):
            started.stdin.write(bytes([byte]))
        out, err = started.communicate(timeout=SECONDS)
    return out, err, started.returncode


def argument_no_text(program):
    return call([os.fsencode(program), b"walk\xff"], input=b"")


def little_memory(program):
    """The room for the program itself, and some megabytes that the tree of a large document does not go into."""
    room = 24 * 1024 * 1024
    limit = lambda: resource.setrlimit(resource.RLIMIT_AS, (room, room))
    document = b"[" + b"[[],[]]," * 1_000_000 + b"[]]"
    return call([program, "check"], input=document, preexec_fn=limit)


ENDS = (
    End("a reader that fails", reader_fails, (b"", b"tiwalk: read\n", 4)),
    End("a writer that fails in a walk", to_full("stdout", "walk", document=example("first.json")), (b"", b"tiwalk: write\n", 4)),
    End("a writer that fails in a check", to_full("stdout", "check", document=example("illegal-history.json")), (b"", b"tiwalk: write\n", 4)),
    End("a writer that fails in a live run", to_full("stdout", "live", document=example("live-walks.json")), (b"", b"tiwalk: write\n", 4)),
    End("standard error that takes nothing", to_full("stderr", "walk", document=b"["), (b"", b"", 2)),
    End("standard error that takes nothing of usage", to_full("stderr", "run", document=b""), (b"", b"", 2)),
    End("a reader that gives byte by byte", byte_by_byte, (b"0 ok\n1 count 0\n2 went\n", b"", 0)),
    End("an argument that is no text", argument_no_text, (b"", USAGE, 2)),
    End("little memory", little_memory, (b"", b"tiwalk: memory\n", 3)),
)

# those of `tilint`
LINT_ENDS = (
    End("lint: a reader that fails", reader_fails, (b"", b"tilint: read\n", 4)),
    End("lint: a writer that fails", to_full("stdout", "walk", document=example("first.json")), (b"", b"tilint: write\n", 4)),
    End("lint: standard error that takes nothing", to_full("stderr", "run", document=b""), (b"", b"", 2)),
    End("lint: another word", lambda program: call([program, "run"], input=b""), (b"", LINT_USAGE, 2)),
    End("lint: an argument that is no text", argument_no_text, (b"", LINT_USAGE, 2)),
    End("lint: a document that is too long", lambda program: call([program], input=b" " * 8_388_609), (TOO_LONG, b"", 2)),
    End("lint: little memory", little_memory, (b"", b"tilint: memory\n", 3)),
)
