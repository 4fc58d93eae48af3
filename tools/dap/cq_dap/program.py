"""A program that the adapter starts, and what it writes."""
from __future__ import annotations

import codecs
import re
import subprocess
import threading
from collections.abc import Callable
from typing import BinaryIO

WHERE = re.compile(r"a debugger may attach at (?:127\.0\.0\.1|\[::1\]|localhost):(\d+)\n")
DEBUGGED = ["--debug", "127.0.0.1:0", "--suspend"]  # options of cqlua
START_SECONDS, END_SECONDS = 10, 2


class Program:
    """A program that runs. Threads of its own read what it writes, and wait for its end."""

    def __init__(self, words: list[str], directory: str | None, environment: dict[str, str],
                 on_output: Callable[[str, str], None], on_exit: Callable[[int], None]):
        self.on_output = on_output
        self.said, self.port, self.found = "", 0, threading.Event()
        # SIGPIPE stays ignored, as Python has it: the program may outlive the adapter, which reads what it writes
        self.process = subprocess.Popen(words, cwd=directory, env=environment, stdin=subprocess.DEVNULL, stdout=subprocess.PIPE,
                                        stderr=subprocess.PIPE, restore_signals=False)
        readers = [threading.Thread(target=self._read, args=where, daemon=True)
                   for where in (("stdout", self.process.stdout), ("stderr", self.process.stderr))]
        for reader in readers:
            reader.start()
        threading.Thread(target=self._wait, args=(readers, on_exit), daemon=True).start()

    def _read(self, category: str, stream: BinaryIO) -> None:
        decoder = codecs.getincrementaldecoder("utf-8")("replace")
        data = b"begins"
        while data:
            data = stream.read1(65536)
            if text := decoder.decode(data, final=not data):
                self.on_output(category, text)
            if category == "stderr" and not self.port:
                self._look(text)

    def _look(self, text: str) -> None:
        self.said += text
        if match := WHERE.search(self.said):
            self.port = int(match[1])
            self.found.set()

    def _wait(self, readers: list[threading.Thread], on_exit: Callable[[int], None]) -> None:
        status = self.process.wait()
        for reader in readers:
            reader.join(1)  # a child of the program's may have the pipes still
        self.found.set()
        on_exit(status)

    def wait_for_port(self) -> int:
        """The port at which a debugger may attach, or 0 if the program tells none."""
        self.found.wait(START_SECONDS)
        return self.port

    def end(self) -> None:
        """Ends the program, by force if it does not end by itself."""
        self.process.terminate()
        try:
            self.process.wait(END_SECONDS)
        except subprocess.TimeoutExpired:
            self.process.kill()
            self.process.wait()
