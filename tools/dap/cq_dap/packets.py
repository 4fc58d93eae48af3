"""Packets of the Java Debug Wire Protocol: what they are made of, and a connection that sends requests and reads replies and events."""
from __future__ import annotations

import queue
import socket
import struct
import threading
from collections.abc import Callable, Iterable
from dataclasses import dataclass

HANDSHAKE = b"JDWP-Handshake"
REFUSED = "the runtime refuses the connection: another debugger may be attached"
CONNECT_SECONDS, REPLY_SECONDS = 10, 30
MAX_LENGTH = 64 << 20  # bytes of a packet
STEP, BREAKPOINT, THREAD_START, THREAD_DEATH, CLASS_PREPARE, VM_START, VM_DEATH = 1, 2, 6, 7, 8, 90, 99
ERRORS = {10: "there is no such thread", 13: "the thread has not stopped: it may be in native code", 20: "the value is gone",
          23: "the method is not known", 30: "the frame is gone", 31: "there is no frame below", 35: "the variable has no value here",
          99: "the runtime does not support it", 101: "the runtime does not tell it",
          110: "the runtime is out of memory, or has too many event requests"}


class Gone(Exception):
    """The connection is closed, or does not work."""


class JdwpError(Exception):
    """A reply that has an error's number."""

    def __init__(self, code: int):
        super().__init__(ERRORS.get(code, f"JDWP error {code}"))
        self.code = code


@dataclass
class Event:
    """An event. `request` is the number of the event request that it meets."""
    kind: int
    request: int
    thread: int = 0
    class_: int = 0
    signature: str = ""


@dataclass
class EventSet:
    """Events that came in one packet, and which threads are suspended for them."""
    policy: int
    events: list[Event]


class Data:
    """The data of a packet, read from its beginning on."""

    def __init__(self, data: bytes):
        self.data, self.at = data, 0

    def take(self, count: int) -> bytes:
        self.at += count
        if self.at > len(self.data):
            raise Gone("a packet is too short")
        return self.data[self.at - count:self.at]

    def number(self, size: int) -> int:
        return int.from_bytes(self.take(size), "big")

    def text(self) -> str:
        return self.take(self.number(4)).decode(errors="replace")

    def count(self) -> range:
        return range(self.number(4))


def ids(*numbers: int) -> bytes:
    """Numbers of objects, as they are written."""
    return b"".join(struct.pack(">Q", number) for number in numbers)


def read_events(data: Data) -> EventSet:
    """The events of a composite packet."""
    policy, events = data.number(1), []
    for _ in data.count():
        event = Event(data.number(1), data.number(4))
        if event.kind != VM_DEATH:
            event.thread = data.number(8)
        if event.kind in (STEP, BREAKPOINT):
            data.take(25)
        elif event.kind == CLASS_PREPARE:
            data.take(1)
            event.class_, event.signature = data.number(8), data.text()
            data.take(4)
        events.append(event)
    return EventSet(policy, events)


class Connection:
    """A connection to a runtime. A thread of its own reads it, and calls `on_event` for each set of events, and at the end `on_close`."""

    def __init__(self, host: str, port: int, on_event: Callable[[Connection, EventSet], None], on_close: Callable[[Connection], None]):
        self.on_event, self.on_close = on_event, on_close
        self.last, self.waiting, self.gone = 0, {}, False
        self.lock = threading.Lock()
        self.socket = socket.create_connection((host, port), timeout=CONNECT_SECONDS)
        self.stream = self.socket.makefile("rb")
        try:
            self.socket.setsockopt(socket.IPPROTO_TCP, socket.TCP_NODELAY, 1)
            self.socket.sendall(HANDSHAKE)
            if self.stream.read(len(HANDSHAKE)) != HANDSHAKE:
                raise Gone(REFUSED)
            self.socket.settimeout(None)
        except ConnectionError as error:
            self.shut()
            raise Gone(REFUSED) from error
        except (OSError, Gone):
            self.shut()
            raise
        threading.Thread(target=self._read, daemon=True).start()

    def _read(self) -> None:
        try:
            while len(head := self.stream.read(11)) == 11:
                length, number, flags, code = struct.unpack(">IIBH", head)
                if not 11 <= length <= MAX_LENGTH:
                    break
                data = self.stream.read(length - 11)
                if not flags & 0x80:
                    self.on_event(self, read_events(Data(data)))
                elif (reply := self.waiting.pop(number, None)) is not None:
                    reply.put((code, data))
        except (OSError, ValueError, Gone):
            pass
        with self.lock:
            self.gone = True
            waiting, self.waiting = self.waiting, {}
        for reply in waiting.values():
            reply.put(None)
        self.on_close(self)

    def _send(self, command_set: int, command: int, data: bytes) -> queue.SimpleQueue:
        reply: queue.SimpleQueue = queue.SimpleQueue()
        with self.lock:
            if self.gone:
                raise Gone("the connection is closed")
            self.last += 1
            number = self.last
            self.waiting[number] = reply
        try:
            self.socket.sendall(struct.pack(">IIBBB", 11 + len(data), number, 0, command_set, command) + data)
        except OSError as error:
            raise Gone(str(error)) from error
        return reply

    def ask_all(self, requests: Iterable[tuple[int, int, bytes]]) -> list[Data | JdwpError]:
        """The replies to requests that are all sent at once."""
        found: list[Data | JdwpError] = []
        for waits in [self._send(*request) for request in requests]:
            try:
                reply = waits.get(timeout=REPLY_SECONDS)
            except queue.Empty:
                raise Gone(f"the runtime has not answered for {REPLY_SECONDS} seconds") from None
            if reply is None:
                raise Gone("the connection was closed")
            found.append(JdwpError(reply[0]) if reply[0] else Data(reply[1]))
        return found

    def ask(self, command_set: int, command: int, data: bytes = b"") -> Data:
        """The reply to a request. It raises the error that a reply has."""
        reply, = self.ask_all([(command_set, command, data)])
        if isinstance(reply, JdwpError):
            raise reply
        return reply

    def shut(self) -> None:
        """Closes the socket, and ends the thread that reads it."""
        try:
            self.socket.shutdown(socket.SHUT_RDWR)
        except OSError:
            pass
        self.socket.close()
