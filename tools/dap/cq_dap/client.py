"""The client, as far as messages to it go."""
from __future__ import annotations

import json
from typing import Any, BinaryIO, TextIO

from .framing import Message, write_message


class Client:
    """Writes responses and events, each with its number, and notes messages in a log."""

    def __init__(self, sink: BinaryIO, log: TextIO | None):
        self.sink, self.log, self.last = sink, log, 0

    def note(self, mark: str, message: Message) -> None:
        if self.log:
            print(mark, json.dumps(message), file=self.log, flush=True)

    def _send(self, kind: str, fields: Message) -> None:
        self.last += 1
        message = {"seq": self.last, "type": kind, **fields}
        self.note("<-", message)
        write_message(self.sink, message)

    def event(self, name: str, /, **body: Any) -> None:
        self._send("event", {"event": name, "body": body})

    def output(self, category: str, text: str, **more: Any) -> None:
        self.event("output", category=category, output=text, **more)

    def respond(self, request: Message, body: Message | None) -> None:
        self._send("response", {"success": True, **_of(request), **({} if body is None else {"body": body})})

    def refuse(self, request: Message, why: str) -> None:
        error = {"id": 1, "format": "{why}", "variables": {"why": why}, "showUser": True}
        self._send("response", {"success": False, **_of(request), "message": why, "body": {"error": error}})


def _of(request: Message) -> Message:
    return {"request_seq": request.get("seq", 0), "command": request.get("command", "")}
