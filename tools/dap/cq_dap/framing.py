"""Messages of the Debug Adapter Protocol in a stream: fields of a header, an empty line, and JSON."""
from __future__ import annotations

import json
from typing import Any, BinaryIO

Message = dict[str, Any]
MAX_LENGTH = 16 << 20  # bytes


class BadMessage(Exception):
    """What came is not a message, and nothing behind it can be read."""


def read_message(stream: BinaryIO) -> Message | None:
    """The next message, or None at the end of the stream."""
    length = None
    while (line := stream.readline(4096)) not in (b"\r\n", b"\n"):
        if not line:
            return None
        name, _, value = line.decode("ascii", "replace").partition(":")
        if name.strip().lower() == "content-length":
            length = int(value) if value.strip().isdigit() else None
    if length is None or length > MAX_LENGTH:
        raise BadMessage("there is no Content-Length, or it is too great")
    text = stream.read(length)
    if len(text) < length:
        return None
    try:
        message = json.loads(text)
    except (ValueError, RecursionError) as error:
        raise BadMessage(str(error)) from error
    if not isinstance(message, dict):
        raise BadMessage("it is not an object")
    return message


def write_message(stream: BinaryIO, message: Message) -> None:
    """Writes a message, and flushes the stream."""
    text = json.dumps(message).encode()
    stream.write(b"Content-Length: %d\r\n\r\n" % len(text) + text)
    stream.flush()
