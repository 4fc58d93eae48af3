"""Arguments of requests, each of the type that it has to have."""
from __future__ import annotations

from typing import Any

from .framing import Message

KINDS = {int: "an integer", str: "a string", bool: "true or false", dict: "an object"}


class Refused(Exception):
    """A request that cannot be met, and why."""


def take(args: Message, name: str, kind: type, otherwise: Any = None) -> Any:
    """An argument of this type. If there is none it is `otherwise`, unless that is None."""
    value = args.get(name)
    if value is None:
        if otherwise is None:
            raise Refused(f"{name} is missing")
        return otherwise
    if not isinstance(value, kind) or kind is int and isinstance(value, bool):
        raise Refused(f"{name} has to be {KINDS[kind]}")
    return value


def take_list(args: Message, name: str, kind: type) -> list:
    """A list of such values, empty if there is none. One value is a list of one."""
    found = args.get(name) or []
    found = [found] if isinstance(found, kind) else found
    if not isinstance(found, list) or not all(isinstance(one, kind) for one in found):
        raise Refused(f"{name} has to be a list, each item {KINDS[kind]}")
    return found


def take_port(args: Message) -> int:
    """A port, as a number or as its digits."""
    value = args.get("port")
    number = int(value) if isinstance(value, str) and value.isascii() and value.isdigit() and len(value) < 6 else take(args, "port", int)
    if not 0 < number < 65536:
        raise Refused("port has to be a number from 1 to 65535")
    return number
