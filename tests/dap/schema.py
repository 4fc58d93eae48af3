"""Whether a message is one of DAP, and nothing more, by protocol.json (`make_protocol.py`). What the schema does not name is wrong."""
import json
import pathlib

PROTOCOL = json.loads(pathlib.Path(__file__).with_name("protocol.json").read_text())
TYPES = {"string": str, "integer": int, "boolean": bool, "number": (int, float), "array": list, "object": dict, "null": type(None)}
ENVELOPES = {"event": {"event": str}, "request": {"command": str}, "response": {"command": str, "request_seq": int, "success": bool}}


class Wrong(Exception):
    """A message that the protocol does not have."""


def is_of(value, kind):
    return isinstance(value, TYPES[kind]) and not (isinstance(value, bool) and kind in ("integer", "number"))


def check(value, spec, where):
    """Raises Wrong unless the value is as the schema says."""
    if "$ref" in spec:
        return check(value, PROTOCOL["definitions"][spec["$ref"]], where)
    kinds = spec["type"] if isinstance(spec["type"], list) else [spec["type"]]
    if not any(is_of(value, kind) for kind in kinds):
        raise Wrong(f"{where}: {value!r} is no {' or '.join(kinds)}")
    if value not in spec.get("enum", [value]):
        raise Wrong(f"{where}: {value!r} is none of {spec['enum']}")
    if isinstance(value, list) and "items" in spec:
        for at, one in enumerate(value):
            check(one, spec["items"], f"{where}[{at}]")
    if isinstance(value, dict) and "properties" in spec:
        check_object(value, spec, where)
    return None


def check_object(value, spec, where):
    for name in spec.get("required", []):
        if name not in value:
            raise Wrong(f"{where}: {name} is missing")
    for name, one in value.items():
        if name not in spec["properties"]:
            raise Wrong(f"{where}: {name} is unknown")
        check(one, spec["properties"][name], f"{where}.{name}")


def check_part(message, part, table, name):
    """The body or the arguments of a message. The table has None where there are none."""
    if name not in table:
        raise Wrong(f"{name} is unknown")
    if part in message and table[name] is None:
        raise Wrong(f"{name} has no {part}")
    needs = table[name] is not None and table[name].get("required")
    if part in message:
        check(message[part], table[name], name)
    elif needs:
        raise Wrong(f"{name}: {part} is missing")


def check_message(message):
    """Raises Wrong unless this is a message of the protocol."""
    kind = message.get("type")
    if kind not in ENVELOPES or not is_of(message.get("seq"), "integer"):
        raise Wrong(f"no type or no seq: {message}")
    part = "arguments" if kind == "request" else "body"
    for name, type_ in ENVELOPES[kind].items():
        if not isinstance(message.get(name), type_):
            raise Wrong(f"{name} is missing: {message}")
    more = set(message) - {"seq", "type", part, *ENVELOPES[kind]} - ({"message"} if kind == "response" and not message["success"] else set())
    if more:
        raise Wrong(f"{more} is unknown: {message}")
    if kind == "response" and not message["success"]:
        check(message["body"], PROTOCOL["error"], "error")
    elif kind != "request" or message["command"] not in ("attach", "launch"):
        table = {"event": "events", "request": "arguments", "response": "responses"}[kind]
        check_part(message, part, PROTOCOL[table], message["event" if kind == "event" else "command"])
