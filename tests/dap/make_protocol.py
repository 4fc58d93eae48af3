#!/usr/bin/env python3
"""Writes protocol.json again: the bodies and arguments of DAP's messages, as far as the adapter has them, by Debian's python3-pydevd.

    tests/dap/make_protocol.py > tests/dap/protocol.json

That package has DAP's own schema, debugAdapterProtocol.json of https://github.com/microsoft/debug-adapter-protocol (Microsoft Corporation,
MIT License), as Python classes. Names, types, enumerations and what is required are taken over, and no text.
"""

import inspect
import json
import sys
import warnings

PACKAGES = "/usr/lib/python3/dist-packages"
EVENTS = ("breakpoint", "capabilities", "continued", "exited", "initialized", "loadedSource", "output", "process", "stopped", "terminated", "thread")
COMMANDS = ("attach", "breakpointLocations", "configurationDone", "continue", "disconnect", "evaluate", "initialize", "launch", "loadedSources",
            "next", "pause", "restartFrame", "scopes", "setBreakpoints", "setExceptionBreakpoints", "setFunctionBreakpoints", "source",
            "stackTrace", "stepIn", "stepOut", "terminate", "threads", "variables")
OWN_ARGUMENTS = ("attach", "launch")  # which each adapter says for itself


def load():
    """The module that has the messages. It raises ImportError where the package is missing."""
    sys.path.append(PACKAGES)
    with warnings.catch_warnings():
        warnings.simplefilter("ignore")
        from _pydevd_bundle._debug_adapter import pydevd_base_schema, pydevd_schema
    assert pydevd_schema
    return pydevd_base_schema


class Maker:
    def __init__(self, base):
        self.base, self.definitions = base, {}

    def spec(self, of):
        """What is said of a value, without texts."""
        kind = of.get("$ref", "").rsplit("/", 1)[-1] or of.get("type")
        if isinstance(kind, str) and kind in self.base._all_messages:
            return {"$ref": self.define(kind)}
        found = {name: of[name] for name in ("type", "enum", "required") if name in of}
        if "items" in of:
            found["items"] = self.spec(of["items"])
        if "properties" in of:
            found["properties"] = {name: self.spec(one) for name, one in of["properties"].items()}
        return found

    def define(self, name):
        if name not in self.definitions:
            self.definitions[name] = {}
            of = self.base._all_messages[name]
            if values := getattr(of, "VALID_VALUES", None):
                self.definitions[name] = {"type": "string", "enum": sorted(values)}
            else:
                parameters = inspect.signature(of.__init__).parameters
                required = sorted(one for one in of.__props__ if one in parameters and parameters[one].default is inspect.Parameter.empty)
                self.definitions[name] = self.spec({"type": "object", "required": required, "properties": of.__props__})
        return name

    def part(self, message, name):
        """What is said of the body or the arguments of a message, or None if there are none."""
        return self.spec(message.__props__[name]) if name in message.__props__ else None

    def make(self):
        parts = {
            "events": {name: self.part(self.base._event_to_types[name], "body") for name in EVENTS},
            "arguments": {name: self.part(self.base._requests_to_types[name], "arguments") for name in COMMANDS if name not in OWN_ARGUMENTS},
            "responses": {name: self.part(self.base._responses_to_types[name], "body") for name in COMMANDS},
            "error": self.spec(self.base._all_messages["ErrorResponse"].__props__["body"]),
        }
        return {**parts, "definitions": dict(sorted(self.definitions.items()))}


def text_of(made):
    """JSON, a line for each message and definition."""
    def lines(of):
        return "{\n" + ",\n".join(f"  {json.dumps(name)}: {json.dumps(one)}" for name, one in of.items()) + "\n }"
    return "{\n" + ",\n".join(f" {json.dumps(name)}: {json.dumps(of) if name == 'error' else lines(of)}" for name, of in made.items()) + "\n}\n"


if __name__ == "__main__":
    print(text_of(Maker(load()).make()), end="")
