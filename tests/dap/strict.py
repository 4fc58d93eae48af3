"""A strict client: it checks each message that it reads or sends against DAP's schema, and that the order is right."""
import json
import queue
import subprocess
import sys
import threading
import time

import places
import schema
from schema import Wrong

PATIENCE = 60  # seconds


class Refused(Exception):
    """A response that tells of an error."""


def write(stream, message):
    text = json.dumps(message).encode()
    stream.write(b"Content-Length: %d\r\n\r\n" % len(text) + text)
    stream.flush()


def read(stream):
    """The next message, or None at the end. Its header is the one field that the protocol has."""
    line = stream.readline()
    if not line:
        return None
    name, _, length = line.decode("ascii").partition(": ")
    if name != "Content-Length" or not line.endswith(b"\r\n") or stream.readline() != b"\r\n":
        raise Wrong(f"a header: {line}")
    return json.loads(stream.read(int(length)))


class Client:
    """A client of an adapter that it starts. `events` are those that nobody waited for yet."""

    def __init__(self):
        self.sent = self.received = 0
        self.asked, self.events = {}, []
        self.has_begun = False
        self.process = subprocess.Popen([sys.executable, places.ADAPTER], stdin=subprocess.PIPE, stdout=subprocess.PIPE)
        self.queue = queue.Queue()
        threading.Thread(target=self._read, daemon=True).start()

    def _read(self):
        try:
            while (message := read(self.process.stdout)) is not None:
                self.queue.put(message)
        except Exception as error:
            self.queue.put(error)
        self.queue.put(EOFError("the adapter has gone"))

    def take(self, seconds=PATIENCE):
        """Reads a message, which has to be right."""
        try:
            message = self.queue.get(timeout=seconds)
        except queue.Empty:
            raise TimeoutError(f"nothing comes; events: {self.events}, asked: {self.asked}") from None
        if isinstance(message, Exception):
            raise message
        schema.check_message(message)
        self.received += 1
        if message["seq"] != self.received:
            raise Wrong(f"seq {message['seq']} in place of {self.received}")
        if message["type"] == "event":
            self._note(message)
        elif self.asked.pop(message["request_seq"], None) != message["command"]:
            raise Wrong(f"a response to nothing: {message}")
        return message

    def _note(self, event):
        if event["event"] == "initialized" and not self.has_begun:
            raise Wrong("initialized comes before attach or launch")
        self.events.append(event)

    def send(self, command, arguments=None):
        """Sends a request, and gives its number."""
        self.sent += 1
        self.asked[self.sent] = command
        self.has_begun |= command in ("attach", "launch")
        message = {"seq": self.sent, "type": "request", "command": command}
        write(self.process.stdin, message if arguments is None else {**message, "arguments": arguments})
        return self.sent

    def reply(self, number):
        while True:
            message = self.take()
            if message["type"] == "response" and message["request_seq"] == number:
                if not message["success"]:
                    raise Refused(message["message"])
                return message.get("body")

    def ask(self, command, **arguments):
        """Sends a request that is right, and gives the body of its response."""
        schema.check_message({"seq": 1, "type": "request", "command": command, "arguments": arguments})
        return self.reply(self.send(command, arguments))

    def ask_oddly(self, command, arguments):
        """Sends a request that need not be right."""
        return self.reply(self.send(command, arguments))

    def wait(self, name, seconds=PATIENCE, **body):
        """The body of the next event of this name that has this in its body. It is taken out of those that came."""
        end = time.monotonic() + seconds
        while True:
            for event in self.events:
                if event["event"] == name and all(event.get("body", {}).get(key) == value for key, value in body.items()):
                    self.events.remove(event)
                    return event.get("body", {})
            self.take(max(0.01, end - time.monotonic()))

    def initialize(self, **more):
        return self.ask("initialize", **{"adapterID": "cebdyraq", "clientID": "strict", "linesStartAt1": True, "pathFormat": "path", **more})

    def begin(self, how, breakpoints=(), functions=(), **arguments):
        """Begins as all clients do. Gives what the adapter says of breakpoints, which are pairs of a path and a list."""
        self.initialize()
        started = self.send(how, arguments)
        while not self.events_of("initialized"):
            if self.take().get("success") is False:
                raise Refused(f"{how} failed")
        found = [one for path, wishes in breakpoints for one in self.set_lines(path, *wishes)]
        if functions:
            found += self.ask("setFunctionBreakpoints", breakpoints=list(functions))["breakpoints"]
        self.ask("setExceptionBreakpoints", filters=[])
        self.ask("configurationDone")
        if started in self.asked:
            self.reply(started)
        return found

    def events_of(self, name):
        return [event.get("body", {}) for event in self.events if event["event"] == name]

    def set_lines(self, path, *wishes):
        """Sets the breakpoints of a file. A wish is a line, or a line with more."""
        wishes = [{"line": wish} if isinstance(wish, int) else wish for wish in wishes]
        return self.ask("setBreakpoints", source={"path": str(path)}, breakpoints=wishes)["breakpoints"]

    def threads(self):
        """The numbers of threads, by their names."""
        return {one["name"]: one["id"] for one in self.ask("threads")["threads"]}

    def stack(self, thread, **more):
        """A stack. A thread that gets no processor for a second has not stopped yet, and may do so later."""
        end = time.monotonic() + PATIENCE
        while True:
            try:
                return self.ask("stackTrace", threadId=thread, **more)
            except Refused as refused:
                if "has not stopped" not in str(refused) or time.monotonic() > end:
                    raise
                time.sleep(0.1)

    def frame(self, thread):
        """The newest frame."""
        return self.stack(thread, levels=1)["stackFrames"][0]

    def where(self, thread):
        frame = self.frame(thread)
        return frame["name"], frame["line"]

    def variables(self, reference, **more):
        return {one["name"]: one for one in self.ask("variables", variablesReference=reference, **more)["variables"]}

    def scope(self, frame, name="Locals"):
        """The variables of a scope."""
        scopes = {one["name"]: one for one in self.ask("scopes", frameId=frame)["scopes"]}
        return self.variables(scopes[name]["variablesReference"])

    def locals(self, thread):
        """The texts of the newest frame's variables."""
        return {name: one["value"] for name, one in self.scope(self.frame(thread)["id"]).items()}

    def evaluate(self, thread, text):
        return self.ask("evaluate", expression=text, frameId=self.frame(thread)["id"], context="hover")["result"]

    def go(self, thread, **more):
        return self.ask("continue", threadId=thread, **more)["allThreadsContinued"]

    def end(self):
        """Closes the adapter's input, and gives its status."""
        self.process.stdin.close()
        status = self.process.wait(PATIENCE)
        self.process.stdout.close()
        return status
