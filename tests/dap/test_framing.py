"""What no client sends: the adapter ends, or refuses the request. It never hangs, and writes nothing beside messages."""
import io
import json
import pathlib
import subprocess
import sys
import tempfile
import unittest

import places
import strict


def adapter(data):
    """The status, the messages and the errors of an adapter that reads this."""
    done = subprocess.run([sys.executable, places.ADAPTER], input=data, capture_output=True, timeout=60)
    stream, found = io.BytesIO(done.stdout), []
    while (message := strict.read(stream)) is not None:
        found.append(message)
    return done.returncode, found, done.stderr


def message(**fields):
    text = json.dumps(fields).encode()
    return b"Content-Length: %d\r\n\r\n" % len(text) + text


def request(command, arguments=None):
    return message(seq=1, type="request", command=command, arguments=arguments)


THREADS = message(seq=2, type="request", command="threads")
BROKEN = {
    "nothing": b"", "no end of a line": b"\xff" * 100000, "another protocol": b"GET / HTTP/1.1\r\n\r\n", "no number": b"Content-Length: x\r\n\r\n",
    "too long": b"Content-Length: 99999999999\r\n\r\n{}", "negative": b"Content-Length: -1\r\n\r\n{}", "cut off": b"Content-Length: 10\r\n\r\n{}",
    "a list": b"Content-Length: 2\r\n\r\n[]", "no JSON": b"Content-Length: 3\r\n\r\n{x}", "no UTF-8": b"Content-Length: 4\r\n\r\n\"\xff\xff\"",
    "too deep": b"Content-Length: 200000\r\n\r\n" + b"[" * 200000,
}
ODD = {
    "no command": message(seq=1, type="request"), "a command that is a list": request(["x"]), "an unknown command": request("run"),
    "a private name": request("__init__"), "arguments that are a list": request("attach", []), "a number": request("disconnect", 7),
    "no source": request("setBreakpoints", {"breakpoints": []}), "a source that is a number": request("setBreakpoints", {"source": 1}),
    "a port that is none": request("attach", {"port": "x"}), "a port that is too great": request("attach", {"port": 99999999}),
    "a port that is true": request("attach", {"port": True}), "no port": request("attach", {}), "no program": request("launch", {"program": {}}),
    "programs of another kind": request("launch", {"program": [1]}), "an odd environment": request("launch", {"program": "x", "env": {"A": 1}}),
    "mappings of another kind": request("attach", {"port": 1, "pathMappings": [1]}),
    "stopAll of another kind": request("attach", {"port": 1, "stopAll": 1}),
    "a deep expression": request("evaluate", {"expression": "(" * 3000}), "an expression that is a number": request("evaluate", {"expression": 1}),
}


class Framing(unittest.TestCase):
    def test_what_is_no_message(self):
        for name, data in BROKEN.items():
            with self.subTest(name):
                self.assertEqual(adapter(data), (0, [], b""))

    def test_what_is_before_it_is_answered(self):
        status, found, error = adapter(THREADS + BROKEN["no JSON"])
        self.assertEqual((status, [one["command"] for one in found], error), (0, ["threads"], b""))

    def test_other_fields_of_a_header(self):
        text = b'{"seq": 1, "type": "request", "command": "threads"}'
        _, found, _ = adapter(b"Content-Type: x\r\ncontent-length:%d \r\n\r\n" % len(text) + text)
        self.assertEqual([one["body"] for one in found], [{"threads": []}])

    def test_odd_requests(self):
        for name, data in ODD.items():
            with self.subTest(name):
                status, found, error = adapter(data + THREADS)
                self.assertEqual([(one["type"], one["success"]) for one in found], [("response", False), ("response", True)])
                self.assertGreater(len(found[0]["message"]), 5)
                self.assertEqual((status, error), (0, b""))

    def test_log(self):
        """It has both sides' messages, and is added to."""
        with tempfile.TemporaryDirectory() as room:
            log = pathlib.Path(room, "log")
            log.write_text("before\n")
            subprocess.run([sys.executable, places.ADAPTER, "--log", log], input=THREADS, capture_output=True, timeout=60, check=True)
            lines = log.read_text().splitlines()
        self.assertEqual((lines[0], [line[:3] for line in lines[1:]]), ("before", ["-> ", "<- "]))
        self.assertEqual([json.loads(line[3:])["command"] for line in lines[1:]], ["threads", "threads"])

    def test_what_is_no_request(self):
        _, found, _ = adapter(message(seq=1, type="response", command="threads") + message() + THREADS)
        self.assertEqual([one["request_seq"] for one in found], [2])
