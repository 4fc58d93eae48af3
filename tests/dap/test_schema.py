"""protocol.json is what python3-pydevd has of DAP, and the check by it finds what is wrong."""
import unittest

import make_protocol
import schema

STOPPED = {"seq": 1, "type": "event", "event": "stopped", "body": {"reason": "step", "threadId": 1}}
THREADS = {"seq": 1, "type": "response", "request_seq": 1, "success": True, "command": "threads", "body": {"threads": [{"id": 1, "name": "a"}]}}
WRONG = (
    {**STOPPED, "seq": "1"}, {**STOPPED, "type": "events"}, {**STOPPED, "event": "halted"}, {**STOPPED, "more": 1},
    {**STOPPED, "body": {"threadId": 1}}, {**STOPPED, "body": {"reason": "step", "threadId": "1"}},
    {**STOPPED, "body": {"reason": "step", "threadId": True}}, {**STOPPED, "body": {"reason": "step", "thread": 1}},
    {"seq": 1, "type": "event", "event": "stopped"},
    {**THREADS, "body": {"threads": [{"id": 1}]}}, {**THREADS, "body": {"threads": {}}}, {**THREADS, "success": 1}, {**THREADS, "message": "x"},
    {"seq": 1, "type": "event", "event": "loadedSource", "body": {"reason": "old", "source": {}}},
    {"seq": 1, "type": "request", "command": "next", "arguments": {}}, {"seq": 1, "type": "request", "command": "jump", "arguments": {}},
)


class Schema(unittest.TestCase):
    def test_right_messages(self):
        for message in STOPPED, THREADS:
            self.assertIsNone(schema.check_message(message))

    def test_wrong_messages(self):
        for message in WRONG:
            with self.subTest(message=message), self.assertRaises(schema.Wrong):
                schema.check_message(message)

    def test_is_as_the_package_has_it(self):
        try:
            base = make_protocol.load()
        except ImportError:
            self.skipTest("there is no python3-pydevd")
        self.assertEqual(make_protocol.Maker(base).make(), schema.PROTOCOL)
