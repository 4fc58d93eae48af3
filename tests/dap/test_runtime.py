"""At tests/jdb/many.c: a thousand threads, some that come and go, frames that may be popped, and no variables."""
import shutil
import tempfile
import unittest

import places
from case import Case


@unittest.skipUnless(shutil.which("cc"), "there is no cc")
class Many(Case):
    def setUp(self):
        room = tempfile.TemporaryDirectory()
        self.addCleanup(room.cleanup)
        many = places.many(room.name)
        self.host = many.__enter__()
        self.addCleanup(many.__exit__, None, None, None)
        self.client = self.client()
        self.addCleanup(self.client.ask, "disconnect")

    def test_threads_come_and_go(self):
        self.client.begin("attach", port=self.host.port)
        self.assertEqual(len(self.client.threads()), 1000)
        self.assertEqual(self.host.tell("come"), "done\n")
        thread = self.client.wait("thread", reason="started")["threadId"]
        self.assertEqual(self.client.threads()["late"], thread)
        self.assertEqual(self.host.tell("go"), "done\n")
        self.client.wait("thread", reason="exited", threadId=thread)
        self.assertNotIn("late", self.client.threads())

    def test_a_thread_that_starts_while_all_are_stopped(self):
        """It is stopped too, and goes on with all others."""
        self.client.begin("attach", port=self.host.port)
        first = self.client.threads()["many-0"]
        self.client.ask("pause", threadId=first)
        self.client.wait("stopped", reason="pause", threadId=first)
        self.assertEqual(self.host.tell("come"), "done\n")
        thread = self.client.wait("thread", reason="started")["threadId"]
        stop = self.client.wait("stopped", threadId=thread)
        self.assertEqual((stop["reason"], stop["preserveFocusHint"], stop["allThreadsStopped"]), ("pause", True, True))
        self.client.go(first)
        self.refuses("the thread runs", self.client.stack, thread)
        self.assertEqual(self.host.tell("go"), "done\n")
        self.client.wait("thread", reason="exited", threadId=thread)

    def test_restart_of_a_frame(self):
        """The newest frame is popped, so its caller is the newest."""
        self.client.begin("attach", port=self.host.port)
        self.assertEqual(self.client.wait("capabilities"), {"capabilities": {"supportsRestartFrame": True}})
        thread = self.client.threads()["many-0"]
        self.client.ask("pause", threadId=thread)
        self.client.wait("stopped", reason="pause")
        newest, oldest = self.client.stack(thread)["stackFrames"]
        self.assertEqual([(one["name"], one["line"]) for one in (newest, oldest)], [("rest", 21), ("work", 11)])
        self.assertEqual(self.client.scope(newest["id"]), {})
        self.client.ask("restartFrame", frameId=newest["id"])
        self.client.wait("stopped", reason="restart", threadId=thread)
        stack = self.client.stack(thread)
        self.assertEqual((stack["totalFrames"], stack["stackFrames"][0]["name"]), (1, "work"))
        self.refuses("there is no frame below", self.client.ask, "restartFrame", frameId=stack["stackFrames"][0]["id"])

    def test_a_class_that_comes_later(self):
        self.client.begin("attach", functions=[{"name": "unused"}], port=self.host.port)
        self.assertEqual(self.host.tell("define"), "done\n")
        self.assertEqual(self.client.wait("loadedSource")["source"]["name"], "late.txt")
        self.assertTrue(self.client.wait("breakpoint", reason="changed")["breakpoint"]["verified"])
        thread = self.client.threads()["many-0"]
        self.refuses("the thread runs", self.client.stack, thread)


class NoPops(Case):
    def test_restart_where_no_frames_are_popped(self):
        with self.attached("calls.lua") as client:
            client.ask("threads")
            self.assertEqual(client.events_of("capabilities"), [])
            self.refuses("its thread has gone on", client.ask, "restartFrame", frameId=1)
