"""Steps, pauses, and one or all threads that go on."""
import time

from case import Case
from places import script

CALLS, TWINS = script("calls"), [script("twin"), script("twin2")]


class Steps(Case):
    def test_steps(self):
        """From the call in the loop: into add, over its first line, out to the next line of work, and over it."""
        with self.attached("calls.lua", breakpoints=[(CALLS, [11])]) as client:
            thread = client.wait("stopped", reason="breakpoint")["threadId"]
            client.set_lines(CALLS)
            for command, place in (("stepIn", ("add", 5)), ("next", ("add", 6)), ("stepOut", ("work", 10)), ("next", ("work", 11)),
                                   ("next", ("work", 10))):
                with self.subTest(command):
                    client.ask(command, threadId=thread)
                    stop = client.wait("stopped", reason="step")
                    self.assertEqual((stop["threadId"], stop["allThreadsStopped"], client.where(thread)), (thread, True, place))
            self.assertTrue(client.go(thread))
            for command in "next", "continue", "stackTrace":
                self.refuses("the thread runs", client.ask, command, threadId=thread)

    def test_a_breakpoint_ends_a_step(self):
        """A step over a call stops at the breakpoint within, and is over then."""
        with self.attached("calls.lua", breakpoints=[(CALLS, [11])]) as client:
            thread = client.wait("stopped")["threadId"]
            client.set_lines(CALLS, 6)
            client.ask("next", threadId=thread)
            client.wait("stopped", reason="breakpoint")
            self.assertEqual(client.where(thread), ("add", 6))
            client.set_lines(CALLS)
            client.go(thread)
            time.sleep(0.2)
            client.ask("threads")
            self.assertEqual(client.events_of("stopped"), [])

    def test_a_pause_ends_a_step(self):
        """A step over a second's sleep is paused after a fifth of it. It is not told later, when the sleep is over."""
        naps = script("naps")
        for stops_all in True, False:
            with self.subTest(stops_all=stops_all), self.attached("naps.lua", stopAll=stops_all, breakpoints=[(naps, [7])]) as client:
                thread = client.wait("stopped")["threadId"]
                client.set_lines(naps)
                client.ask("next", threadId=thread)
                time.sleep(0.2)
                client.ask("pause", threadId=thread)
                client.wait("stopped", reason="pause")
                client.go(thread)
                time.sleep(1.2)
                client.ask("threads")
                self.assertEqual(client.events_of("stopped"), [])

    def test_others_go_on_with_a_step(self):
        """The client is told so, since the request does not say it."""
        with self.attached("calls.lua", "waits.lua", breakpoints=[(CALLS, [18])]) as client:
            thread = client.wait("stopped")["threadId"]
            client.ask("next", threadId=thread)
            self.assertEqual(client.wait("continued"), {"threadId": thread, "allThreadsContinued": True})
            client.wait("stopped", reason="step")
            client.ask("next", threadId=thread, singleThread=True)
            client.wait("stopped", reason="step")
            self.assertEqual(client.events_of("continued"), [])


class All(Case):
    def test_pause_stops_all(self):
        with self.attached("calls.lua", "waits.lua", suspended=False) as client:
            threads = client.threads()
            for name in threads:
                client.ask("pause", threadId=threads[name])
                self.assertTrue(client.wait("stopped", reason="pause", threadId=threads[name])["allThreadsStopped"])
                for thread in threads.values():
                    self.assertEqual(client.stack(thread)["stackFrames"][-1]["name"], "main")
                self.assertTrue(client.go(threads["calls.lua"]))
            self.refuses("no such thread", client.ask, "pause", threadId=99)

    def test_one_goes_on_alone(self):
        """It meets its breakpoint again, while the other one stays where it is."""
        with self.attached("twin.lua", "twin2.lua", breakpoints=[(TWINS[0], [2])]) as client:
            threads = client.threads()
            one, other = threads["twin.lua"], threads["twin2.lua"]
            client.wait("stopped", threadId=one)
            for _ in range(3):
                before = client.frame(other)
                self.assertFalse(client.go(one, singleThread=True))
                client.wait("stopped", reason="breakpoint", threadId=one)
                self.assertEqual({**client.frame(other), "id": 0}, {**before, "id": 0})

    def test_two_that_meet_breakpoints_again_and_again(self):
        """All stand after each stop, and all go on, however near the stops are."""
        with self.attached("twin.lua", "twin2.lua", suspended=False, breakpoints=[(path, [2]) for path in TWINS]) as client:
            threads = client.threads().values()
            stopped = set()
            for _ in range(50):
                stopped.add(client.wait("stopped")["threadId"])
                for thread in threads:
                    self.assertGreater(client.stack(thread)["totalFrames"], 0)
                self.assertTrue(client.go(min(threads)))
                client.events.clear()  # a second stop that came before all went on
            self.assertEqual(stopped, set(threads))

    def test_conditions_leave_others_alone(self):
        """A thread whose condition is never met, and one that is paused again and again."""
        wish = {"line": 2, "condition": "round == 2"}
        with self.attached("twin.lua", "waits.lua", suspended=False, breakpoints=[(TWINS[0], [wish])]) as client:
            waits = client.threads()["waits.lua"]
            for _ in range(20):
                client.ask("pause", threadId=waits)
                client.wait("stopped", reason="pause", threadId=waits)
                for thread in client.threads().values():
                    self.assertGreater(client.stack(thread)["totalFrames"], 0)
                client.go(waits)

    def test_one_in_native_code(self):
        """A thread that does not poll counts as stopped, and what it has is not told."""
        with self.attached("native.lua", "calls.lua", suspended=False) as client:
            threads = client.threads()
            time.sleep(0.3)
            client.ask("pause", threadId=threads["calls.lua"])
            client.wait("stopped", reason="pause")
            self.assertGreater(client.stack(threads["calls.lua"])["totalFrames"], 0)
            self.refuses("may be in native code", client.ask, "stackTrace", threadId=threads["native.lua"])
            client.ask("next", threadId=threads["calls.lua"])
            client.wait("stopped", reason="step")


class NonStop(Case):
    def test_each_for_itself(self):
        with self.attached("calls.lua", "waits.lua", suspended=False, stopAll=False) as client:
            threads = client.threads()
            calls, waits = threads["calls.lua"], threads["waits.lua"]
            client.ask("pause", threadId=calls)
            self.assertFalse(client.wait("stopped", reason="pause", threadId=calls)["allThreadsStopped"])
            self.refuses("the thread runs", client.stack, waits)
            client.set_lines(script("waits"), 8)
            self.assertFalse(client.wait("stopped", reason="breakpoint", threadId=waits)["allThreadsStopped"])
            self.assertFalse(client.go(calls))
            self.refuses("the thread runs", client.stack, calls)
            self.assertEqual(client.where(waits), ("main", 8))
            client.ask("next", threadId=waits)
            client.wait("stopped", reason="step", threadId=waits)
            self.assertEqual(client.where(waits), ("main", 7))
            client.go(waits)
            client.wait("stopped", reason="breakpoint", threadId=waits)

    def test_both_stop(self):
        with self.attached("twin.lua", "twin2.lua", stopAll=False, breakpoints=[(path, [2]) for path in TWINS]) as client:
            threads = client.threads().values()
            for _ in range(20):
                for thread in threads:
                    client.wait("stopped", reason="breakpoint", threadId=thread)
                    self.assertEqual(client.where(thread), ("main", 2))
                for thread in threads:
                    client.go(thread)
