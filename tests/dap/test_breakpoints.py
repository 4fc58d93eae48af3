"""Breakpoints on lines and functions, with conditions, hit counts and messages, in files that are there or come later."""
import pathlib
import tempfile
import time

import places
from case import Case
from places import script

CALLS, LATE = script("calls"), script("my-dir/n-body2")


class Lines(Case):
    def test_a_line_without_code_leads_to_the_next_one(self):
        with self.attached("calls.lua", breakpoints=[(CALLS, [8, 12, 99])]) as client:
            self.assertEqual([(one["verified"], one["line"]) for one in self.found], [(True, 10), (True, 13), (False, 99)])
            client.set_lines(CALLS, 12)
            thread = client.wait("stopped")["threadId"]
            self.assertEqual(client.where(thread)[0], "work")

    def test_lines_that_have_code(self):
        with self.attached("calls.lua") as client:
            told = client.ask("breakpointLocations", source={"path": CALLS}, line=4, endLine=14)["breakpoints"]
            self.assertEqual([one["line"] for one in told], [5, 6, 7, 10, 11, 13, 14])
            told = client.ask("breakpointLocations", source={"path": CALLS}, line=8)["breakpoints"]
            self.assertEqual(told, [])

    def test_lines_from_0(self):
        client = self.client()
        with places.running("calls.lua") as host:
            client.initialize(linesStartAt1=False)
            client.ask_oddly("attach", {"port": host.port})
            self.assertEqual([one["line"] for one in client.set_lines(CALLS, 10)], [10])  # line 11, counted from 1
            client.ask("configurationDone")
            thread = client.wait("stopped")["threadId"]
            self.assertEqual(client.where(thread), ("work", 10))
            client.ask("disconnect")

    def test_one_that_stays_keeps_its_number(self):
        with self.attached("calls.lua", breakpoints=[(CALLS, [5, 6])]) as client:
            five, six = (one["id"] for one in self.found)
            again = [one["id"] for one in client.set_lines(CALLS, 13, 6)]
            self.assertEqual(again[1], six)
            self.assertNotIn(again[0], (five, six))
            client.set_lines(CALLS, 6)
            stop = client.wait("stopped")
            if stop["hitBreakpointIds"] == [five]:  # before it was taken out
                client.go(stop["threadId"])
                stop = client.wait("stopped")
            for _ in range(2):
                self.assertEqual((stop["hitBreakpointIds"], client.where(stop["threadId"])), ([six], ("add", 6)))
                client.go(stop["threadId"])
                stop = client.wait("stopped")

    def test_none_are_left(self):
        """After the last one is taken out, the thread runs on, and a pause finds it."""
        with self.attached("calls.lua", breakpoints=[(CALLS, [5])]) as client:
            thread = client.wait("stopped")["threadId"]
            client.set_lines(CALLS)
            client.go(thread)
            time.sleep(0.2)
            client.ask("threads")
            self.assertEqual(client.events_of("stopped"), [])
            client.ask("pause", threadId=thread)
            client.wait("stopped", reason="pause")

    def test_exceptions_are_not_told(self):
        with self.attached("calls.lua") as client:
            self.refuses("does not tell of exceptions", client.ask, "setExceptionBreakpoints", filters=["uncaught"])


class Functions(Case):
    def hits(self, client):
        stop = client.wait("stopped", reason="function breakpoint")
        client.go(stop["threadId"])
        return stop["hitBreakpointIds"]

    def test_names(self):
        """A name may have that of its class before it."""
        for name in "add", "calls.add", "calls:add":
            with self.subTest(name), self.attached("calls.lua", functions=[{"name": name}]) as client:
                self.assertEqual([one["verified"] for one in self.found], [True])
                thread = client.wait("stopped", reason="function breakpoint")["threadId"]
                self.assertEqual(client.where(thread), ("add", 5))

    def test_names_that_no_function_has(self):
        with self.attached("calls.lua", functions=[{"name": "subtract"}, {"name": "other.add"}]) as client:
            self.assertEqual([(one["verified"], one["message"]) for one in self.found], [(False, "No such function is loaded yet.")] * 2)

    def test_condition_and_hits(self):
        """`by` is 1, 2 and 3 in turn, so its second 3 is the sixth call."""
        with self.attached("calls.lua", functions=[{"name": "add", "condition": "by == 3", "hitCondition": "2"}]) as client:
            thread = client.wait("stopped")["threadId"]
            self.assertEqual(client.locals(thread)["n"], "2")


class Late(Case):
    def test_a_file_that_comes_later(self):
        with self.attached("late.lua", "calls.lua", breakpoints=[(LATE, [3])], functions=[{"name": "answer"}]) as client:
            self.assertEqual([one["verified"] for one in self.found], [False, False])
            self.assertEqual(self.found[0]["message"], "The file is not loaded yet.")
            self.assertEqual(client.wait("loadedSource")["source"]["path"], LATE)
            came = [client.wait("breakpoint", reason="changed")["breakpoint"] for _ in range(2)]
            self.assertEqual({one["id"]: one["verified"] for one in came}, {one["id"]: True for one in self.found})
            stop = client.wait("stopped")
            self.assertEqual(sorted(stop["hitBreakpointIds"]), sorted(one["id"] for one in self.found))
            frame = client.frame(stop["threadId"])
            self.assertEqual((frame["source"]["path"], frame["name"], frame["line"]), (LATE, "answer", 3))
            self.assertIn(LATE, [one["path"] for one in client.ask("loadedSources")["sources"]])


class Conditions(Case):
    def stops_at(self, wish):
        """The variables of the first stop."""
        with self.attached("calls.lua", breakpoints=[(CALLS, [{"line": 5, **wish}])]) as client:
            self.assertEqual([one["verified"] for one in self.found], [True])
            return client.locals(client.wait("stopped")["threadId"])

    def test_conditions(self):
        """The calls of add have n = 1, 1, 1, 2, 2, 2 and so on, and by = 1, 2, 3 in turn."""
        for condition, n, by in (("n == 2", "2", "1"), ("n > 1 and by == 2", "2", "2"), ("n * by == 9", "3", "3"), ("not (n == 1)", "2", "1"),
                                 ("n - 1", "1", "1"), ("total > 6", "2", "2"), ("by == 3 or n == 2", "1", "3")):
            with self.subTest(condition):
                found = self.stops_at({"condition": condition})
                self.assertEqual((found["n"], found["by"]), (n, by))

    def test_hit_counts(self):
        for hits, n, by in (("5", "2", "2"), ("== 5", "2", "2"), (">= 4", "2", "1"), ("> 4", "2", "2"), ("% 6", "2", "3"), ("<3", "1", "1")):
            with self.subTest(hits):
                found = self.stops_at({"hitCondition": hits})
                self.assertEqual((found["n"], found["by"]), (n, by))

    def test_which_hits(self):
        """Each third call, and no other; and the first two alone."""
        with self.attached("calls.lua", breakpoints=[(CALLS, [{"line": 5, "hitCondition": "% 3"}])]) as client:
            for n in "1", "2", "3":
                thread = client.wait("stopped")["threadId"]
                found = client.locals(thread)
                self.assertEqual((found["n"], found["by"]), (n, "3"))
                client.go(thread)
            client.wait("stopped")
            client.set_lines(CALLS, {"line": 5, "hitCondition": "<= 2"})
            for by in "1", "2":
                client.go(thread)
                client.wait("stopped")
                self.assertEqual(client.locals(thread)["by"], by)
            client.go(thread)
            time.sleep(0.2)
            client.ask("threads")
            self.assertEqual(client.events_of("stopped"), [])

    def test_what_is_not_understood(self):
        wishes = [{"line": 5, "condition": "f(n)"}, {"line": 6, "hitCondition": "often"}, {"line": 10, "logMessage": "{n +}"}]
        with self.attached("calls.lua", breakpoints=[(CALLS, wishes)]):
            self.assertEqual([one["verified"] for one in self.found], [False] * 3)
            for one, text in zip(self.found, ("calls are not possible", "a hit count is", "ends too early")):
                self.assertIn(text, one["message"])

    def test_what_has_no_value(self):
        """The thread stops, and the reason is told."""
        with self.attached("calls.lua", breakpoints=[(CALLS, [{"line": 5, "condition": "nowhere == 1"}])]) as client:
            client.wait("stopped")
            self.assertIn("line 5: nowhere is not known here", client.wait("output", category="important")["output"])


class Logs(Case):
    def test_messages(self):
        wishes = [{"line": 5, "logMessage": "n {n}, twice {by * 2}", "condition": "by ~= 2"}, {"line": 18, "condition": "n == 2"}]
        with self.attached("calls.lua", breakpoints=[(CALLS, wishes)]) as client:
            client.wait("stopped")
            told = [one for one in client.events_of("output") if one["category"] == "console"]
            self.assertEqual([one["output"] for one in told], [f"n {n}, twice {by}\n" for n in (1, 2) for by in (2, 6)])
            self.assertEqual({(one["line"], one["source"]["path"]) for one in told}, {(5, CALLS)})

    def test_a_message_without_a_value(self):
        """It is told each time, and no thread stops."""
        with self.attached("calls.lua", breakpoints=[(CALLS, [{"line": 5, "logMessage": "{nowhere}"}])]) as client:
            for _ in range(2):
                self.assertIn("nowhere is not known here", client.wait("output", category="important")["output"])
            self.assertEqual(client.events_of("stopped"), [])


class Paths(Case):
    def test_mappings(self):
        here = "/home/me/project/calls.lua"
        mappings = [{"local": "/elsewhere", "remote": "/nowhere"}, {"local": "/home/me/project", "remote": str(places.SCRIPTS)}]
        with self.attached("calls.lua", breakpoints=[(here, [5])], pathMappings=mappings) as client:
            self.assertEqual([one["verified"] for one in self.found], [True])
            thread = client.wait("stopped")["threadId"]
            self.assertEqual(client.frame(thread)["source"], {"name": "calls.lua", "path": here})
            self.refuses("No such file", client.ask, "source", sourceReference=1, source={"path": here})

    def test_odd_names(self):
        """Signs that Java names do not have; the path from the folder or the whole one, or only a function."""
        with tempfile.TemporaryDirectory() as room:
            folder, name = pathlib.Path(room).resolve(), "é dir/2nd/odd.name.lua"
            path = folder / name
            path.parent.mkdir(parents=True)
            path.write_text("local n = 1\nwhile true do\n    n = n + 1\n    sleep(0.001)\nend\n")
            for given, wanted in ((name, {"breakpoints": [(path, [3])]}), (f"./{name}", {"breakpoints": [(path, [3])]}),
                                  (str(path), {"breakpoints": [(path, [3])]}), (name, {"functions": [{"name": "odd_name.main"}]})):
                with self.subTest(given), self.attached(given, folder=folder, **wanted) as client:
                    thread = client.wait("stopped")["threadId"]
                    self.assertEqual(client.frame(thread)["source"]["path"], str(path))

    def test_a_link_to_a_folder(self):
        """The client has the file by the link, and sees it there."""
        with tempfile.TemporaryDirectory() as room:
            link = pathlib.Path(room, "link")
            link.symlink_to(places.SCRIPTS)
            with self.attached("calls.lua", breakpoints=[(link / "calls.lua", [5])]) as client:
                thread = client.wait("stopped")["threadId"]
                self.assertEqual(client.frame(thread)["source"]["path"], str(link / "calls.lua"))

    def test_a_file_of_the_same_name_elsewhere(self):
        with tempfile.TemporaryDirectory() as room, self.attached("calls.lua", breakpoints=[(f"{room}/calls.lua", [5])]):
            self.assertEqual([one["verified"] for one in self.found], [False])

    def test_content(self):
        """With sourceContent the client reads the file from the adapter."""
        with self.attached("calls.lua", breakpoints=[(CALLS, [5])], sourceContent=True) as client:
            source = client.frame(client.wait("stopped")["threadId"])["source"]
            content = client.ask("source", source=source, sourceReference=source["sourceReference"])["content"]
            with open(CALLS, encoding="utf-8") as file:
                self.assertEqual(content, file.read())
            told = client.ask("setBreakpoints", source={"sourceReference": source["sourceReference"]}, breakpoints=[{"line": 6}])["breakpoints"]
            self.assertEqual((told[0]["verified"], told[0]["source"]["path"]), (True, CALLS))
            self.refuses("no such source", client.ask, "source", sourceReference=1000)
