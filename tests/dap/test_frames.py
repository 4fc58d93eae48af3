"""Stacks, scopes, variables and expressions at a stopped thread. The values are those of values.lua."""
from case import Case
from places import script
from strict import Refused

VALUES = script("values")
# Some of them, each with the name of its type.
LOCALS = {"none": ("nil", "nil"), "yes": ("true", "boolean"), "no": ("false", "boolean"), "whole": ("42", "integer"), "half": ("2.5", "float"),
          "huge": ("1e+100", "float"), "quoted": ('"say \\"hi\\""', "string"), "digits": ('"12"', "string"), "list": ("table of 6", "table"),
          "empty": ("table of 0", "table"), "big": ("table of more than 100", "table")}


class Frames(Case):
    def at(self, line, *more):
        return self.attached("values.lua", "waits.lua", breakpoints=[(VALUES, [line, *more])])

    def test_locals(self):
        with self.at(27) as client:
            thread = client.wait("stopped")["threadId"]
            found = client.scope(client.frame(thread)["id"])
            self.assertEqual(list(found)[:6], ["none", "yes", "no", "whole", "half", "huge"])
            values = {name: (one["value"], one["type"]) for name, one in found.items()}
            for name, value in LOCALS.items():
                with self.subTest(name):
                    self.assertEqual(values[name], value)
            self.assertRegex(values["deep"][0], r"\Afunction: 0x[0-9a-f]+\Z")
            self.assertEqual((values["deep"][1], values["made"][1]), ("function", "thread"))
            self.assertEqual([one["evaluateName"] for one in found.values()], list(found))

    def test_what_is_visible(self):
        """Only what is declared yet, and the last one of a name."""
        with self.at(22, 23) as client:
            thread = client.wait("stopped")["threadId"]
            self.assertEqual(client.locals(thread), {"x": "2"})
            client.go(thread)
            client.wait("stopped")
            self.assertEqual(client.locals(thread), {"x": "4"})

    def test_tables(self):
        with self.at(26) as client:
            thread = client.wait("stopped")["threadId"]
            found = client.scope(client.frame(thread)["id"])
            entries = client.variables(found["list"]["variablesReference"])
            inner = entries.pop("inner")
            self.assertEqual({name: one["value"] for name, one in entries.items()}, {"1": "10", "2": "20", "3": "30", "name": '"x"', "a b": "false"})
            self.assertEqual((inner["type"], inner["variablesReference"]), ("table", 0))
            self.assertEqual(client.variables(found["empty"]["variablesReference"]), {})
            big = found["big"]["variablesReference"]
            names = list(client.variables(big))
            self.assertEqual(names, [*map(str, range(1, 101)), "..."])
            self.assertEqual(list(client.variables(big, start=10, count=5)), names[10:15])
            self.assertEqual(client.variables(big, filter="indexed"), {})

    def test_globals(self):
        with self.at(26) as client:
            frame = client.frame(client.wait("stopped")["threadId"])["id"]
            found = client.scope(frame, "Globals")
            self.assertEqual(found["KNOWN"]["value"], '"global"')
            self.assertEqual(found["print"]["type"], "function")
            self.assertEqual([one["expensive"] for one in client.ask("scopes", frameId=frame)["scopes"]], [False, True])

    def test_evaluation(self):
        with self.at(26) as client:
            thread = client.wait("stopped")["threadId"]
            for text, value in (("whole", "42"), ("list.name", '"x"'), ("list[2]", "20"), ("list['a b']", "false"), ("whole * 2 + #list", "87"),
                                ("not yes or none", "nil"), ("KNOWN", '"global"'), ("digits == '12'", "true"), ("empty", "table of 0"),
                                ("big[100]", "100"), ("nought and 'true'", '"true"')):
                with self.subTest(text):
                    self.assertEqual(client.evaluate(thread, text), value)
            for text in "print(1)", "list.inner[1]", "nowhere", "1 +", "whole.x", "big[101]", "#big":
                with self.subTest(text), self.assertRaises(Refused):
                    client.evaluate(thread, text)
            found = client.ask("evaluate", expression="list", frameId=client.frame(thread)["id"])
            self.assertEqual(client.variables(found["variablesReference"])["1"]["value"], "10")
            self.refuses("a frame of a stopped thread", client.ask, "evaluate", expression="whole")

    def test_stacks_by_pages(self):
        """deep calls itself 60 times from main."""
        with self.at(14) as client:
            thread = client.wait("stopped")["threadId"]
            whole = client.stack(thread)
            self.assertEqual([(one["name"], one["line"]) for one in whole["stackFrames"]], [("deep", 14), *[("deep", 16)] * 60, ("main", 27)])
            self.assertEqual(whole["totalFrames"], 62)
            for start, levels, lines in ((0, 1, [14]), (0, 20, [14] + [16] * 19), (60, 20, [16, 27]), (62, 20, []), (99, 1, []), (61, 0, [27])):
                with self.subTest(start=start, levels=levels):
                    page = client.stack(thread, startFrame=start, levels=levels)
                    self.assertEqual(([one["line"] for one in page["stackFrames"]], page["totalFrames"]), (lines, 62))
            outer = client.stack(thread, startFrame=60, levels=1)["stackFrames"][0]["id"]
            self.assertEqual(client.scope(outer)["n"]["value"], "60")

    def test_native_frames(self):
        with self.attached("waits.lua", suspended=False) as client:
            thread = client.threads()["waits.lua"]
            for _ in range(100):
                client.ask("pause", threadId=thread)
                client.wait("stopped")
                frame = client.frame(thread)
                if frame["name"] == "sleep":
                    break
                client.go(thread)
            self.assertEqual((frame["name"], frame["line"], frame["presentationHint"]), ("sleep", 0, "subtle"))
            self.assertNotIn("source", frame)
            self.assertEqual(client.scope(frame["id"]), {})

    def test_numbers_are_of_one_stop(self):
        with self.at(26, 22) as client:
            thread = client.wait("stopped")["threadId"]
            frame = client.frame(thread)["id"]
            reference = client.ask("scopes", frameId=frame)["scopes"][0]["variablesReference"]
            client.go(thread)
            client.wait("stopped")
            for command, arguments in (("scopes", {"frameId": frame}), ("variables", {"variablesReference": reference}),
                                       ("evaluate", {"frameId": frame, "expression": "1"}), ("scopes", {"frameId": reference})):
                self.refuses("its thread has gone on since", client.ask, command, **arguments)
