"""Python programs under their host (hosts/python)."""
import os
import unittest

import places
from case import Case

HOST = places.TOP / "hosts/python"
SUMS = HOST / "scripts/sums.py"
LINE = 1 + SUMS.read_text().splitlines().index("    return result + point.x")


@unittest.skipUnless((HOST / "out/cebdyraq/host.py").is_file(), "there is no host for Python: make -C hosts/python builds it")
class Python(Case):
    def launch(self, *wishes):
        """A client at scripts/sums.py, which has stopped for one of these breakpoints, and the thread that has."""
        client = self.client()
        client.begin("launch", [(SUMS, wishes)], program=str(SUMS), cwd=str(SUMS.parent), runtimeExecutable=["python3", "-m", "cebdyraq"],
                     env={"PYTHONPATH": str(HOST / "out")})
        stop = client.wait("stopped")
        self.assertEqual(stop["reason"], "breakpoint")
        return client, stop["threadId"]

    def goes_on(self, client, thread):
        client.go(thread)
        self.assertEqual(client.wait("exited")["exitCode"], 4)

    def test_a_breakpoint(self):
        client, thread = self.launch(LINE)
        frames = client.stack(thread)["stackFrames"]
        self.assertEqual([frame["name"].split(".")[-1] for frame in frames[:3]], ["total", "main", "<module>"])
        self.assertEqual((frames[0]["line"], os.path.realpath(frames[0]["source"]["path"])), (LINE, str(SUMS)))
        values = client.locals(thread)
        self.assertEqual((values["result"], values["number"]), ("6", "3"))
        self.goes_on(client, thread)

    def test_a_step_out(self):
        client, thread = self.launch(LINE)
        client.ask("stepOut", threadId=thread)
        self.assertEqual(client.wait("stopped")["reason"], "step")
        self.assertTrue(client.where(thread)[0].endswith("main"))
        self.goes_on(client, thread)

    def test_a_condition(self):
        """The breakpoint is met in each round of the loop, and one of them is told."""
        client, thread = self.launch({"line": LINE - 1, "condition": "number == 2"})
        self.assertEqual(client.evaluate(thread, "result"), "1")
        self.goes_on(client, thread)
