"""Which scripts look at each line: those alone that may stop in a function that they have met."""
import contextlib
import struct
import time

from jdwp import PATIENCE, ids
from tests_classes import BREAKPOINT, Debugged

# Writes the events of its hook into a file of the name that it is given, again and again.
TELLS = """
    local function tell(name)
        local _, mask = debug.gethook()
        local file = io.open(name .. ".new", "w")
        file:write("mask " .. mask)
        file:close()
        os.rename(name .. ".new", name .. ".mask")
    end
    local function stop() local file = io.open(STOP) return file and file:close() end
"""
HOT = TELLS + "repeat tell('hot') sleep(0.001) until stop()\n"
COLD = TELLS + """
    local function cold()
        return "ran"
    end
    repeat
        tell('cold')
        sleep(0.001)
        local go = io.open('go')
        if go then go:close() os.remove('go') io.open(cold(), 'w'):close() end
    until stop()
"""
LINE_OF_COLD = COLD.splitlines().index('        return "ran"') + 1
EXTENDED_CLEAR = 2


class Stops(Debugged):
    def mask(self, name, wanted, is_wanted=True):
        """Waits until a script's hook has an event, or has it not. It writes the mask anew each time, so an older one is removed first."""
        path, end = self.folder / f"{name}.mask", time.monotonic() + PATIENCE
        found = None
        while time.monotonic() < end and (found is None or (wanted in found) != is_wanted):
            path.unlink(missing_ok=True)
            while not path.exists() and time.monotonic() < end:
                time.sleep(0.001)
            with contextlib.suppress(FileNotFoundError):
                found = path.read_text().split(" ", 1)[1]
        return found

    def breaks_in_cold(self, debugger):
        class_ = debugger.classes("Lcold;")[0]
        method = next(number for number, name in debugger.wire.methods(class_).items() if name == "cold")
        return debugger.wants(BREAKPOINT, struct.pack(">BB", 7, 1) + ids(class_, method, LINE_OF_COLD))

    def test_a_breakpoint_in_another_script(self):
        """The script that has it looks at each line, and the other one does not. Once it is cleared neither does."""
        self.script("hot.lua", HOT)
        self.script("cold.lua", COLD)
        with self.debugged("hot.lua", "cold.lua") as debugger:
            self.assertNotIn("l", self.mask("cold", "l", False))
            placed = self.breaks_in_cold(debugger)
            self.assertIn("l", self.mask("cold", "l"))
            for _ in range(20):
                self.assertNotIn("l", self.mask("hot", "l", False))
            (self.folder / "go").touch()
            kind, found, _ = debugger.event()
            self.assertEqual((kind, found), (BREAKPOINT, placed))
            self.assertFalse((self.folder / "ran").exists())
            debugger.wire.ask(15, EXTENDED_CLEAR, struct.pack(">Bi", BREAKPOINT, placed))
            debugger.wire.resume()
            self.assertNotIn("l", self.mask("cold", "l", False))
            self.assertNotIn("l", self.mask("hot", "l", False))
        self.assertTrue((self.folder / "ran").exists())

    def test_a_breakpoint_in_a_text(self):
        """A text that was loaded is a class once it was seen in a stack, and the script may stop there."""
        self.script("texts.lua", """
            local text = "local n = 0\\nlocal function rest()\\n repeat\\n  n = n + 1\\n  sleep(0.01)\\n until io.open(STOP)\\nend\\nreturn rest"
            load(text, "=text")()()
        """)
        with self.debugged("texts.lua") as debugger:
            stack = debugger.stack("texts.lua", "C.sleep.sleep")
            name = stack[1].split(".")[0]
            class_ = debugger.classes(f"L{name};")[0]
            method = next(iter(debugger.wire.methods(class_)))
            placed = debugger.wants(BREAKPOINT, struct.pack(">BB", 7, 1) + ids(class_, method, 4))
            kind, found, _ = debugger.event()
            self.assertEqual((kind, found), (BREAKPOINT, placed))
            debugger.wire.ask(15, EXTENDED_CLEAR, struct.pack(">Bi", BREAKPOINT, placed))
            debugger.wire.resume()
