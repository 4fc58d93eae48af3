"""Emacs and Kate, as people have them, by the settings that docs/EDITORS.md shows."""
import contextlib
import json
import os
import pathlib
import re
import shutil
import subprocess
import tempfile
import time
import unittest

import places
from places import script

try:
    import tomllib
except ImportError:
    tomllib = None

PAGE = (places.TOP / "docs/EDITORS.md").read_text()
SECONDS = 300
PATH = f"{places.ADAPTER.parent}:{os.environ['PATH']}"
SCREEN = "740x510x24"
PLUGINS = "[Kate Plugins]\nkategdbplugin=true\n"


def settings(kind, heading):
    """The block of this kind under a heading of the page."""
    return re.search(rf"^## {heading}\n.*?^```{kind}\n(.*?)^```$", PAGE, re.M | re.S)[1]


def wants(*programs):
    missing = [program for program in programs if not shutil.which(program)]
    return unittest.skipIf(missing, f"there is no {' and no '.join(missing)}")


def has_dap_mode():
    return shutil.which("emacs") and not subprocess.run(["emacs", "--batch", "--eval", "(require 'dap-mode)"], capture_output=True).returncode


class Page(unittest.TestCase):
    def test_kate(self):
        of = json.loads(settings("json", "Kate"))["dap"]["cebdyraq"]
        self.assertEqual(of["run"]["command"], ["cq-dap"])
        self.assertEqual({name: one["request"]["command"] for name, one in of["configurations"].items()}, {"attach": "attach", "launch": "launch"})

    def test_zed(self):
        one, = json.loads(settings("json", "Zed"))
        self.assertEqual((one["request"], one["port"]), ("attach", 5005))

    @unittest.skipUnless(tomllib, "there is no tomllib, which Python 3.11 has")
    def test_helix(self):
        debugger = tomllib.loads(settings("toml", "Helix"))["language"][0]["debugger"]
        self.assertEqual((debugger["command"], debugger["transport"]), ("cq-dap", "stdio"))
        self.assertEqual([one["request"] for one in debugger["templates"]], ["launch", "attach"])

    @unittest.skipUnless(shutil.which("luac5.4"), "there is no luac5.4")
    def test_neovim(self):
        done = subprocess.run(["luac5.4", "-p", "-"], input=settings("lua", "Neovim"), text=True, capture_output=True)
        self.assertEqual((done.returncode, done.stderr), (0, ""))


class Emacs(unittest.TestCase):
    def setUp(self):
        if not has_dap_mode():
            self.skipTest("there is no emacs with dap-mode")
        room = tempfile.TemporaryDirectory()
        self.addCleanup(room.cleanup)
        self.room = pathlib.Path(room.name)
        (self.room / "settings.el").write_text(settings("elisp", "Emacs"))

    def told(self, call, **environment):
        """What emacs.el tells by this call."""
        environment = {"HOME": str(self.room), "CQ_SETTINGS": str(self.room / "settings.el"), "PATH": PATH, **environment}
        done = subprocess.run(["emacs", "--batch", "-l", places.HERE / "emacs.el", "--eval", f"({call})"], capture_output=True, text=True,
                              timeout=SECONDS, env={**os.environ, **environment})
        self.assertEqual(done.returncode, 0, done.stderr[-3000:])
        return [line.removeprefix("told ") for line in done.stdout.splitlines() if line.startswith("told ")]

    def test_attach(self):
        """A breakpoint in add of calls.lua, whose first call is add(1, 1); over a line, and out."""
        with places.running("calls.lua") as host:
            told = self.told("try-attach", CQ_SCRIPT=script("calls"), CQ_PORT=str(host.port))
            self.assertTrue(host.runs())
        self.assertEqual((told[0], sorted(told[1:4])), ("stop at add:5 in calls.lua", ["by = 1", "n = 1", "total = 0"]))
        self.assertEqual(told[4:], ["stop at add:6 in calls.lua", "stop at work:10 in calls.lua", "n * 2 = 2", "state running", "disconnected"])

    def test_launch(self):
        told = self.told("try-launch", CQ_SCRIPT=script("ends"), CQ_LUA=str(places.cqlua))
        self.assertIn("output to stdout é", told)
        self.assertIn("output to stderr", told)


@contextlib.contextmanager
def screen():
    """The name of a display that nobody sees."""
    reading, writing = os.pipe()
    with subprocess.Popen(["Xvfb", "-displayfd", str(writing), "-screen", "0", SCREEN], pass_fds=[writing], stderr=subprocess.DEVNULL) as server:
        os.close(writing)
        with os.fdopen(reading) as number:
            name = ":" + number.readline().strip()
        try:
            yield name
        finally:
            server.terminate()


class Watched(unittest.TestCase):
    """An editor on a display, at a copy of calls.lua. What it and the adapter say to each other stands in the adapter's log."""

    def setUp(self):
        self.room, self.stack = pathlib.Path(tempfile.mkdtemp(prefix="editor-")), contextlib.ExitStack()
        self.addCleanup(shutil.rmtree, self.room, ignore_errors=True)
        self.addCleanup(self.stack.close)
        self.log, self.read, self.script = self.room / "log", 0, self.room / "calls.lua"
        shutil.copyfile(script("calls"), self.script)
        self.host = self.stack.enter_context(places.running(self.script))
        self.environment = {**os.environ, "HOME": str(self.room), "DISPLAY": self.stack.enter_context(screen()), "LANG": "C.UTF-8"}

    def write(self, name, content):
        (self.room / name).parent.mkdir(parents=True, exist_ok=True)
        (self.room / name).write_text(content)

    def start(self, *words):
        editor = self.stack.enter_context(subprocess.Popen(words, env=self.environment, stdout=subprocess.DEVNULL, stderr=subprocess.DEVNULL))
        self.stack.callback(editor.terminate)

    def run_tool(self, *words):
        subprocess.run(words, env=self.environment, check=True, timeout=SECONDS, stdout=subprocess.DEVNULL)

    def press(self, *keys):
        for key in keys:
            self.run_tool("xdotool", "key", key)
            time.sleep(0.5)

    def wait(self, **fields):
        """The body of the next message of the adapter that has these fields. It is looked for in the log."""
        end, lines = time.monotonic() + 60, []
        while time.monotonic() < end:
            lines = self.log.read_text().splitlines() if self.log.is_file() else []
            for at, line in enumerate(lines[self.read:], self.read):
                with contextlib.suppress(ValueError):
                    message = json.loads(line[3:]) if line.startswith("<- ") else {}
                    if all(message.get(name) == value for name, value in fields.items()):
                        self.read = at + 1
                        return message.get("body")
            time.sleep(0.1)
        return self.fail(f"no {fields} after line {self.read}: {lines}")

    def stops(self, reason, place):
        """The thread stops, and the editor asks where."""
        self.assertEqual(self.wait(event="stopped")["reason"], reason)
        frame = self.wait(command="stackTrace", success=True)["stackFrames"][0]
        self.assertEqual((frame["name"], frame["line"]), place)

    def take_picture(self, name):
        if "CQ_PICTURES" in os.environ:
            time.sleep(3)
            self.run_tool("import", "-window", "root", "+dither", "-colors", "16", "-strip", f"PNG8:{os.environ['CQ_PICTURES']}/{name}.png")


@wants("kate", "Xvfb", "xdotool", "dbus-run-session", "import")
class Kate(Watched):
    def setUp(self):
        super().setUp()
        target = {"target": "calls", "debugger": "cebdyraq", "debuggerKey": "cebdyraq", "debuggerProfile": "attach",
                  "variables": {"port": str(self.host.port)}}
        command = json.dumps([str(places.ADAPTER), "--log", str(self.log)])
        self.write(".config/kate/gdbplugin/dap.json", settings("json", "Kate").replace('["cq-dap"]', command))
        self.write(".config/katerc", f"[General]\nStartup Session=manual\nShow welcome view for new window=false\n\n{PLUGINS}")
        self.write(".local/share/kate/anonymous.katesession", f"{PLUGINS}\n[Plugin:kategdbplugin:MainWindow:0]\n"
                   f"version=5\ntargetCount=1\nlastTarget=0\ntarget_0={json.dumps(target)}\n")
        (self.room / "run").mkdir(mode=0o700)
        self.environment.update(XDG_RUNTIME_DIR=str(self.room / "run"), QT_QPA_PLATFORM="xcb")
        for name in "XDG_CONFIG_HOME", "XDG_DATA_HOME":
            self.environment.pop(name, None)
        self.start("dbus-run-session", "kate", "-b", "-l", "5", str(self.script))
        self.run_tool("xdotool", "search", "--sync", "--onlyvisible", "--name", "calls.lua",
                      "windowmove", "0", "0", "windowsize", *SCREEN.split("x")[:2])
        time.sleep(3)  # until the window takes keys

    def test_attach(self):
        """A breakpoint in add, a step, and the end. Kate lets the program begin by Continue."""
        self.press("alt+d", "s")
        self.wait(event="initialized")
        self.press("shift+F11")
        self.assertEqual([one["verified"] for one in self.wait(command="setBreakpoints")["breakpoints"]], [True])
        self.press("alt+d", "c")
        self.stops("breakpoint", ("add", 5))
        self.take_picture("kate")
        self.press("F9")
        self.stops("step", ("add", 6))
        self.press("alt+F7")
        self.wait(command="disconnect", success=True)
        self.assertTrue(self.host.runs())


@wants("emacs", "xterm", "Xvfb", "xdotool", "import")
class EmacsInATerminal(Watched):
    def setUp(self):
        if not has_dap_mode():
            self.skipTest("there is no dap-mode for emacs")
        super().setUp()
        self.write("settings.el", settings("elisp", "Emacs"))
        self.environment.update(PATH=PATH, CQ_SETTINGS=str(self.room / "settings.el"), CQ_LOG=str(self.log), CQ_SCRIPT=str(self.script),
                                CQ_PORT=str(self.host.port))
        self.start("xterm", "-fa", "DejaVu Sans Mono", "-fs", "10", "-geometry", "92x30+0+0",
                   "-e", "emacs", "-nw", "-l", str(places.HERE / "emacs.el"), "--eval", "(show-attach)")

    def test_attach(self):
        """A breakpoint in add, its variables in a window of their own, and a step."""
        self.stops("breakpoint", ("add", 5))
        shown = {one["name"]: one["value"] for one in self.wait(command="variables", success=True)["variables"]}
        self.assertEqual(shown, {"n": "1", "by": "1", "total": "0"})
        self.take_picture("emacs")
        self.press("F9")
        self.stops("step", ("add", 6))
