"""The classes of scripts: which functions they have, how they are named, and when there is a new one."""
import contextlib
import struct
import subprocess
import time

from jdwp import PATIENCE, ids
from shared import CQLUA, SLEEPER, WithFolder
from tests_attach import attach

# Functions by all forms that name one, and below them the names in the order of the source.
SHAPES = """
local M = {}
function M.advance() end
function M:turn() end
function everywhere() end
local function pull() end
local first, second = function() end, function() end
local later
later = function() end
local function outer() later = function() end return function() end end
local t = { field = function() end, ["a key"] = function() end, function() end }
t[#t + 1] = function() end
M.called = (function() return function() end end)()
"""
NAMES = ["main", "advance", "turn", "everywhere", "pull", "first", "second", "later", "outer", "later", "function", "field",
         "a key", "function", "function", "function", "function"]
# More constants than one byte counts, so that the names of fields are no part of the instructions.
MANY = "".join(f"K = 'constant {n}'\n" for n in range(300)) + """
local M, key = {}, "of a variable"
function global() end
function M.field() end
M[key] = function() end
"""
MANY_NAMES = ["main", "global", "field", "function"]
# How a file is loaded and run, by its name.
LOADS = {"required": "require('required')", "done": "dofile('done.lua')", "loaded": "loadfile('loaded.lua')()",
         "named": "local file = io.open('named.lua') load(file:read('a'), '@named.lua')()"}
CLASS_PREPARE, BREAKPOINT, ALL = 8, 2, 2


class Debugger:
    """A debugger at scripts that run until they are told to stop."""

    def __init__(self, wire):
        self.wire = wire

    def classes(self, signature, count=1):
        """The ids of the classes of this signature, once there are so many."""
        end, found = time.monotonic() + PATIENCE, []
        while len(found) < count and time.monotonic() < end:
            found = self.wire.classes().get(signature, [])
        return found

    def names(self, signature, count=1):
        """The names of each such class's methods, once there are so many classes."""
        return [list(self.wire.methods(class_).values()) for class_ in self.classes(signature, count)]

    def wants(self, kind, modifier):
        """Asks for an event that suspends all threads, and gives the number of the request."""
        return self.wire.ask(15, 1, struct.pack(">BBi", kind, ALL, 1) + modifier).number(4)

    def wants_class(self, name):
        return self.wants(CLASS_PREPARE, struct.pack(">Bi", 5, len(name)) + name.encode())

    def event(self):
        """The kind and the number of the next event that has one, and the rest of its data."""
        while not self.wire.events:
            self.wire.read()
        data = self.wire.events.pop(0)
        data.take(5)
        return data.number(1), data.number(4), data

    def stack(self, name, newest):
        """The stack of a thread as soon as this is its newest function."""
        end, thread, stack = time.monotonic() + PATIENCE, self.wire.threads(1)[name], []
        while stack[:1] != [newest] and time.monotonic() < end:
            stack = self.wire.look(thread)
        return stack


class Debugged(WithFolder):
    @contextlib.contextmanager
    def debugged(self, *scripts):
        """A debugger at these scripts of the folder, which is the current one."""
        with self.served("run", "--debug", "127.0.0.1:0", *scripts, where=self.folder) as (_, line), attach(line) as wire:
            yield Debugger(wire)


class Classes(Debugged):
    def test_classes_have_all_functions(self):
        """They are named by the source, also in a chunk with many constants. The statement is a chunk too."""
        self.script("shapes.lua", SHAPES + SLEEPER)
        self.script("many.lua", MANY + SLEEPER)
        with self.debugged("shapes.lua", "many.lua") as debugger:
            self.assertEqual(debugger.names("Lshapes;"), [NAMES])
            self.assertEqual(debugger.names("Lmany;"), [MANY_NAMES])
            self.assertEqual(debugger.names("L_command_line_;"), [["main"]])

    def test_classes_of_what_is_loaded(self):
        """A module, a chunk that is named as a file, and a file under two names. A text is no class before it runs."""
        (self.folder / "n-body").mkdir()
        self.script("n-body/2d.lua", "local M = {} function M.move() end return M")
        self.script("done.lua", "local function did() end")
        self.script("main.lua", """
            package.path = "./?.lua"
            require("n-body.2d") dofile("done.lua") assert(loadfile("./done.lua"))
            load("local function not_found() end") load("local function named() end", "@lib/named.lua")
        """ + SLEEPER)
        with self.debugged("main.lua") as debugger:
            self.assertEqual(debugger.names("Ln_body/_2d;"), [["main", "move"]])
            self.assertEqual(debugger.names("Llib/named;"), [["main", "named"]])
            self.assertEqual(debugger.names("Ldone;", 2), [["main", "did"]] * 2)
            self.assertEqual([debugger.wire.source_file(class_) for class_ in debugger.classes("Ldone;", 2)], ["done.lua"] * 2)
            self.assertEqual([signature for signature in debugger.wire.classes() if "not_found" in signature], [])

    def test_classes_are_shared_and_never_change(self):
        """Another text is another class, and states that load the same file share its class."""
        self.script("shared.lua", "local function one() end")
        self.script("first.lua", "dofile('shared.lua') dofile('shared.lua')" + SLEEPER)
        self.script("second.lua", """
            dofile("shared.lua")
            local file = io.open("changes.lua", "w") file:write("local function old() end") file:close() dofile("changes.lua")
            file = io.open("changes.lua", "w") file:write("local function new() end") file:close() dofile("changes.lua")
        """ + SLEEPER)
        with self.debugged("first.lua", "second.lua") as debugger:
            self.assertEqual(debugger.names("Lchanges;", 2), [["main", "old"], ["main", "new"]])
            self.assertEqual(debugger.names("Lshared;"), [["main", "one"]])

    def test_classes_of_functions_on_one_line(self):
        """They have the same lines, and are called by other names. The code tells which of them runs, and not its variable."""
        self.script("twins.lua", """
            local t = { one = function() sleep(0.02) return 1 end, two = function() sleep(0.02) return 2 end }
            local two, one = t.one, t.two
            repeat one() local file = io.open(STOP) until file
        """)
        with self.debugged("twins.lua") as debugger:
            self.assertEqual(debugger.stack("twins.lua", "C.sleep.sleep"), ["C.sleep.sleep", "twins.two:2", "twins.main:4"])

    def test_classes_of_stripped_chunks(self):
        """Their functions cannot be read, so each is a class of its own, under the name by which it is called."""
        self.script("strip.lua", """
            local text = "local function rest() repeat sleep(0.02) local file = io.open(STOP) until file end return rest"
            local stripped = load(string.dump(load(text), true))()
            stripped()
        """)
        with self.debugged("strip.lua") as debugger:
            self.assertEqual(debugger.stack("strip.lua", "C.sleep.sleep"), ["C.sleep.sleep", "_.stripped:0", "strip.main:4"])

    def test_classes_are_told_before_they_run(self):
        """A debugger has time to set a breakpoint in a file that is loaded, and the hook notices it at the next line."""
        for name in LOADS:
            self.script(f"{name}.lua", f"io.open('ran-{name}', 'w'):close()\nlocal n = 1\nreturn n")
        self.script("main.lua", "package.path = './?.lua' repeat sleep(0.01) local file = io.open('go') until file\n" +
                    "\n".join(LOADS.values()) + SLEEPER)
        with self.debugged("main.lua") as debugger:
            wanted = {name: debugger.wants_class(name) for name in LOADS}
            (self.folder / "go").touch()
            for name, number in wanted.items():
                with self.subTest(name):
                    self.is_told_before_it_runs(debugger, self.folder / f"ran-{name}", number)

    def is_told_before_it_runs(self, debugger, ran, number):
        """The next event is that of a class, whose script waits, has not run, and stops at its second line."""
        kind, found, data = debugger.event()
        self.assertEqual((kind, found), (CLASS_PREPARE, number))
        thread, _, class_ = data.number(8), data.number(1), data.number(8)
        time.sleep(0.1)
        self.assertFalse(ran.exists())
        self.assertEqual(debugger.wire.status(thread)[1], 1)
        main = next(iter(debugger.wire.methods(class_)))
        placed = debugger.wants(BREAKPOINT, struct.pack(">BB", 7, 1) + ids(class_, main, 2))
        debugger.wire.resume()
        kind, found, _ = debugger.event()
        self.assertEqual((kind, found), (BREAKPOINT, placed))
        self.assertTrue(ran.exists())
        debugger.wire.ask(15, 2, struct.pack(">Bi", BREAKPOINT, placed))
        debugger.wire.resume()

    def test_classes_are_told_to_nobody(self):
        """Without a debugger a script does not wait for the door's next look, which comes each 100 ms."""
        self.script("part.lua", "return 1")
        main = self.script("main.lua", "for i = 1, 1000 do dofile('part.lua') end print('loaded')")
        start = time.monotonic()
        done = subprocess.run([CQLUA, "run", "--debug", "127.0.0.1:0", main], cwd=self.folder, capture_output=True, text=True,
                              timeout=60)
        self.assertEqual(done.stdout, "loaded\n")
        self.assertLess(time.monotonic() - start, 20)
