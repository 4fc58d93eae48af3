"""Scripts that run: what they write, beside plain Lua."""
import re

from shared import CQLUA, LUA, WithFolder, cqlua, run

KNOWN = {  # what each program is known to write, by its size
    ("nbody.lua", 1000): "-0.169075164\n-0.169087605\n",
    ("spectral_norm.lua", 100): "1.274219991\n",
    ("fannkuch.lua", 7): "228\nPfannkuchen(7) = 16\n",
    ("binary_trees.lua", 10):
        "stretch tree of depth 11\t check: 4095\n"
        "1024\t trees of depth 4\t check: 31744\n"
        "256\t trees of depth 6\t check: 32512\n"
        "64\t trees of depth 8\t check: 32704\n"
        "16\t trees of depth 10\t check: 32752\n"
        "long lived tree of depth 10\t check: 2047\n",
}
PLAIN = {"nbody.lua": 100000, "binary_trees.lua": 12, "fannkuch.lua": 8, "spectral_norm.lua": 200, "sleeper.lua": 3}


class Run(WithFolder):
    def test_known_results(self):
        for (name, size), text in KNOWN.items():
            for how in ["run"], ["run", "--no-service"]:
                with self.subTest(" ".join([*how, name]), N=size):
                    result = cqlua(*how, "-e", f"N = {size}", name)
                    self.assertEqual((result.stdout, result.returncode), (text, 0), result.stderr)

    def is_as_plain(self, *words, normal=str, **more):
        """The script writes what it does under plain Lua, and both end well."""
        plain, ours = run(LUA, *words, **more), cqlua("run", *words, **more)
        self.assertEqual(normal(ours.stdout), normal(plain.stdout), ours.stderr)
        self.assertNotEqual(plain.stdout, "")
        self.assertEqual((plain.returncode, ours.returncode), (0, 0), ours.stderr)

    def test_same_as_plain_lua(self):
        for name, size in PLAIN.items():
            with self.subTest(name):
                self.is_as_plain("-e", f"N = {size}", name)

    def test_error_of_a_script(self):
        """Its message has a traceback, the others run on, and the status is 1."""
        bad = self.script("bad.lua", "local function inner() error('oops') end\nlocal function outer() inner() end\n"
                          "outer()\nprint('not here')\n")
        result = cqlua("run", "-e", "N = 2", bad, "sleeper.lua", bad)
        self.assertEqual(result.returncode, 1)
        self.assertEqual(result.stderr.count("bad.lua:1: oops"), 2, result.stderr)
        self.assertIn("in upvalue 'inner'", result.stderr)
        self.assertIn("in main chunk", result.stderr)
        self.assertIn("2 rounds: ", result.stdout)
        self.assertNotIn("not here", result.stdout)

    def test_script_that_does_not_compile(self):
        result = cqlua("run", self.script("syntax.lua", "x = = 1"))
        self.assertEqual(result.returncode, 1)
        self.assertIn("syntax.lua:1:", result.stderr)

    def test_script_that_is_not_there(self):
        result = cqlua("run", "not-there.lua")
        self.assertEqual(result.returncode, 1)
        self.assertIn("cannot open", result.stderr)

    def test_usage(self):
        for words in [], ["u", "sleeper.lua"], ["run", "--svg", "sleeper.lua"], ["prof"]:
            with self.subTest(words):
                self.assertEqual(run(CQLUA, *words).returncode, 2)

    def test_input(self):
        """Standard input as under plain Lua, with the same messages of errors."""
        text = "one\ntwo\n12 0x10 three\nfour\nfive\nsix\n"
        lines = """
            print(io.read()) print(io.read("L")) print(io.read("n", "*n", "l"))
            for line in io.lines() do print(line) break end
            for line in io.stdin:lines("L") do print(line) break end
            print(io.stdin:read(2, "a")) print(io.read(), io.stdin:read("l"))
            print(pcall(io.read, "x")) print(pcall(function() io.read("x") end))
            print(pcall(function() io.stdin:read("x") end))
            print(pcall(function() for _ in io.lines(nil, "x") do end end))
            for line in io.lines(arg[0]) do print(line) break end print(io.lines ~= nil)
            print(os.execute("exit 3")) print(os.execute()) print(pcall(function() os.execute({}) end))
            io.stdin:close() print(pcall(io.read)) print(pcall(function() io.read() end)) print((pcall(io.lines)))
        """
        self.is_as_plain(self.script("input.lua", lines), input=text)

    def test_coroutines_as_plain(self):
        path = self.script("co.lua", """
            local co = coroutine.create(function(a, b) local c = coroutine.yield(a + b) error({ c }) end)
            print(coroutine.resume(co, 1, 2)) local ok, e = coroutine.resume(co, 7) print(ok, e[1], coroutine.status(co))
            print(coroutine.resume(co)) print(pcall(coroutine.resume, 1))
            local gen = coroutine.wrap(function(...)
                for i = 1, select("#", ...) do coroutine.yield(i) end
                error("ended")
            end)
            print(gen(1, 2), gen()) print(pcall(gen)) print(pcall(gen))
            local function nest(n) if n == 0 then return 0 end return 1 + coroutine.wrap(nest)(n - 1) end
            print(nest(50), (pcall(nest, 1000)))
            local deep = coroutine.wrap(function() error("in here") end)
            for i = 1, 3 do print(pcall(deep)) end print(coroutine.isyieldable(), coroutine.running())
        """)
        self.is_as_plain(path, normal=lambda text: re.sub(r"0x[0-9a-f]+", "ADDRESS", text))

    def test_loading_as_plain(self):
        """The functions that the host puts in place of Lua's own, with the same results and the same messages of errors."""
        self.script("given.lua", "return 1, nil, ...")
        self.script("yields.lua", "return coroutine.yield('inside'), 'after'")
        self.script("module.lua", "return { name = ..., file = select(2, ...) }")
        self.script("broken.lua", "x = = 1")
        path = self.script("loads.lua", """
            local folder = arg[0]:match("(.*)/")
            package.path = folder .. "/?.lua"
            print(dofile(folder .. "/given.lua")) print(loadfile(folder .. "/given.lua")(2, 3)) print(load("return ...")(4, 5))
            print(load("return x", "=name", "t", { x = 6 })()) print(load(string.dump(load("return 7")))())
            local parts = { "return ", "8" } print(load(function() return table.remove(parts, 1) end, "@parts")())
            local step = coroutine.wrap(function() return dofile(folder .. "/yields.lua") end) print(step(), step("given"))
            print(require("module").name, require("module").file == folder .. "/module.lua", require("module") == require("module"))
            for _, name in ipairs({ "broken", "nothing" }) do
                local file = folder .. "/" .. name .. ".lua"
                print(loadfile(file)) print(pcall(dofile, file)) print(pcall(require, name)) print(pcall(function() dofile(file) end))
            end
            for _, wrong in ipairs({ load, loadfile, dofile, require }) do
                print(pcall(wrong, {})) print(pcall(function() wrong({}) end))
            end
            print(load("x = = 1")) print(load("return 1", "text", "b")) print(pcall(load, function() error("thrown") end))
        """)
        self.is_as_plain(path)
