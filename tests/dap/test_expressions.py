"""Expressions have the values that Lua's manual gives them."""
import shutil
import subprocess
import unittest

import places
from cq_dap.expressions import Expression, NoValue, Table, is_true, read_text, show

ENTRIES = ["1 = 10", "2 = 20", "name = x", "a b = false", "inner = table: 0x55aa"]
NAMES = {"n": 7, "f": 2.5, "none": None, "yes": True, "no": False, "word": "abc", "zero": 0, "t": Table(1, lambda _: ENTRIES),
         "cut": Table(2, lambda _: ["1 = 1", "..."]), "u": Table(3, lambda _: [])}
# Without names, so that Lua itself gives their values too.
PLAIN = ("1 + 2 * 3", "(1 + 2) * 3", "2 ^ 3 ^ 2", "-2 ^ 2", "7 // 2", "-7 // 2", "-7 % 3", "7 / 2", "1 .. 2", "1e15", "1e16", "2.0", "0x10",
         "1.5e3", "not 0", "0 and 1", "nil or false", "false == nil", "1 == 1.0", "1 == '1'", "true == 1", "'a' < 'b'", "'Z' < 'a'",
         "1 < 2 == true", "not nil == true", "#'abc'", "#'é'", "9223372036854775807 + 1", "2 ^ 53", "10 // 0.5", "'a' .. 'b' .. 'c'", "1 ~= 2",
         "5 % 3.5", "100 * 1.0")
NAMED = {"n": "7", "f * 2": "5.0", "none": "nil", "t.name": '"x"', "t['a b']": "false", "t[2] + 1": "21", "t[1.0]": "10", "#t": "2",
         "t.nothing": "nil", "#u": "0", "none or 5": "5", "yes and word": '"abc"', "zero and 1": "1", "word .. n": '"abc7"', "t == t": "true",
         "t ~= nil": "true", "cut[1]": "1", "n == 7 and word == 'abc'": "true", "t.inner": "table: 0x55aa"}
WRONG = ("", "1 +", "f(1)", "t:x()", "(1", "t[1", "t.", "1 2", "a = 1", "'x", "$", "nothing", "n.x", "t.inner.x", "yes + 1", "word * 2", "word + 1",
         "word % n", "none .. word", "yes < no", "n < word", "#n", "-yes", "1 // 0", "cut.x", "#cut", "t == u", "u < t", "(" * 3000, "٣")


def look_up(name):
    if name not in NAMES:
        raise NoValue(f"{name} is not known here")
    return NAMES[name]


class Expressions(unittest.TestCase):
    def test_names(self):
        for text, value in NAMED.items():
            with self.subTest(text):
                self.assertEqual(show(Expression(text)(look_up)), value)

    def test_wrong(self):
        for text in WRONG:
            with self.subTest(text[:20]), self.assertRaises(NoValue):
                Expression(text)(look_up)

    def test_what_is_true(self):
        self.assertEqual([is_true(value) for value in (None, False, True, 0, 0.0, "", Table(1, lambda _: []))], [False] * 2 + [True] * 5)

    def test_texts_of_entries(self):
        for text, value in {"1": 1, "-5": -5, "2.5": 2.5, "1e+16": 1e16, "nil": None, "true": True, "x": "x", "1_000": "1_000", " 1": " 1",
                            "infinity": "infinity", "0x10": "0x10", "٣": "٣", "": ""}.items():
            with self.subTest(text):
                read = read_text(text)
                self.assertEqual((read, type(read)), (value, type(value)))

    @unittest.skipUnless(lua := shutil.which("lua5.4"), "there is no lua5.4")
    def test_what_lua_says(self):
        """Lua itself is asked."""
        program = "\n".join(f"print({text})" for text in PLAIN)
        said = subprocess.run([self.lua, "-e", program], capture_output=True, text=True, check=True).stdout.splitlines()
        self.assertEqual(len(said), len(PLAIN))
        for text, wanted in zip(PLAIN, said):
            with self.subTest(text):
                self.assertEqual(show(Expression(text)(look_up)).strip('"'), wanted)


assert places
