"""Scripts to which a debugger may attach. What jdb makes of it: tests/jdb."""
import contextlib
import pathlib
import re
import socket

from jdwp import Closed, Wire
from shared import SLEEPER, WORKER, WithFolder, cqlua

LINE = r"cqlua: a debugger may attach at 127\.0\.0\.1:(\d+)\n"


def attach(line):
    return Wire(int(re.fullmatch(LINE, line)[1]))


class Attach(WithFolder):
    def test_attach(self):
        work, sleep = (pathlib.Path(self.script(name, text)).name for name, text in (("work.lua", WORKER), ("sleep.lua", SLEEPER)))
        with self.served("run", "--debug", "127.0.0.1:0", work, sleep, where=self.folder) as (host, line):
            self.assertRegex(line, rf"\A{LINE}\Z")
            with attach(line) as wire:
                self.assertIn("cqlua", str(wire.version()))
                base, path, _ = wire.class_path()
                self.assertEqual((base, path), (str(self.folder), [str(self.folder)]), "where sources are looked for")
                threads = wire.threads(2)
                self.assertEqual(set(threads), {"work.lua", "sleep.lua"})
                self.assertRegex(wire.look(threads["work.lua"])[-1], r"\Awork\.main:\d+\Z")
            self.assertIsNone(host.poll(), "once the debugger has gone, the scripts run")
        self.assertEqual(host.returncode, 0, "to their ends")

    def test_attach_while_serving(self):
        with self.served("serve", "127.0.0.1:0", "--debug", "127.0.0.1:0", self.script("sleep.lua", SLEEPER)) as (host, line):
            self.assertRegex(line, r"\Acqlua: serves http://127\.0\.0\.1:\d+/\n\Z")
            with attach(host.stderr.readline()) as wire:
                self.assertEqual(list(wire.threads(1)), ["sleep.lua"])

    def test_attach_to_each_command(self):
        for words in ["prof", "--rate", "50"], ["top"], ["debug"]:
            with self.subTest(words[0]):
                result = cqlua(*words, "--debug", "127.0.0.1:0", "-e", "N = 1", "sleeper.lua", input="")
                self.assertRegex(result.stderr, LINE)
                self.assertIn("1 rounds", result.stdout)
                self.assertEqual(result.returncode, 0, result)

    def test_attach_until_the_scripts_end(self):
        with self.served("run", "--debug", "127.0.0.1:0", "-e", "N = 8", "sleeper.lua") as (host, line):
            with attach(line) as wire, contextlib.suppress(Closed):
                while True:
                    wire.read()
            self.assertEqual(host.wait(timeout=60), 0)

    def refuses(self, address, why):
        result = cqlua("run", "--debug", address, self.script("sleep.lua", SLEEPER))
        self.assertIn(why, result.stderr)
        self.assertEqual(result.returncode, 1)

    def test_attach_at_this_machine_alone(self):
        self.refuses("0.0.0.0:5005", "is refused with code 103")

    def test_attach_at_a_port_in_use(self):
        with socket.socket() as taken:
            taken.bind(("127.0.0.1", 0))
            taken.listen()
            self.refuses(f"127.0.0.1:{taken.getsockname()[1]}", "Address already in use")

    def test_attach_without_a_service(self):
        result = cqlua("run", "--no-service", "--debug", "127.0.0.1:0", self.script("sleep.lua", SLEEPER))
        self.assertEqual(result.returncode, 2)
