"""How sessions begin and end: attach, launch, disconnect, and what is refused."""
import contextlib
import os
import pathlib
import socket
import tempfile
import threading
import time

import places
from case import Case
from places import script

CALLS = script("calls")


class Attach(Case):
    def test_a_program_that_runs(self):
        with self.attached("calls.lua", "waits.lua", suspended=False) as client:
            self.assertEqual(set(client.threads()), {"calls.lua", "waits.lua"})
            self.assertEqual(client.wait("process")["startMethod"], "attach")

    def test_a_program_that_waits_begins_after_the_configuration(self):
        with self.attached("calls.lua", breakpoints=[(CALLS, [2])]) as client:
            thread = client.wait("stopped", reason="breakpoint")["threadId"]
            self.assertEqual(client.where(thread), ("main", 2))

    def test_stops_where_the_program_begins(self):
        with self.attached("calls.lua", stopOnEntry=True) as client:
            thread = client.wait("stopped", reason="entry")["threadId"]
            self.assertEqual(client.where(thread), ("main", 2))
            client.ask("next", threadId=thread)
            client.wait("stopped", reason="step")
            self.assertEqual(client.where(thread), ("main", 7))

    def test_where_nobody_listens(self):
        with socket.socket() as free:
            free.bind(("127.0.0.1", 0))
            client = self.client()
            client.initialize()
            self.refuses("no debugger can attach at 127.0.0.1", client.ask_oddly, "attach", {"port": free.getsockname()[1]})

    def test_where_another_debugger_is(self):
        """The second is refused, and may attach once the first has gone."""
        first, second = self.client(), self.client()
        with places.running("waits.lua", suspended=False) as host:
            first.begin("attach", port=host.port)
            second.initialize()
            self.refuses("another debugger", second.ask_oddly, "attach", {"port": host.port})
            self.refuses("there is a program already", first.ask_oddly, "attach", {"port": host.port})
            first.ask("disconnect")
            self.ends_well(first)
            end = time.monotonic() + 30
            while time.monotonic() < end:
                try:
                    second.ask_oddly("attach", {"port": host.port})
                    break
                except Exception:
                    time.sleep(0.05)
            second.ask("configurationDone")
            self.assertEqual(set(second.threads()), {"waits.lua"})

    def test_what_needs_a_program(self):
        client = self.client()
        client.initialize()
        for command, arguments in (("pause", {"threadId": 1}), ("stackTrace", {"threadId": 1}), ("evaluate", {"expression": "1"}),
                                   ("continue", {"threadId": 1}), ("next", {"threadId": 1}), ("loadedSources", {})):
            with self.subTest(command):
                self.refuses("no program is attached", client.ask, command, **arguments)
        for command in "modules", "setVariable", "exceptionInfo":
            self.refuses(f"{command} is not supported", client.ask_oddly, command, {})
        self.refuses("pathFormat", client.initialize, pathFormat="uri")


class Between:
    """Between a debugger and a runtime. All goes through, and `say` puts in what the runtime does not say."""

    def __init__(self, port):
        self.listener = socket.create_server(("127.0.0.1", 0))
        self.port = self.listener.getsockname()[1]
        self.runtime = socket.create_connection(("127.0.0.1", port))
        threading.Thread(target=self._run, daemon=True).start()

    def _run(self):
        self.debugger = self.listener.accept()[0]
        threading.Thread(target=self._pass_on, args=(self.debugger, self.runtime), daemon=True).start()
        self._pass_on(self.runtime, self.debugger)

    @staticmethod
    def _pass_on(source, target):
        with contextlib.suppress(OSError):
            while data := source.recv(65536):
                target.sendall(data)

    def say(self, packet):
        self.debugger.sendall(packet)

    def end(self):
        for one in self.listener, self.runtime, self.debugger:
            one.close()


class End(Case):
    def program_ends(self):
        client = self.client()
        with places.running("waits.lua", suspended=False) as host:
            client.begin("attach", port=host.port)
        client.wait("terminated")
        self.assertEqual(client.threads(), {})
        client.ask("disconnect")

    def test_the_program_ends(self):
        self.program_ends()

    def test_the_last_thread_is_told_to_have_ended(self):
        with places.running("values.lua") as host:
            client = self.client()
            client.begin("attach", port=host.port)
            client.wait("thread", reason="exited")
            client.wait("terminated")
            client.ask("disconnect")

    def test_the_runtime_says_that_it_ends(self):
        """That is enough, although the connection stays open."""
        with places.running("waits.lua", suspended=False) as host:
            between, client = Between(host.port), self.client()
            self.addCleanup(between.end)
            client.begin("attach", port=between.port)
            between.say(bytes.fromhex("00000015 00000000 00 40 64 00 00000001 63 00000000"))
            client.wait("terminated")
            self.assertEqual(client.threads(), {})
            client.ask("disconnect")

    def test_disconnect_resumes_what_was_stopped(self):
        """The next client finds the thread running, and stops it again."""
        with places.running("calls.lua") as host:
            for _ in range(2):
                client = self.client()
                self.wait_until_attached(client, host.port)
                thread = client.wait("stopped", reason="breakpoint")["threadId"]
                self.assertEqual(client.where(thread), ("main", 18))
                self.refuses("cannot be ended", client.ask, "disconnect", terminateDebuggee=True)
                self.refuses("resumes its threads", client.ask, "disconnect", suspendDebuggee=True)
                client.ask("disconnect", terminateDebuggee=False)
                client.wait("terminated")
                self.ends_well(client)
            self.assertTrue(host.runs())

    def wait_until_attached(self, client, port):
        client.initialize()
        end = time.monotonic() + 30
        while True:
            try:
                client.ask_oddly("attach", {"port": port})
                break
            except Exception:
                self.assertLess(time.monotonic(), end)
                time.sleep(0.05)
        client.set_lines(CALLS, 18)
        client.ask("configurationDone")

    def test_a_client_that_goes_without_a_word(self):
        with places.running("calls.lua") as host:
            client = self.client()
            self.wait_until_attached(client, host.port)
            client.wait("stopped")
            self.assertEqual(client.end(), 0)
            second = self.client()
            self.wait_until_attached(second, host.port)
            second.wait("stopped")
            second.ask("disconnect")


class Launch(Case):
    def launch(self, *paths, breakpoints=(), **more):
        client = self.client()
        client.begin("launch", breakpoints, program=list(paths), cwd=str(places.SCRIPTS), runtimeExecutable=str(places.cqlua), **more)
        return client

    def outputs(self, client, category):
        """What the program wrote, once it has ended."""
        return "".join(event["output"] for event in client.events_of("output") if event["category"] == category)

    def test_output_and_status(self):
        client = self.launch("ends.lua", breakpoints=[(script("ends"), [3])])
        thread = client.wait("stopped", reason="breakpoint")["threadId"]
        self.assertEqual(client.where(thread), ("main", 3))
        client.go(thread)
        self.assertEqual(client.wait("exited")["exitCode"], 3)
        client.wait("terminated")
        self.assertEqual(self.outputs(client, "stdout"), "to stdout é\n")
        self.assertTrue(self.outputs(client, "stderr").endswith("\nto stderr\n"))
        self.assertEqual(client.wait("process")["startMethod"], "launch")
        client.ask("disconnect")

    def test_options_and_environment(self):
        """A statement is run first, which prints a variable of the environment; another one is taken out."""
        os.environ["CQ_OUT"] = "not taken out"
        self.addCleanup(os.environ.pop, "CQ_OUT")
        client = self.launch("ends.lua", runtimeArgs=["-e", "io.write(os.getenv('CQ_IN'), tostring(os.getenv('CQ_OUT')), '\\n')"],
                             env={"CQ_IN": "in ", "CQ_OUT": None})
        client.wait("terminated")
        self.assertTrue(self.outputs(client, "stdout").startswith("in nil\n"))
        client.ask("disconnect")

    def test_without_a_debugger(self):
        client = self.launch("ends.lua", breakpoints=[(script("ends"), [2])], noDebug=True)
        self.assertEqual(client.wait("exited")["exitCode"], 3)
        client.wait("terminated")
        self.assertEqual(self.outputs(client, "stderr"), "to stderr\n")
        client.ask("disconnect")

    def test_entry_and_terminate(self):
        client = self.launch("calls.lua", "waits.lua", stopOnEntry=True)
        thread = client.wait("stopped", reason="entry")["threadId"]
        self.assertEqual(client.where(thread)[0], "main")
        self.assertEqual(set(client.threads()), {"calls.lua", "waits.lua"})
        client.go(thread)
        time.sleep(0.3)
        client.ask("threads")
        self.assertEqual(client.events_of("stopped"), [])  # where the other script begins
        client.ask("terminate")
        self.assertEqual(client.wait("exited")["exitCode"], -15)
        client.wait("terminated")
        client.ask("disconnect")

    def test_disconnect_ends_the_program(self):
        client = self.launch("waits.lua")
        number = client.wait("process")["systemProcessId"]
        self.assertTrue(pathlib.Path(f"/proc/{number}").exists())
        client.ask("disconnect")
        self.ends_well(client)
        self.assertFalse(pathlib.Path(f"/proc/{number}").exists())

    def test_the_client_goes_or_ends_the_adapter(self):
        """The program ends with the adapter."""
        for end in (lambda client: client.process.stdin.close()), (lambda client: client.process.terminate()):
            client = self.launch("waits.lua")
            number = client.wait("process")["systemProcessId"]
            end(client)
            self.assertEqual(client.process.wait(60), 0)
            self.assertFalse(pathlib.Path(f"/proc/{number}").exists())
            client.process.stdin.close()

    def test_disconnect_lets_the_program_run(self):
        """It writes much more, and does not end for it."""
        with tempfile.TemporaryDirectory() as room:
            made = pathlib.Path(room, "made")
            client = self.launch("outlives.lua", env={"CQ_MADE": str(made)})
            client.wait("output", category="stdout")
            client.ask("disconnect", terminateDebuggee=False)
            self.ends_well(client)
            self.assertFalse(made.exists())
            end = time.monotonic() + 60
            while not made.exists() and time.monotonic() < end:
                time.sleep(0.05)
            self.assertTrue(made.exists())

    def test_programs_that_do_not_start(self):
        for text, more in (("No such file", {"runtimeExecutable": "/nowhere/cqlua"}), ("does not say", {"runtimeArgs": ["--nonsense"]}),
                           ("No such file", {"cwd": "/nowhere"})):
            with self.subTest(more=more):
                client = self.client()
                client.initialize()
                arguments = {"program": "ends.lua", "cwd": str(places.SCRIPTS), "runtimeExecutable": str(places.cqlua), **more}
                self.refuses(text, client.ask_oddly, "launch", arguments)
                self.refuses("no program is attached", client.ask, "pause", threadId=1)
                client.begin("launch", program="ends.lua", cwd=str(places.SCRIPTS), runtimeExecutable=str(places.cqlua))
                self.assertEqual(client.wait("exited")["exitCode"], 3)
                client.ask("disconnect")

    def test_a_program_at_which_no_debugger_can_attach(self):
        """It does not stay when the launch has failed, even if it ignores that it is to end."""
        for first in "", "trap '' TERM\n":
            with self.subTest(first), tempfile.TemporaryDirectory() as room:
                host, made = pathlib.Path(room, "host"), pathlib.Path(room, "made")
                host.write_text(f"#!/bin/sh\n{first}echo $$ > $CQ_MADE\necho 'a debugger may attach at 127.0.0.1:1' >&2\nexec sleep 600\n")
                host.chmod(0o755)
                client = self.client()
                client.initialize()
                arguments = {"program": "ends.lua", "runtimeExecutable": str(host), "env": {"CQ_MADE": str(made)}}
                self.refuses("no debugger can attach at 127.0.0.1:1", client.ask_oddly, "launch", arguments)
                self.assertFalse(pathlib.Path(f"/proc/{int(made.read_text())}").exists())
