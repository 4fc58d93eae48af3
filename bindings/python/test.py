#!/usr/bin/env python3
"""Tests of the package cebdyraq against a small runtime in C.

    test.py LIBRARY [INCLUDE]

LIBRARY is libcebdyraq.a or libcebdyraq.so, or libti_capi.a, the proved half alone. INCLUDE is the folder of the headers, otherwise
c/. CC names the C compiler, otherwise cc. It writes TAP by ci/tap.py, which Python finds in the repository or by PYTHONPATH.
"""

import ctypes
import errno
import json
import os
import pathlib
import shlex
import socket
import struct
import subprocess
import sys
import tempfile
import threading
import time
import unittest
import urllib.request

HERE = pathlib.Path(__file__).resolve().parent
sys.path.append(str(HERE.parent.parent / "ci"))

import cebdyraq
import lib
import tap
from cebdyraq import Capability, Code, Environment, Error, EventKind, Frame, LineEntry, MethodName, StackInfo

C = HERE.parent.parent / "c"


def build(library, include, folder):
    made = pathlib.Path(folder) / "libruntime.so"
    parts = list(C.glob("*.c")) if library.name == "libti_capi.a" else []
    linked = [str(library), f"-Wl,-rpath,{library.parent}"]
    if parts:
        library = lib.with_calls_renamed(library, pathlib.Path(folder))
    if library.suffix == ".a":
        linked = ["-Wl,--whole-archive", str(library), "-Wl,--no-whole-archive", *map(str, parts)]
    subprocess.run([*shlex.split(os.environ.get("CC", "cc")), "-shared", "-fPIC", "-O2", "-std=c11", f"-I{include}", "-o", str(made),
                    str(HERE / "runtime.c"), *linked, "-lpthread"], check=True)
    return made


class Told:
    """Variables of method 1 and of all frames. Method 0 has none by a mistake."""

    def __init__(self):
        self.stands, self.frames = False, set()

    def of_method(self, method):
        if method != 1:
            raise Error(Code.NOT_AVAILABLE)
        return [cebdyraq.Variable(3, "n\u00e4me", 8, 2), cebdyraq.Variable(0, "m", 9, 1)]

    def of_frame(self, thread, depth):
        self.frames.add((thread, depth))
        if not self.stands:
            raise Error(Code.THREAD_NOT_SUSPENDED)
        return {0: None, 1: True, 2: -2, 3: 1.5, 4: 2**64, 5: [], 6: ["k = 1", b"l = 2"]}


def text(words):
    return struct.pack(">i", len(words.encode())) + words.encode()


def ask(debugger, command_set, command, data):
    """The error and the data of a debugger's reply."""
    debugger.sendall(struct.pack(">IIBBB", 11 + len(data), 7, 0, command_set, command) + data)
    length, _, _, error = struct.unpack(">IIBH", debugger.recv(11, socket.MSG_WAITALL))
    return error, debugger.recv(length - 11, socket.MSG_WAITALL) if length > 11 else b""


class WithRuntime(unittest.TestCase):
    library = None

    def setUp(self):
        library = self.library
        library.runtime_service.restype = ctypes.c_void_p
        library.runtime_signal.restype = ctypes.c_void_p
        library.runtime_end.restype = ctypes.c_uint32
        library.runtime_pops.restype = ctypes.c_uint64
        library.runtime_begin()
        self.env = self.attach()
        self.env.meet()
        [self.thread] = self.env.get_all_threads()

    def attach(self):
        return Environment(self.library, self.library.runtime_service(), self.library.runtime_signal())

    def tearDown(self):
        self.env.dispose()
        self.assertEqual(self.library.runtime_end(), 0)

    def assert_code(self, code, call, *arguments, **more):
        with self.assertRaises(Error) as caught:
            call(*arguments, **more)
        self.assertEqual(caught.exception.code, code)

    def test_a_running_thread(self):
        env, thread = self.env, self.thread
        self.assertEqual(thread, 0)
        self.assertEqual(env.get_thread_info(thread), cebdyraq.ThreadInfo("m\u00e4in", 7))
        self.assertEqual(env.get_thread_state(thread), 0x5)
        self.assertEqual(env.get_frame_count(thread), 2)
        self.assertEqual(env.get_frame_location(thread, 1), Frame(1, 10))
        self.assertEqual(env.get_stack_trace(thread), [Frame(2, 0), Frame(1, 10)])
        self.assertEqual(env.get_stack_trace(thread, -1, 5), [Frame(1, 10)])
        self.assert_code(Code.NO_MORE_FRAMES, env.get_frame_location, thread, 2)
        self.assert_code(Code.ILLEGAL_ARGUMENT, env.get_stack_trace, thread, 2, 1)
        self.assert_code(Code.ILLEGAL_ARGUMENT, env.get_stack_trace, thread, 0, -1)
        self.assert_code(Code.INVALID_THREAD, env.get_frame_count, 1)
        with self.assertRaises(ctypes.ArgumentError):
            env.get_frame_count(2**32)

    def test_codes_in_words(self):
        self.assertEqual(str(Error(15)), "15 THREAD_NOT_ALIVE: the thread has not started, or has ended")
        self.assertEqual(Code.TIMED_OUT.text, "the time is over")
        for code in Code:
            self.assertEqual(self.library.cq_code_name(code), f"CQ_{code.name}".encode())
            self.assertEqual(self.library.cq_code_text(code), code.text.encode())
        self.assertEqual(self.library.cq_code_name(999), b"unknown")

    def test_a_native_thread(self):
        self.library.runtime_go_native()
        self.assertEqual(self.env.get_thread_state(self.thread), 0x400005)
        self.assertEqual(self.env.get_stack_trace(self.thread, 0, 1), [Frame(3, -1)])

    def test_classes(self):
        env = self.env
        self.assertEqual(env.get_loaded_classes(), [0, 1])
        self.assertEqual(env.get_class_signature(0), "Lfib;")
        self.assertEqual(env.get_source_file_name(0), "fib.java")
        self.assertEqual(env.get_class_methods(0), [0, 1, 2, 3])
        self.assertEqual(env.get_method_name(0), MethodName("fib", "(I)I", 3))
        self.assertEqual(env.get_method_name(1), MethodName("m\u00e4in", "", 8))
        self.assertEqual([env.get_method_declaring_class(method) for method in (3, 4)], [0, 1])
        self.assertEqual([env.is_method_native(method) for method in range(4)], [False, False, True, False])
        self.assertEqual(env.get_line_number_table(0), [LineEntry(0, 3), LineEntry(4, 5)])
        self.assertIsNone(env.get_line_number_table(1))
        self.assert_code(Code.NATIVE_METHOD, env.get_line_number_table, 2)
        self.assert_code(Code.ABSENT_INFORMATION, env.get_line_number_table, 3)
        self.assert_code(Code.ABSENT_INFORMATION, env.get_source_file_name, 1)

    def test_long_texts_and_lists_are_whole(self):
        long = "0123456789" * 7
        self.assertEqual(self.env.get_class_methods(1), list(range(4, 104)))
        self.assertEqual(self.env.get_method_name(103), MethodName(long, long, 99))

    def test_unknown_numbers_are_refused(self):
        env = self.env
        for call in (env.get_class_signature, env.get_source_file_name, env.get_class_methods):
            self.assert_code(Code.INVALID_CLASS, call, 2)
        for call in (env.get_method_name, env.get_method_declaring_class, env.is_method_native, env.get_line_number_table):
            self.assert_code(Code.INVALID_METHODID, call, 104)
        with self.assertRaises(ctypes.ArgumentError):
            env.get_class_signature(-1)

    def test_stops(self):
        env, thread = self.env, self.thread
        self.assert_code(Code.INVALID_METHODID, env.set_breakpoint, 104, 8)
        self.assert_code(Code.INVALID_LOCATION, env.set_breakpoint, 2, 8)
        env.set_breakpoint(1, 8)
        self.assert_code(Code.DUPLICATE, env.set_breakpoint, 1, 8)
        self.assert_code(Code.NOT_FOUND, env.clear_breakpoint, 1, 9)
        self.assert_code(Code.TIMED_OUT, env.next_stop, timeout=0.05)
        env.set_stop_notification_mode(True, cebdyraq.StopKind.BREAKPOINT)
        stop = cebdyraq.Stop(thread, 1, 8, cebdyraq.StopReason.BREAKPOINT)
        self.assertEqual(env.next_stop(), stop)
        # The stop is told before the thread has blocked. The count waits until it has.
        self.assertEqual(env.get_frame_count(thread), 2)
        self.assertEqual(env.get_thread_state(thread), 0x291)
        env.clear_breakpoint(1, 8)
        env.set_stop_notification_mode(True, cebdyraq.StopKind.SINGLE_STEP, thread)
        env.end_stop(thread)
        self.assertEqual(env.next_stop(), stop._replace(why=cebdyraq.StopReason.SINGLE_STEP))
        env.set_stop_notification_mode(False, cebdyraq.StopKind.SINGLE_STEP, thread)
        env.notify_frame_pop(thread, 1)
        self.assert_code(Code.DUPLICATE, env.notify_frame_pop, thread, 1)
        env.end_stop(thread)
        self.assert_code(Code.THREAD_NOT_SUSPENDED, env.end_stop, thread)

    def test_all_stacks(self):
        env, thread = self.env, self.thread
        whole = StackInfo(thread, 0x5, [Frame(2, 0), Frame(1, 10)])
        self.assertEqual(env.get_all_stack_traces(), [whole])
        self.assertEqual(env.get_all_stack_traces(1, timeout=60), [StackInfo(thread, 0x5, [Frame(2, 0)])])
        self.assertEqual(env.get_thread_list_stack_traces([thread, thread], 2), [whole, whole])
        self.assertEqual(env.get_thread_list_stack_traces([]), [])
        self.assert_code(Code.INVALID_THREAD, env.get_thread_list_stack_traces, [thread, 1])
        self.assert_code(Code.ILLEGAL_ARGUMENT, env.get_all_stack_traces, -1)
        with self.assertRaises(OverflowError):
            env.get_thread_list_stack_traces([2**32])
        self.library.runtime_go_native()
        frames = [Frame(3, -1), Frame(2, 0), Frame(1, 10)]
        self.assertEqual(env.get_all_stack_traces(timeout=0), [StackInfo(thread, 0x400005, frames)])
        with self.attach() as other:
            self.assertEqual(other.get_all_stack_traces(), [])

    def test_stacks_by_two_python_threads(self):
        """Each has what its own trace has gathered."""
        failures = []

        def trace(max_count):
            for _ in range(200):
                [info] = self.env.get_all_stack_traces(max_count)
                if len(info.frames) != max_count:
                    failures.append(info)

        tracers = [threading.Thread(target=trace, args=(max_count,)) for max_count in (1, 2)]
        for tracer in tracers:
            tracer.start()
        for tracer in tracers:
            tracer.join()
        self.assertEqual(failures, [])

    def test_suspend_and_pop(self):
        env, thread = self.env, self.thread
        self.assert_code(Code.MUST_POSSESS_CAPABILITY, env.suspend_thread, thread)
        self.assertEqual(env.get_potential_capabilities(), Capability.SUSPEND | Capability.POP_FRAME)
        env.add_capabilities(Capability.SUSPEND | Capability.POP_FRAME)
        self.assertEqual(env.suspend_thread_list([thread, thread, 7]),
                         [Code.OK, Code.THREAD_SUSPENDED, Code.INVALID_THREAD])
        self.assertEqual(env.get_thread_state(thread), 0x100005)
        env.pop_frame(thread)
        self.assertEqual(env.get_stack_trace(thread), [Frame(1, 10)])
        self.assert_code(Code.NO_MORE_FRAMES, env.pop_frame, thread)
        self.assertEqual(env.resume_thread_list([thread]), [Code.OK])
        self.assert_code(Code.THREAD_NOT_SUSPENDED, env.resume_thread, thread)
        env.suspend_thread(thread, timeout=60)
        env.resume_thread(thread)
        self.library.runtime_go_native()
        self.assertEqual(self.library.runtime_pops(), 1)
        self.assertEqual(env.get_stack_trace(thread), [Frame(3, -1), Frame(1, 10)])
        env.relinquish_capabilities(Capability.POP_FRAME)
        self.assertEqual(env.get_capabilities(), Capability.SUSPEND)
        self.assert_code(Code.NOT_AVAILABLE, env.add_capabilities, 4)

    def test_words(self):
        env, thread = self.env, self.thread
        self.assertEqual(env.get_thread_local_storage(thread), 0)
        env.set_thread_local_storage(thread, 2**64 - 1)
        self.assertEqual(env.get_thread_local_storage(thread), 2**64 - 1)
        self.assertEqual(env.get_environment_local_storage(), 0)
        env.set_environment_local_storage(2**63)
        self.assertEqual(env.get_environment_local_storage(), 2**63)

    def test_posts(self):
        env, thread = self.env, self.thread
        posted = [env.post_frame_count(thread), env.post_stack_trace(thread, 0, 1), env.post_frame_location(thread, 1)]
        self.assertEqual([call.collect() for call in posted], [2, [Frame(2, 0)], Frame(1, 10)])
        self.assertEqual(env.out_at(thread), 0)
        given_up = env.post_frame_count(thread)
        given_up.cancel()
        while env.out_at(thread) > 0:
            env.discard(thread)
        self.assert_code(Code.MUST_POSSESS_CAPABILITY, env.post_suspend_thread, thread)
        self.assert_code(Code.MUST_POSSESS_CAPABILITY, env.ensure_resumed, thread)
        self.assert_code(Code.MUST_POSSESS_CAPABILITY, env.post_pop_frame, thread)

    def test_cancelled(self):
        env, thread = self.env, self.thread
        self.assertIsNone(env.collect_cancelled(thread))
        calls = []
        while not calls or env.out_at(thread) < 2:
            for call in calls:
                call.cancel()
            while env.collect_cancelled(thread, timeout=60):
                pass
            calls = [env.post_frame_location(thread, 9), env.post_stack_trace(thread, 0, 1)]
        for call in calls:
            call.cancel()
        for call, code in zip(calls, (Code.NO_MORE_FRAMES, Code.OK)):
            told = env.collect_cancelled(thread, calls, timeout=60)
            self.assertEqual(told.code, code)
            self.assertIs(told.call, call)
        self.assert_code(Code.NO_MORE_FRAMES, calls[0].collect)
        self.assertEqual(calls[1].collect(), [Frame(2, 0)])
        self.assertIsNone(env.collect_cancelled(thread))

    def test_any(self):
        env, thread = self.env, self.thread
        posted = [env.post_frame_location(thread, 9), env.post_stack_trace(thread, 0, 1)]
        first = env.wait_any(posted, timeout=60)
        other = posted[0] if first is posted[1] else posted[1]
        self.assertIs(env.wait_any([other], timeout=60), other)
        self.assert_code(Code.NO_MORE_FRAMES, posted[0].collect)
        self.assertEqual(posted[1].collect(), [Frame(2, 0)])
        self.assertIs(env.wait_any(posted[1:], timeout=0), posted[1])
        self.assert_code(Code.TIMED_OUT, env.wait_any, [], timeout=0)
        with self.attach():
            self.assertIsNone(env.wait_any([], timeout=60))
        env.meet()
        self.assert_code(Code.TIMED_OUT, env.wait_any, [], timeout=0)

    def test_two_environments(self):
        with self.attach() as other:
            self.assertTrue(self.env.has_news())
            self.assert_code(Code.FULL, self.attach)
            self.assert_code(Code.INVALID_THREAD, other.get_thread_state, self.thread)
            other.meet()
            self.assertTrue(self.env.has_news())
            self.env.meet()
            self.assertFalse(other.has_news())
            other.set_thread_local_storage(self.thread, 5)
            self.assertEqual(self.env.get_thread_local_storage(self.thread), 0)
        self.assert_code(Code.MISUSED, other.meet)

    def test_events(self):
        env = self.env
        env.set_event_notification_mode(True, EventKind.THREAD_DETACHED)
        began = time.monotonic()
        self.assert_code(Code.TIMED_OUT, env.next_event, timeout=0.05)
        self.assertGreaterEqual(time.monotonic() - began, 0.05)
        self.library.runtime_go_native()
        ender = threading.Timer(0.1, self.end_and_begin)
        ender.start()
        event = env.next_event()
        ender.join()
        self.assertEqual(self.failures, 0)
        self.assertEqual(event, cebdyraq.Event(EventKind.THREAD_DETACHED, 0, 0))
        self.assertTrue(env.let_go(0))
        self.assertFalse(env.let_go(0))
        self.assert_code(Code.THREAD_NOT_ALIVE, env.get_thread_state, 0)
        self.assert_code(Code.THREAD_NOT_ALIVE, env.get_thread_info, 0)

    def test_lets_go_of_all(self):
        self.library.runtime_go_native()
        self.end_and_begin()
        self.assertEqual(self.failures, 0)
        self.assertEqual(self.env.get_thread_state(0), 0x2)
        self.env.let_go_of_all()
        self.assertFalse(self.env.let_go(0))
        self.assert_code(Code.THREAD_NOT_ALIVE, self.env.get_thread_state, 0)

    def test_what_is_served(self):
        service, signal = self.library.runtime_service(), self.library.runtime_signal()
        with cebdyraq.Server(self.library, service, signal, "127.0.0.1:0", "a test") as server:
            address = f"http://127.0.0.1:{server.port}"
            with urllib.request.urlopen(address + "/threads.json", timeout=10) as answer:
                [thread] = json.load(answer)["threads"]
            self.assertEqual((thread["number"], thread["name"], thread["priority"]), (0, "m\u00e4in", 7))
            self.assertEqual([frame["method"] for frame in thread["frames"]], ["sleep", "m\u00e4in"])
            with self.assertRaises(OSError) as caught:
                cebdyraq.Server(self.library, service, signal, f"127.0.0.1:{server.port}", "a test")
            self.assertEqual(caught.exception.errno, errno.EADDRINUSE)
        with self.assertRaises(OSError):
            urllib.request.urlopen(address, timeout=10)
        self.assert_code(Code.ILLEGAL_ARGUMENT, cebdyraq.Server, self.library, service, signal, "0.0.0.0:0", "a test")

    def test_what_debuggers_are_told(self):
        service, signal = self.library.runtime_service(), self.library.runtime_signal()
        with cebdyraq.Server(self.library, service, signal, "127.0.0.1:0", "a test", "/src") as server:
            debugger = socket.create_connection(("127.0.0.1", server.port), timeout=10)
            debugger.sendall(b"JDWP-Handshake")
            self.assertEqual(debugger.recv(14, socket.MSG_WAITALL), b"JDWP-Handshake")
        self.assertEqual(debugger.recv(22, socket.MSG_WAITALL).hex(" "), "00 00 00 15 00 00 00 00 00 40 64 00 00 00 00 01 63 00 00 00 00")
        debugger.close()
        self.assert_code(Code.ILLEGAL_ARGUMENT, cebdyraq.Server, self.library, service, signal, "0.0.0.0:0", "a test", "/src")

    def test_threads_wait_for_the_first_debugger(self):
        self.library.runtime_go_native()
        service, signal = self.library.runtime_service(), self.library.runtime_signal()
        with cebdyraq.Server(self.library, service, signal, "127.0.0.1:0", "a test", "/src", starts_suspended=True) as server, \
                socket.create_connection(("127.0.0.1", server.port), timeout=10) as debugger:
            waiter = threading.Thread(target=server.await_resumption)
            waiter.start()
            debugger.sendall(b"JDWP-Handshake")
            self.assertEqual(debugger.recv(14, socket.MSG_WAITALL), b"JDWP-Handshake")
            began = struct.pack(">BiBiQ", 2, 1, 90, 0, 1)
            self.assertEqual(debugger.recv(11 + len(began), socket.MSG_WAITALL)[11:], began)
            self.assertTrue(waiter.is_alive())
            self.assertEqual(ask(debugger, 1, 9, b""), (0, b""))
            waiter.join(timeout=10)
            self.assertFalse(waiter.is_alive())
        with cebdyraq.Server(self.library, service, signal, "127.0.0.1:0", "a test") as server:
            self.assert_code(Code.MISUSED, server.await_resumption)

    def test_classes_are_told_before_their_thread_goes_on(self):
        self.library.runtime_go_native()
        service, signal = self.library.runtime_service(), self.library.runtime_signal()
        with cebdyraq.Server(self.library, service, signal, "127.0.0.1:0", "a test", "/src") as server:
            server.tell_classes()
            with socket.create_connection(("127.0.0.1", server.port), timeout=10) as debugger:
                debugger.sendall(b"JDWP-Handshake")
                self.assertEqual(debugger.recv(14, socket.MSG_WAITALL), b"JDWP-Handshake")
                self.assertEqual(ask(debugger, 15, 1, struct.pack(">BBi", 8, 2, 0)), (0, struct.pack(">i", 1)))
                self.library.runtime_define_late()
                server.tell_classes()
                told = struct.pack(">BiBiQBQi6si", 2, 1, 8, 1, 1, 1, 4 << 32 | 2, 6, b"Llate;", 7)
                self.assertEqual(debugger.recv(11 + len(told), socket.MSG_WAITALL)[11:], told)
                self.assertEqual(ask(debugger, 11, 4, struct.pack(">Q", 1)), (0, struct.pack(">ii", 1, 1)))
                self.assertEqual(ask(debugger, 1, 9, b""), (0, b""))
        with cebdyraq.Server(self.library, service, signal, "127.0.0.1:0", "a test") as server:
            self.assert_code(Code.MISUSED, server.tell_classes)

    def test_variables_that_debuggers_are_told(self):
        self.library.runtime_go_native()
        service, signal = self.library.runtime_service(), self.library.runtime_signal()
        told = Told()
        with cebdyraq.Server(self.library, service, signal, "127.0.0.1:0", "a test", "/src", told) as server, \
                socket.create_connection(("127.0.0.1", server.port), timeout=10) as debugger:
            debugger.sendall(b"JDWP-Handshake")
            self.assertEqual(debugger.recv(14, socket.MSG_WAITALL), b"JDWP-Handshake")
            class_, thread, frame = 4 << 32, 1, 1
            error, data = ask(debugger, 6, 5, struct.pack(">QQ", class_, 6 << 32 | 1))
            rows = [(3, "n\u00e4me", 8, 2), (0, "m", 9, 1)]
            wanted = b"".join(struct.pack(">Q", first) + text(name) + text("Ljava/lang/Object;") + text("") +
                              struct.pack(">ii", count, slot) for slot, name, first, count in rows)
            self.assertEqual((error, data), (0, struct.pack(">ii", 0, len(rows)) + wanted))
            self.assertEqual(ask(debugger, 6, 5, struct.pack(">QQ", class_, 6 << 32)), (101, b""))
            self.assertEqual(ask(debugger, 11, 2, struct.pack(">Q", thread)), (0, b""))
            slots = struct.pack(">QQi", thread, frame, 5) + b"".join(struct.pack(">iB", slot, ord("L")) for slot in range(5))
            self.assertEqual(ask(debugger, 16, 1, slots), (13, b""))
            told.stands = True
            wanted = struct.pack(">icQcBcqcd", 5, b"L", 0, b"Z", 1, b"J", -2, b"D", 1.5)
            error, data = ask(debugger, 16, 1, slots)
            self.assertEqual((error, data[:-9], data[-9:-8]), (0, wanted, b"s"))
            self.assertEqual(ask(debugger, 10, 1, data[-8:]), (0, text("18446744073709551616")))
            for slot, entries in (5, []), (6, ["k = 1", "l = 2"]):
                error, data = ask(debugger, 16, 1, struct.pack(">QQiiB", thread, frame, 1, slot, ord("[")))
                self.assertEqual((error, data[:5]), (0, b"\0\0\0\1["))
                self.assertEqual(ask(debugger, 13, 1, data[5:]), (0, struct.pack(">i", len(entries))))
            self.assertEqual(told.frames, {(0, 1)})

    def end_and_begin(self):
        """The environment keeps the first service alive. The runtime begins again with another."""
        self.failures = self.library.runtime_end()
        self.library.runtime_begin()


if __name__ == "__main__":
    if len(sys.argv) < 2:
        sys.exit(__doc__)
    with tempfile.TemporaryDirectory() as temporary:
        library = pathlib.Path(sys.argv[1]).resolve()
        include = pathlib.Path(sys.argv[2]).resolve() if sys.argv[2:] else C
        WithRuntime.library = cebdyraq.load(build(library, include, temporary))
        sys.exit(tap.run(unittest.defaultTestLoader.loadTestsFromName("__main__")))
