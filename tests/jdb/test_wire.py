"""Packets that no debugger sends. They harm neither the process nor the next debugger."""
import struct
import time
import unittest

import places
from jdwp import Closed, Wire, ids

NOT_IMPLEMENTED, INVALID_EVENT_TYPE, ILLEGAL_ARGUMENT = 99, 102, 103
INVALID_THREAD, INVALID_THREAD_GROUP, THREAD_NOT_SUSPENDED = 10, 11, 13
INVALID_OBJECT, INVALID_CLASS, INVALID_METHODID, INVALID_INDEX, INVALID_LENGTH = 20, 21, 23, 503, 504
THREAD_START = 6
PATIENCE = 60  # seconds
# What ids count from, by their kinds.
GROUP, CLASSES, METHODS = 1 << 33, 2 << 33, 3 << 33
GROUP_CLASS = 9 << 33
NOTHING = 0, (1 << 32) + 1, 10 << 33, 1 << 63, (1 << 64) - 1  # ids of no kind


def event_request(kind, policy, count, modifiers=b""):
    return struct.pack(">BBi", kind, policy, count) + modifiers


class Malformed(unittest.TestCase):
    def setUp(self):
        host = places.scripts("waits", "spins")
        self.host = host.__enter__()
        self.addCleanup(host.__exit__, None, None, None)

    def tearDown(self):
        """The scripts run, none of them is suspended, and another debugger may attach."""
        self.assertTrue(self.host.runs())
        with self.attached() as wire:
            threads, end = wire.threads(2), time.monotonic() + PATIENCE
            self.assertEqual(set(threads), {"waits.lua", "spins.lua"})
            while any(wire.status(thread)[1] for thread in threads.values()):
                self.assertLess(time.monotonic(), end, "a thread stays suspended")

    def attached(self):
        """A debugger, once the one before it has gone."""
        return attach(self.host.port)

    def errors(self, error, *requests):
        """Each of the requests gets this error, and the connection stays."""
        with self.attached() as wire:
            for command_set, command, data in requests:
                with self.subTest(set=command_set, command=command, data=data):
                    self.assertEqual(wire.error_of(command_set, command, data), error)
            wire.version()

    def closes(self, **more):
        """A request with this head closes the connection, and resumes what was suspended."""
        with self.attached() as wire:
            wire.suspend()
            wire.send(1, 1, **more)
            self.assertTrue(wire.is_closed())

    def test_handshake_of_another_protocol(self):
        for bytes_ in b"GET / HTTP/1.1\r\n\r\n", b"JDWP-handshake", b"\0" * 14:
            with self.subTest(bytes=bytes_), Wire(self.host.port, handshake=bytes_) as wire:
                self.assertTrue(wire.is_closed())

    def test_handshake_that_is_cut_off(self):
        with Wire(self.host.port, handshake=b"JDWP-"):
            pass

    def test_lengths_below_a_head(self):
        for length in 0, 1, 10:
            with self.subTest(length=length):
                self.closes(length=length)

    def test_lengths_above_the_bound(self):
        for length in 65537, 1 << 30, (1 << 31) - 1, 1 << 31, (1 << 32) - 1:
            with self.subTest(length=length):
                self.closes(length=length)

    def test_packet_that_is_cut_off(self):
        with self.attached() as wire:
            wire.suspend()
            wire.send(11, 1, ids(1)[:5], length=19)

    def test_too_many_and_too_few_bytes(self):
        self.errors(ILLEGAL_ARGUMENT, (1, 1, b"\0"), (1, 8, b"\0"), (11, 1, ids(1) + b"\0"), (11, 1, ids(1)[:7]),
                    (11, 1, b""), (1, 2, struct.pack(">i", -1)), (1, 2, struct.pack(">I", 1 << 30) + b"L"),
                    (2, 15, b"\0" * 9), (11, 6, ids(1) + b"\0" * 7), (15, 1, b""),
                    (15, 1, event_request(THREAD_START, 0, 0) + b"\0"))

    def test_counts_of_modifiers(self):
        self.errors(ILLEGAL_ARGUMENT, *((15, 1, event_request(THREAD_START, 0, count))
                                        for count in (-1, 1, 65, 1 << 30, -1 << 31)))

    def test_modifiers(self):
        count_of_0, number_14, number_0 = struct.pack(">Bi", 1, 0), b"\x0e", b"\0"
        self.errors(ILLEGAL_ARGUMENT, *((15, 1, event_request(THREAD_START, 0, 1, modifier))
                                        for modifier in (count_of_0, number_14, number_0, b"\x01\0\0")))

    def test_policies(self):
        self.errors(ILLEGAL_ARGUMENT, (15, 1, event_request(THREAD_START, 3, 0)), (15, 1, event_request(THREAD_START, 255, 0)))

    def test_kinds_of_events(self):
        self.errors(NOT_IMPLEMENTED, (15, 1, event_request(20, 0, 0)), (15, 1, event_request(41, 0, 0)))
        self.errors(INVALID_EVENT_TYPE, (15, 1, event_request(77, 0, 0)), (15, 1, event_request(0, 0, 0)))

    def test_commands_that_are_not_served(self):
        self.errors(NOT_IMPLEMENTED, (1, 99, b""), (200, 1, b"abc"), (0, 0, b""), (1, 10, struct.pack(">i", 1)),
                    (1, 18, b"\0" * 100))

    def test_ids_of_other_kinds(self):
        for number in NOTHING:
            self.errors(INVALID_THREAD_GROUP, *((12, command, ids(number)) for command in (1, 2, 3)))
        for number in NOTHING + (CLASSES, METHODS):
            self.errors(INVALID_OBJECT, (9, 1, ids(number)), (9, 9, ids(number)))
        for number in NOTHING + (GROUP, CLASSES, METHODS):
            self.errors(INVALID_THREAD, *((11, command, ids(number)) for command in (1, 2, 3, 4, 5, 7, 12)),
                        (11, 6, ids(number) + b"\0" * 8))
        for number in NOTHING + (1, GROUP, METHODS):
            self.errors(INVALID_CLASS, *((2, command, ids(number)) for command in (1, 2, 3, 7, 9, 10, 13, 14, 15)),
                        (3, 1, ids(number)))

    def test_ids_of_what_is_not_there(self):
        absent = 99999
        self.errors(INVALID_THREAD, *((11, command, ids(absent)) for command in (1, 2, 4)))
        self.errors(THREAD_NOT_SUSPENDED, (11, 7, ids(absent)), (11, 6, ids(absent) + b"\0" * 8))
        self.errors(INVALID_CLASS, *((2, command, ids(CLASSES + absent)) for command in (1, 7, 13, 15)))
        self.errors(INVALID_METHODID, (6, 1, ids(CLASSES, METHODS + absent)), (6, 1, ids(CLASSES, 1)),
                    (6, 4, ids(CLASSES, METHODS + absent)), (6, 4, ids(CLASSES, 1)))

    def test_group_and_its_class(self):
        with self.attached() as wire:
            self.assertEqual(wire.ask(9, 1, ids(GROUP)).data, b"\x01" + ids(GROUP_CLASS))
            self.assertEqual(wire.ask(9, 9, ids(GROUP)).data, b"\0")
            self.assertIn(b"Ljava/lang/ThreadGroup;", wire.ask(2, 13, ids(GROUP_CLASS)).data)

    def test_no_method_is_obsolete(self):
        with self.attached() as wire:
            thread = wire.threads(2)["spins.lua"]
            wire.suspend(thread)
            frame = wire.frames(thread)[-1]
            self.assertEqual(wire.ask(6, 4, ids(frame.class_, frame.method)).data, b"\0")

    def test_objects_that_are_not_needed(self):
        thread = struct.pack(">QI", 1, 1)
        self.errors(ILLEGAL_ARGUMENT, (1, 14, b""), (1, 14, struct.pack(">i", 2) + thread), (1, 14, struct.pack(">i", -1)),
                    (1, 14, struct.pack(">i", 1) + thread[:11]), (1, 14, struct.pack(">i", 0) + b"\0"))
        with self.attached() as wire:
            self.assertEqual(wire.error_of(1, 14, struct.pack(">i", 2) + thread + struct.pack(">QI", GROUP, 7)), 0)
            self.assertEqual(set(wire.threads(2)), {"waits.lua", "spins.lua"})

    def test_frames_that_are_not_there(self):
        """The stack of waits.lua has seven frames once it sleeps."""
        with self.attached() as wire:
            thread = wire.threads(2)["waits.lua"]
            while wire.status(thread)[0] != 2:
                time.sleep(0.01)
            wire.suspend(thread)
            self.assertEqual(len(wire.frames(thread)), 7)
            for start, length, error in ((7, 1, INVALID_INDEX), (8, -1, INVALID_INDEX), (0, 8, INVALID_LENGTH),
                                         (6, 2, INVALID_LENGTH)):
                self.assertEqual(wire.error_of(11, 6, ids(thread) + struct.pack(">ii", start, length)), error)

    def test_frames_of_a_thread_that_runs(self):
        """However often they are asked for in vain, they are there once the thread is suspended."""
        with self.attached() as wire:
            thread = wire.threads(2)["spins.lua"]
            for _ in range(1000):
                self.assertEqual(wire.error_of(11, 7, ids(thread)), THREAD_NOT_SUSPENDED)
            for _ in range(100):
                wire.suspend(thread)
                self.assertGreater(len(wire.frames(thread)), 0)
                wire.resume(thread)

    def test_reply_of_a_debugger_is_passed_over(self):
        with self.attached() as wire:
            wire.send(1, 1, b"whatever", flags=0x80)
            self.assertIn("cqlua", str(wire.version()))

    def test_second_debugger_is_closed_at_once(self):
        with self.attached() as wire:
            with Wire(self.host.port, handshake=b"") as second:
                self.assertTrue(second.is_closed())
            self.assertEqual(set(wire.threads(2)), {"waits.lua", "spins.lua"})

    def test_end_while_all_is_suspended(self):
        """The next debugger finds all resumed."""
        with self.attached() as wire:
            wire.suspend()
            thread = wire.threads(2)["spins.lua"]
            wire.suspend(thread)
            self.assertEqual(wire.status(thread)[1], 1)


class ManyStops(unittest.TestCase):
    """tables.lua, which sleeps in a function with ten tables of a hundred entries."""

    def tables(self, wire, thread):
        """The ids of the tables, and the entries of the last."""
        wire.suspend(thread)
        frame = wire.frames(thread)[1]
        slots = [variable.slot for variable in wire.variables(frame.class_, frame.method) if variable.name in "abcdefghij"]
        wanted = b"".join(struct.pack(">iB", slot, ord("L")) for slot in slots)
        data = wire.ask(16, 1, ids(thread, frame.frame) + struct.pack(">i", len(slots)) + wanted)
        values = data.all(data.items(lambda: (data.take(1), data.number(8))))
        self.assertEqual([tag for tag, _ in values], [b"["] * 10)
        return [number for _, number in values], wire.entries(values[-1][1])

    def test_values_are_kept_until_a_resumption(self):
        """Together they would have no room. An id of the stop before names nothing any more."""
        with places.scripts("tables") as host, attach(host.port) as wire:
            thread, before = wire.threads(1)["tables.lua"], []
            while wire.status(thread)[0] != 2:
                time.sleep(0.01)
            for stop in range(100):
                with self.subTest(stop=stop):
                    tables, entries = self.tables(wire, thread)
                    self.assertEqual(entries[:2], ["1 = 10001", "2 = 10002"])
                    self.assertTrue(set(tables).isdisjoint(before))
                    self.assertEqual({wire.error_of(13, 1, ids(number)) for number in before}, {INVALID_OBJECT} if stop else set())
                    wire.resume(thread)
                    before = tables


    def test_values_are_freed_when_they_are_not_needed(self):
        with places.scripts("tables") as host, attach(host.port) as wire:
            thread = wire.threads(1)["tables.lua"]
            while wire.status(thread)[0] != 2:
                time.sleep(0.01)
            tables, entries = self.tables(wire, thread)
            gone, kept = tables[:5], tables[5:]
            data = struct.pack(">i", len(gone)) + b"".join(struct.pack(">QI", number, 1) for number in gone)
            self.assertEqual(wire.error_of(1, 14, data), 0)
            self.assertEqual({wire.error_of(13, 1, ids(number)) for number in gone}, {INVALID_OBJECT})
            self.assertEqual({wire.error_of(13, 1, ids(number)) for number in kept}, {0})
            self.assertEqual(wire.entries(kept[-1]), entries)


def attach(port):
    """A debugger at this port. As long as the one before it is there, it is closed at once."""
    end = time.monotonic() + PATIENCE
    while True:
        try:
            return Wire(port)
        except (Closed, BrokenPipeError):
            if time.monotonic() > end:
                raise
            time.sleep(0.01)
