"""`Target` at a runtime that is made up: whatever comes in whatever order, a thread that counts as stopped is suspended once, and each other
thread not at all."""
import random
import unittest

from cq_dap import jdwp
from cq_dap.target import Target

STOPS = (jdwp.ALL, jdwp.EVENT_THREAD)


class Runtime:
    """The suspensions of threads, and the events that were told and not read yet. After an event that suspended all threads no further
    one is told until a request to resume all."""

    def __init__(self, threads):
        self.counts = dict.fromkeys(threads, 0)
        self.waiting, self.told, self.is_closed = [], [], False
        self.last = 0

    def request(self, *_):
        self.last += 1
        return self.last

    def clear(self, *_):
        pass

    def classes(self):
        return []

    def threads(self):
        return list(self.counts)

    def suspensions(self, threads):
        return {thread: self.counts[thread] for thread in threads}

    def suspend(self, thread):
        self.counts[thread] += 1

    def resume(self, threads):
        for thread in threads:
            self.counts[thread] = max(0, self.counts[thread] - 1)

    def suspend_all(self):
        for thread in self.counts:
            self.suspend(thread)

    def resume_all(self):
        self.resume(self.counts)
        self.is_closed = False
        self.tell()

    def reach(self, policy, thread):
        """A thread that runs stops by itself."""
        if not self.counts[thread]:
            self.waiting.append((policy, thread))
            self.tell()

    def tell(self):
        while self.waiting and not self.is_closed:
            policy, thread = self.waiting.pop(0)
            self.told.append((policy, thread))
            if policy == jdwp.ALL:
                self.suspend_all()
            else:
                self.suspend(thread)
            self.is_closed = policy == jdwp.ALL


class Suspensions(unittest.TestCase):
    def read(self, target, runtime, is_due):
        """An event is worked on as a session does it."""
        policy, thread = runtime.told.pop(0)
        held = target.hold(policy, thread)
        if not is_due:
            target.release(held)
        elif policy != jdwp.ALL:
            target.pause(thread)

    def act(self, target, runtime, chance):
        """Something that may come next."""
        thread = chance.choice(runtime.threads())
        stopped = sorted(target.stopped)
        what = chance.randrange(6)
        if what == 0:
            target.pause(thread)
        elif what == 1 and stopped:
            target.go_on(chance.choice(stopped), not target.stops_all or chance.random() < 0.5)
        elif what == 2 and stopped:
            target.step(chance.choice(stopped), jdwp.OVER, not target.stops_all or chance.random() < 0.5)
        elif what == 3 and runtime.told:
            self.read(target, runtime, chance.random() < 0.5)
        else:
            runtime.reach(chance.choice(STOPS if target.stops_all else STOPS[1:]), thread)

    def test_any_order(self):
        for stops_all in True, False:
            stops = 0
            for seed in range(500):
                chance, runtime = random.Random(seed), Runtime(range(1, 4))
                target = Target(runtime, stops_all)
                for _ in range(40):
                    self.act(target, runtime, chance)
                while runtime.told:
                    self.read(target, runtime, chance.random() < 0.5)
                wanted = {thread: int(thread in target.stopped) for thread in runtime.threads()}
                self.assertEqual(runtime.counts, wanted, f"seed {seed}, stops_all {stops_all}")
                self.assertFalse(runtime.is_closed)
                stops += len(target.stopped)
            self.assertGreater(stops, 300)

    def test_a_thread_that_starts_after_the_stop(self):
        """It is stopped as its start is told, and not before."""
        runtime = Runtime([1, 2])
        target = Target(runtime, True)
        runtime.reach(jdwp.ALL, 1)
        runtime.counts[3] = 0
        self.read(target, runtime, True)
        self.assertEqual((target.stopped, runtime.counts), ({1, 2}, {1: 1, 2: 1, 3: 0}))
        self.assertTrue(target.started(3))
        self.assertEqual((target.stopped, runtime.counts), ({1, 2, 3}, {1: 1, 2: 1, 3: 1}))
        target.go_on(1, False)
        self.assertFalse(target.started(4))
        self.assertEqual((target.stopped, runtime.counts), (set(), {1: 0, 2: 0, 3: 0}))

    def test_a_thread_that_starts_before_the_stop_is_told(self):
        """It is suspended with the others, and not again as its start is told."""
        runtime = Runtime([1, 2])
        target = Target(runtime, True)
        runtime.counts[3] = 0
        runtime.reach(jdwp.ALL, 1)
        self.read(target, runtime, True)
        self.assertTrue(target.started(3))
        self.assertEqual((target.stopped, runtime.counts), ({1, 2, 3}, {1: 1, 2: 1, 3: 1}))
