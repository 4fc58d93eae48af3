"""A sketch of a walk's threads and agents, by which events are left out. It foretells no answer.

Left out is what no VM can show, and what VMs do otherwise by design. README.md has the reasons, and `differences.py` has walks
of such events.
"""

import dataclasses

ABOUT_FRAMES = ("count", "trace", "location")
WAITING = (*ABOUT_FRAMES, "suspend", "pop")
ABOUT_AGENTS = ("add", "relinquish", "caps", "getenv", "setenv")
NEEDS = {"suspend": "can_suspend", "resume": "can_suspend", "pop": "can_pop_frame"}
MOST_FRAMES = 24


@dataclasses.dataclass
class Thread:
    """What has to be known of a thread."""

    mode: str = "new"
    # the newest last
    frames: list = dataclasses.field(default_factory=list)
    # the words of the calls that wait
    waiting: list = dataclasses.field(default_factory=list)
    suspended: bool = False
    # a frame was popped, and the thread was not resumed since
    popped: bool = False

    @property
    def alive(self):
        return self.mode not in ("new", "ended")

    @property
    def newest(self):
        return self.frames[-1] if self.frames else None

    @property
    def runs_in_native(self):
        return self.mode == "running" and self.newest == "n"

    @property
    def to_be_suspended(self):
        return self.suspended or "suspend" in self.waiting


class Sketch:
    """The threads, the capabilities that each agent holds, and whether the VM can pop frames."""

    def __init__(self, threads, agents, pops):
        self.pops = pops
        self.threads = [Thread() for _ in range(threads)]
        self.held = [set() for _ in range(agents)]

    # ---- which events fit

    def fits(self, event):
        """Whether a VM can carry the event out, and does by design what the profile does."""
        subject, word, *rest = event
        if subject[0] == "t":
            return self.fits_thread(self.threads[int(subject[1:])], word)
        agent = int(subject[1:])
        if word == "add":
            return self.fits_add(agent, rest[0])
        if word in ABOUT_AGENTS:
            return True
        thread = self.thread_of(rest[0])
        return thread is None or self.fits_call(thread, word, rest[1:]) and self.fits_suspension(thread, word)

    def thread_of(self, named):
        """The thread of this name or number, or None."""
        number = int(named[1:]) if isinstance(named, str) else named
        return self.threads[number] if number < len(self.threads) else None

    def fits_thread(self, thread, word):
        if thread.mode != "running":
            return True
        if thread.waiting and not (word == "poll" or word == "block" and "suspend" not in thread.waiting):
            return False
        if word == "block":
            return thread.newest in ("a", "b")
        if word == "poll":
            return thread.newest != "n"
        return not (word.startswith("enter") and len(thread.frames) >= MOST_FRAMES)

    def fits_add(self, agent, wanted):
        others = set().union(*self.held[:agent], *self.held[agent + 1 :])
        if "can_tag_objects" in wanted or "can_pop_frame" in wanted and not self.pops:
            return False
        return not ("can_suspend" in wanted and "can_suspend" in others)

    def fits_call(self, thread, word, numbers):
        if word == "state":
            return not (thread.runs_in_native or thread.mode in ("running", "held") and not thread.frames)
        if word in WAITING and thread.runs_in_native:
            return False
        if word == "trace" and numbers[1] < 0 or word == "location" and numbers[0] < 0:
            return thread.alive
        return True

    def fits_suspension(self, thread, word):
        """What may not come between a suspension or a pop and its end."""
        if "suspend" in thread.waiting and word in ("state", "resume"):
            return False
        if thread.popped and word in (*ABOUT_FRAMES, "pop"):
            return False
        if word == "pop" and thread.to_be_suspended:
            return thread.mode != "blocked" and thread.frames != ["n"]
        return True

    # ---- what an event changes

    def note(self, event):
        subject, word, *rest = event
        if subject[0] == "t":
            self.note_own(self.threads[int(subject[1:])], word, rest)
        elif word in ("add", "relinquish"):
            held = self.held[int(subject[1:])]
            held.update(rest[0]) if word == "add" else held.difference_update(rest[0])
        elif word not in ABOUT_AGENTS and self.thread_of(rest[0]):
            self.note_call(int(subject[1:]), self.thread_of(rest[0]), word)

    def note_own(self, thread, word, rest):
        if word == "start" and thread.mode == "new":
            thread.mode = "running"
        elif word == "back" and thread.mode in ("native", "blocked", "held") and not thread.suspended:
            thread.mode = "running"
        elif thread.mode == "running":
            self.note_step(thread, word, rest)

    def note_step(self, thread, word, rest):
        if word in ("enter", "enter_native"):
            thread.frames.append(rest[0])
        elif word == "leave" and thread.frames:
            thread.frames.pop()
        elif word == "native" and thread.newest == "n":
            thread.mode = "native"
        elif word == "block":
            thread.mode, thread.waiting = "blocked", []
        elif word == "poll":
            thread.suspended = thread.to_be_suspended
            thread.mode, thread.waiting = "held" if thread.suspended else "running", []
        elif word == "end":
            thread.mode, thread.frames = "ended", []

    def note_call(self, agent, thread, word):
        if NEEDS.get(word) not in (None, *self.held[agent]) or not thread.alive:
            return
        if word == "pop" and thread.to_be_suspended and len(thread.frames) > 1 and "n" not in thread.frames[-2:]:
            thread.frames.pop()
            thread.popped = True
        if word in WAITING and thread.mode == "running":
            thread.waiting.append(word)
        elif word == "suspend":
            thread.suspended = True
        elif word == "resume":
            thread.suspended = thread.popped = False
