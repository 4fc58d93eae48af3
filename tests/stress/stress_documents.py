"""Random live documents, each run of which ends.

A thread that is suspended and wants to return waits until it is resumed. So each agent that suspends a thread resumes it
later in its own list: the last suspension that takes place at a thread is followed by the resumption of the agent that
made it, since that agent waits for each of its answers. For this it keeps a call to pay for at each thread that it has
suspended, and has the capability when it resumes. Nothing else waits for ever: a thread that waits to start or to return
does not run, so calls at it are answered at once; one that runs goes on to its end, at the latest, where calls are
answered; and who stops threads lets them go once each stands.
"""

import random

import stress_accounts

KINDS = ("monitor", "wait", "timed_wait", "sleep", "park", "timed_park")
METHODS = ("a", "<init>", "java/lang/Object.wait", "b$1")
# how often an agent asks for what, by what it is about
TASTES = {
    "words": {"set": 6, "get": 6, "state": 1, "setenv": 1, "getenv": 1},
    "frames": {"count": 4, "trace": 4, "location": 4, "state": 2},
    "suspensions": {"suspend": 4, "resume": 4, "suspend_list": 2, "resume_list": 2, "state": 2, "count": 2, "trace": 1},
    "stacks": {"all": 4, "list": 4, "state": 1, "set": 1},
    "all": {
        word: 2
        for word in (*stress_accounts.ASKS, "suspend_list", "resume_list", "all", "list", "add", "relinquish", "caps", "setenv", "getenv")
    },
}


def count(chance, most):
    """From 1 to that many, mostly few."""
    return min(most, chance.choice((1, 2, 3, 4, 4, 6, 8, 12, 16, 24, 32, most)))


# ---- walks


def step(chance):
    """An operation of a running thread, which its frames may refuse, and seldom one that only others may make."""
    method = chance.choice(METHODS)
    steps = (
        ["enter", method],
        ["enter", method],
        ["enter_native", method],
        ["leave"],
        ["leave"],
        ["at", chance.randrange(100)],
        ["poll"],
        ["poll"],
        ["native"],
    )
    return chance.choice(steps) if chance.random() < 0.95 else chance.choice((["back"], ["start"], ["block", "park"]))


def turn(chance, taste):
    """Some operations of a running thread, after which it mostly runs."""
    if taste == "polls":
        return [["poll"]] * chance.randrange(1, 20)
    if taste == "blocks":
        return [["block", chance.choice(KINDS)], ["back"]]
    if taste == "calls":
        return [["enter", chance.choice(METHODS)], ["poll"], ["at", chance.randrange(9)], ["poll"], ["leave"]]
    if taste == "native":
        return [["enter_native", chance.choice(METHODS)], ["native"], ["back"], ["leave"]]
    made = step(chance)
    return [made, ["back"]] if made[0] in ("native", "block") and chance.random() < 0.9 else [made]


def walk(chance, most):
    """A walk of some more operations than that, or seldom of hardly any. It blocks often at first: that takes longer than
    its other operations, so that it goes on when the agents begin."""
    if chance.random() < 0.06:
        return [step(chance) for _ in range(chance.randrange(3))]
    operations = [["start"]]
    while len(operations) < most // 2:
        operations += turn(chance, "blocks" if chance.random() < 0.9 else "any")
    tastes = chance.sample(("polls", "blocks", "calls", "native", "any"), 3)
    while len(operations) < most:
        operations += turn(chance, chance.choice(tastes))
    ends = ([], [["end"]], [["block", chance.choice(KINDS)]], [["end"], ["start"], ["poll"]])
    return operations + chance.choice(ends)


# ---- calls


class Agent:
    """An agent's calls, so far."""

    def __init__(self, chance, tree, targets, may_pop):
        self.chance, self.tree, self.targets, self.may_pop = chance, tree, targets, may_pop
        self.account, self.calls, self.owed = stress_accounts.Account(tree), [], set()
        self.taste = TASTES[chance.choice(tuple(TASTES))]

    def thread(self):
        """A thread of those that it asks at, by name or number, or seldom a number that no thread has."""
        number = self.chance.choice(self.targets)
        kind = self.chance.random()
        if kind < 0.03:
            return self.chance.choice((len(self.tree["threads"]), 64, 4_294_967_295))
        return number if kind < 0.2 else self.tree["threads"][number]

    def threads(self):
        return [self.thread() for _ in range(self.chance.choice((0, 1, 2, 2, 3, 5)))]

    def most(self):
        return self.chance.choice((0, 1, 2, 4, 4, 2_147_483_647)) if self.chance.random() < 0.95 else -1

    def call(self, word):
        chance = self.chance
        if word in ("suspend_list", "resume_list"):
            return [word, self.threads()]
        if word in ("add", "relinquish"):
            return [word, chance.sample(stress_accounts.CAPABILITIES[: chance.choice((1, 2, 2, 2, 3))], chance.randrange(2))]
        if word in ("caps", "getenv"):
            return [word]
        if word == "setenv":
            return [word, chance.randrange(2**64)]
        if word == "all":
            return [word, self.most()]
        if word == "list":
            return [word, self.threads(), self.most()]
        further = {
            "trace": lambda: [chance.choice((0, 0, 0, -1, 1, 2, -2, -4)), self.most()],
            "location": lambda: [chance.choice((0, 0, 0, 1, 3, -1))],
            "set": lambda: [chance.randrange(2**64)],
        }
        return [word, self.thread(), *further.get(word, list)()]

    def suspended_by(self, reached):
        """The threads that it owes a resumption, after these calls."""
        owed = set(self.owed)
        for word, thread in reached:
            if word == "suspend":
                owed.add(thread)
            elif word == "resume":
                owed.discard(thread)
        return owed

    def add(self, call):
        """Makes a call, where it can still pay for what it owes then, and pops only where it may."""
        if call[0] == "pop" and not self.may_pop:
            return
        before = list(self.account.spent)
        reached, _ = self.account.make(call)
        owed = self.suspended_by(reached)
        if any(self.account.spent[thread] >= self.tree["limits"]["calls"] for thread in owed):
            # nothing but `spent` has changed: a call that pays changes nothing else
            self.account.spent = before
            return
        self.owed = owed
        self.calls.append(call)

    def make(self, length):
        if self.chance.random() < 0.8:
            self.add(["add", ["can_suspend", "can_pop_frame"][: self.chance.choice((1, 2))]])
        if self.chance.random() < 0.3:
            self.add(["suspend_list", list(self.targets)])
        words, weights = zip(*self.taste.items())
        while len(self.calls) < length and self.chance.random() < 0.999:
            self.add(self.call(self.chance.choices(words, weights)[0]))
        if self.owed:
            self.add(["add", ["can_suspend"]])
        for thread in sorted(self.owed):
            self.add(["resume", thread])
        return self.calls


def document(seed, index):
    """The document of that number of a seed, as a tree."""
    chance = random.Random(f"{seed}/{index}")
    threads, agents = count(chance, 64), count(chance, 32)
    # agents that all ask at one or two threads contend for their cells; these threads have long walks, so that they still
    # run when they are asked, and the last numbers, since those begin last
    asked = min(threads, chance.choice((1, 1, 2, 3, 64)))
    most = max(10, chance.choice((100, 2_000, 8_000, 16_000)) // asked)
    limits = {
        "depth": chance.choice((1, 2, 4, 16)),
        "own": chance.choice((max(4, most // 4), 4 * most, 65_536)),
        "calls": chance.choice((2, 16, 64, 128, 256)),
    }
    tree = {
        "limits": limits,
        "threads": [f"t{n}" for n in range(threads)],
        "agents": [f"a{n}" for n in range(agents)],
        "methods": list(METHODS),
        "walks": [walk(chance, most if number >= threads - asked else 10) for number in range(threads)],
    }
    may_pop = chance.random() < 0.2
    tree["calls"] = []
    for _ in range(agents):
        targets = range(threads) if chance.random() < 0.1 else range(threads - asked, threads)
        length = chance.choice((3, 10, 30, 60))
        tree["calls"].append(Agent(chance, tree, targets, may_pop).make(length))
    return tree
