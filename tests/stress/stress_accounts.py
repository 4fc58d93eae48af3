"""What an agent of a live script refuses by itself, from its own calls alone, and what it has spent."""

CAPABILITIES = ("can_suspend", "can_pop_frame", "can_tag_objects")
NEEDS = {"suspend": "can_suspend", "resume": "can_suspend", "pop": "can_pop_frame"}
ASKS = ("state", "count", "trace", "location", "suspend", "resume", "get", "set", "pop")


def number_of(tree, thread):
    return thread if isinstance(thread, int) else tree["threads"].index(thread)


class Account:
    """An agent's capabilities and word, and what it has spent by thread. 110 does not come where there is memory."""

    def __init__(self, tree):
        self.tree, self.limit, self.threads = tree, tree["limits"]["calls"], len(tree["threads"])
        self.caps, self.word, self.spent = set(), 0, [0] * self.threads

    def refusal_at(self, word, thread, arguments=()):
        """Why a call at a thread does not reach it, or None."""
        if word in NEEDS and NEEDS[word] not in self.caps:
            return 99
        if thread >= self.threads:
            return 10
        if word in ("trace", "location") and arguments[-1] < 0:
            return 103
        return 209 if self.spent[thread] >= self.limit else None

    def refusal_whole(self, call):
        """Why a call of a list, or a trace of several threads, is refused as a whole, or None."""
        word, most = call[0], call[-1]
        if word in ("suspend_list", "resume_list"):
            return None if "can_suspend" in self.caps else 99
        listed = self.listed(call)
        if any(thread >= self.threads for thread in listed):
            return 10
        if most < 0:
            return 103
        paid = all(self.spent[thread] + 1 + listed.count(thread) <= self.limit for thread in set(listed))
        return None if paid else 209

    def listed(self, call):
        if call[0] == "all":
            return list(range(self.threads))
        return [number_of(self.tree, thread) for thread in call[1]]

    def make(self, call):
        """Makes a call: the calls at threads that are let through, as pairs of a word and a thread, and the refusals of
        its parts in their order, where None stands for one that is let through; or one refusal of the whole."""
        word = call[0]
        if word in ASKS:
            return self.ask_each(word, [number_of(self.tree, call[1])], call[2:])
        if word in ("suspend_list", "resume_list", "all", "list"):
            why = self.refusal_whole(call)
            if why:
                return [], why
            if word.endswith("_list"):
                return self.ask_each(word[: -len("_list")], self.listed(call), ())
            return self.look(self.listed(call)), None
        if word == "add" and "can_tag_objects" not in call[1]:
            self.caps |= set(call[1])
        elif word == "relinquish":
            self.caps -= set(call[1])
        elif word == "setenv":
            self.word = call[1]
        return [], None

    def ask_each(self, word, threads, arguments):
        reached, refusals = [], []
        for thread in threads:
            why = self.refusal_at(word, thread, arguments)
            refusals.append(why)
            if not why:
                self.spent[thread] += 1
                reached.append((word, thread))
        return reached, refusals

    def look(self, listed):
        for thread in set(listed):
            self.spent[thread] += 1 + listed.count(thread)
        return [("look", thread) for thread in listed]

    def own_reply(self, call):
        """The reply to a call about the environment, which was made."""
        word = call[0]
        if word == "caps":
            return " ".join(["caps", *(name for name in CAPABILITIES if name in self.caps)])
        if word == "getenv":
            return f"word {self.word}"
        return "error 98" if word == "add" and "can_tag_objects" in call[1] else "ok"
