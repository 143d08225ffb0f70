"""Makes random cases of a latest state, for scripts/random_cases.py."""
from random_maker import TASKS, Maker
from random_model import State

MARKS = ["mark_unchanged", "mark_changed", "read_and_update", "peek_and_update"]
LOOKS = ["read", "peek", "has_changed", "is_closed", *MARKS]


class States(Maker):
    """Owners and followers of a latest state. A follower lends itself to one future at a time."""

    KINDS, MODEL, LOOK, FIRST = "states", State, "peek", ["new 1", "follow f"]

    def __init__(self, seed):
        super().__init__(seed)
        self.cell.content, self.version = 1, 1
        self.seen, self.witnessed, self.lent = {"f": 1}, {"f": 1}, {}

    def write(self, on=""):
        value, old = self.value(), self.cell.content
        word = self.some(["set", "replace", "update", "modify", "modify_if"])
        how = self.some(["", "add", "keep", "hide"]) if word.startswith("modify") else ""
        if word.startswith(("update", "modify")):
            self.cell.happen("saw", old)
        self.cell.content = {"": value, "keep": old}.get(how, old + value)
        if word.startswith("modify") and not how:
            self.cell.drop(old)
            self.cell.seen_in_drops = []  # The lock is held.
        is_told = word != "modify_if" or how in ("", "add")
        if is_told:
            self.version += 1
            self.cell.wake_all()
        if word in ("set", "update"):
            self.cell.drop(old)
        replies = {"replace": f"old {old}", "modify": str(self.cell.content)}
        replies["modify_if"] = str(is_told).lower()
        given = how if how == "keep" else f"{how} {value}".strip()
        self.line(f"{word} {given}{on}", replies.get(word, "ok"))

    def follow(self):
        name, of = self.name("f"), self.some([*self.owners, *self.free()])
        self.seen[name] = self.seen.get(of, self.version)
        self.witnessed[name] = self.witnessed.get(of, self.version)
        self.line(f"clone {of} {name}" if of in self.seen else f"follow {name} on {of}")

    def free(self):
        """The followers that are not lent."""
        return [it for it in self.seen if it not in self.lent.values()]

    def look(self, name=""):
        cell, has_changed = self.cell, self.seen[name] != self.version
        word = self.some(LOOKS)
        if word in MARKS:
            self.seen[name] = 0 if word == "mark_changed" else self.version
        if word == "read_and_update":
            self.witnessed[name] = self.version
        if word.startswith("read"):
            reply = cell.cloned("some")
        elif word.startswith("peek"):
            reply = str(cell.content)
            cell.happen("saw", cell.content)
        elif word == "is_closed":
            reply = cell.look(word)
        else:
            reply = str(has_changed).lower() if word == "has_changed" else "ok"
        self.line(f"{word} {name}", reply)

    def ask(self):
        """Asks an owner for the state or for those who wait, or lets go of what was left."""
        word = self.some(["waiting", "purge", "peek", "read"])
        reply = self.cell.cloned("some") if word == "read" else self.cell.look(word)
        self.line(f"{word} {self.some(self.owners)}", reply)

    def lend(self):
        """Polls a new future or stream of a follower: its place, and the state that it looked at."""
        of, name = self.some(self.free()), self.name("c")
        kind = self.some(["changed", "wait_for", "states"])
        wanted = self.value() if kind == "wait_for" else 0
        if kind == "states":
            self.seen[name] = self.seen_before(of)
        self.lent[name] = name if kind == "states" else of
        self.made[name] = [kind, None, 0 if kind == "wait_for" else None, wanted]
        called = f"wait_for {wanted}" if kind == "wait_for" else kind
        self.line(f"{called} {name} on {of}")
        self.poll(name)

    def seen_before(self, of):
        """What a stream of this follower has seen when it is made."""
        return self.seen[of]

    def poll(self, name):
        future, of, task = self.made[name], self.lent[name], self.some(TASKS)
        kind, _, looked, wanted = future
        seen = self.seen[of] if looked is None else looked
        reply = None
        if seen != self.version:
            if kind == "wait_for":
                self.cell.happen("saw", self.cell.content)
            if kind != "wait_for" or self.cell.content >= wanted:
                future[1] = None
                words = {"wait_for": "ready", "states": "item"}
                reply = self.cell.cloned(words[kind]) if kind in words else "ready"
            self.seen[of] = self.version
            future[2] = None if looked is None else self.version
        if not reply and not self.cell.owners:
            reply = "end" if kind == "states" else "closed"
        if not reply:
            reply = self.cell.pend(future, task)
        self.line(f"{'next' if kind == 'states' else 'poll'} {name} by {task}", reply)

    def end(self, name):
        self.lent.pop(name)
        self.seen.pop(name, None)
        super().end(name)

    def own(self):
        """Adds an owner, or ends one."""
        name = self.some(self.owners)
        if self.random.random() < 0.5:
            self.owners.append(self.name("o"))
            self.cell.owners += 1
            return self.line(f"own {self.owners[-1]} on {name}")
        self.owners.remove(name)
        self.cell.owners -= 1
        if not self.owners:
            self.cell.wake_all()
        self.line(f"{self.some(['drop', 'end'])} {name}")

    def step(self):
        chosen = self.random.randrange(13)
        if chosen < 2 and self.owners:
            self.write(f" on {self.some(self.owners)}")
        elif chosen in (2, 12) and self.owners:
            self.random.choice([self.own, self.ask, self.ask])()
        elif chosen == 3 and len(self.seen) < 5 and (self.owners or self.free()):
            self.follow()
        elif chosen < 6 and self.free() and len(self.made) < 5:
            self.lend()
        elif chosen < 8 and self.made:
            self.end(self.some(self.made))
        elif chosen < 10 and self.free():
            self.look(self.some(self.free()))
        elif self.made:
            self.poll(self.some(self.made))


class StatesAs(States):
    """Such a state, whose calls extend a witness. A stream goes on from what that has seen."""

    KINDS = "states_as"

    def seen_before(self, of):
        return self.witnessed[of]
