"""Makes random cases for the player, with what scripts/random_model.py says must come back.

A case is a list of calls on a cell, on all that an owner makes, on reply slots, or on a latest state.
Each is made from a seed, which its title has, so a case that fails can be made again, or pasted into
tests/cases.
"""
from random_maker import TASKS, Maker
from random_states import States, StatesAs

LENGTH = 40
MAKES = "own guard into_guard values take_shared get_shared take_weak get_weak".split()


class Cells(Maker):
    """A cell or an owner, beside futures that are kept."""

    KINDS = "cells owners"

    def step(self):
        chosen = self.random.randrange(8)
        if self.random.random() < 0.05:
            self.fail()
        elif chosen < 2 and len(self.made) < 6:
            name, takes = self.name("f"), chosen == 0
            self.made[name] = [takes, None, "future"]
            self.line(f"{'take' if takes else 'get'} {name}")
        elif chosen < 5 and self.made:
            self.poll(self.some(self.made))
        elif chosen == 5 and self.made:
            self.end(self.some(self.made))
        elif chosen == 6:
            self.look()
        else:
            self.write()


class Owners(Maker):
    """All that owners make: more owners, weak ones, guards, futures and streams."""

    FIRST = ["new", "weak w"]

    def __init__(self, seed):
        super().__init__(seed)
        self.weak, self.guards = ["w"], {}

    def add(self):
        """Makes one more thing."""
        owner, word = self.some(self.owners), self.some(MAKES)
        name = self.name(word[0])
        shared = word in ("own", "guard", "take_shared", "get_shared")
        self.cell.owners += shared
        if word == "own":
            self.owners.append(name)
        elif word.endswith("guard"):
            if word == "into_guard":
                self.owners.remove(owner)
            self.guards[name] = self.value()
            name = f"{name} {self.guards[name]}"
        else:
            kind = "stream" if word == "values" else "owner" if shared else "weak"
            self.made[name] = [not word.startswith("get"), None, kind]
        self.line(f"{word} {name} on {owner}")

    def upgrade(self):
        """Upgrades a weak owner or a weak future, or makes another one of a weak owner."""
        weak, name, how = self.some(self.weak), self.name("u"), self.some(["take", "get", "clone"])
        of = self.some([weak, *(it for it, (_, _, kind) in self.made.items() if kind == "weak")])
        if self.random.random() < 0.2:
            word = self.some(["is_closed", "is_set"])
            return self.line(f"{word} {weak}", self.cell.look(word))
        if self.random.random() < 0.3 and how == "clone":
            self.weak.append(name)
            return self.line(f"clone {weak} {name}")
        if self.random.random() < 0.3 and how != "clone":
            self.made[name] = [how == "take", None, "weak"]
            return self.line(f"{how} {name} on {weak}")
        if not self.cell.owners:
            return self.line(f"upgrade {of} none", "closed")
        self.cell.owners += 1
        if of == weak:
            self.owners.append(name)
        else:
            self.made[name] = [self.made[of][0], None, "owner"]
        return self.line(f"upgrade {of} {name}")

    def end_guard(self):
        name, value = self.some(self.guards), self.value()
        if self.random.random() < 0.3:
            return self.line(f"is_set {name}", self.cell.look("is_set"))
        cancel = self.guards.pop(name)
        how = self.some(["drop", "release", "set", "or_set"])
        self.cell.guarded(cancel, how, value)
        self.cell.end_owner()
        return self.line(f"{how} {value} on {name}" if how.endswith("set") else f"{how} {name}")

    def end_owner(self):
        name = self.some(self.owners)
        if self.random.random() < 0.4 and self.cell.owners > 1:
            return self.line(f"into_inner {name}", "shared")
        self.owners.remove(name)
        if self.random.random() < 0.4 and self.cell.owners == 1:
            reply = self.cell.taken("inner")
            self.cell.end_owner()
            return self.line(f"into_inner {name}", reply)
        self.cell.end_owner()
        return self.line(f"{self.some(['drop', 'end'])} {name}")

    def step(self):
        chosen = self.random.randrange(12)
        if self.random.random() < 0.05:
            self.fail()
        elif chosen < 4 and self.owners and len(self.made) < 6:
            self.add()
        elif chosen == 4:
            self.upgrade()
        elif chosen == 5 and self.guards:
            self.end_guard()
        elif chosen == 6 and self.made:
            self.end(self.some(self.made))
        elif chosen == 7 and self.owners and self.cell.owners > self.random.choice([0, 1, 1, 1]):
            self.end_owner()
        elif chosen < 10 and self.owners:
            name = self.some(self.owners)
            self.write(f" on {name}") if chosen == 8 else self.look(name)
        elif self.made:
            self.poll(self.some(self.made))


class Slots(Maker):
    """Reply slots, one after the other: `it` replies, the other side waits."""

    KINDS, FIRST = "slots", []

    def __init__(self, seed):
        super().__init__(seed)
        self.owners, self.sides = [], []

    def begin(self):
        self.cell.owners, self.reply, self.is_over = 1, [True, None], False
        self.sides = ["it", self.name("r")]
        self.line("new")
        self.line(f"take {self.sides[1]}")

    def end_side(self, side):
        """Closes the slot."""
        self.sides.remove(side)
        if self.cell.owners and not self.is_over:
            self.cell.end_owner()

    def ask_it(self):
        """Has the side that replies set a value, end or look."""
        word, value = self.some(["set", "drop", "is_closed"]), self.value()
        if word == "is_closed":
            return self.line("is_closed it", self.cell.look(word))
        for name in [*self.made]:  # (these borrow `it`)
            self.end(name)
        if word == "drop":
            self.end_side("it")
            return self.line("drop it")
        self.sides.remove("it")
        return self.line(f"set {value}", self.cell.set(value) if self.cell.owners else f"back {value}")

    def ask_wait(self):
        """Polls a future of `it` that waits for the close, maybe a new one, or ends it."""
        name = self.some(["", *self.made])
        if not name:
            name = self.name("c")
            self.made[name] = [True, None, "close"]
            return self.poll(name, "closed")
        return self.end(name) if self.random.random() < 0.5 else self.poll(name)

    def ask_reply(self):
        """Polls the side that waits, has it look, or ends it."""
        name, word = self.sides[-1], self.some(["poll", "poll", "try_take", "into_inner", "drop"])
        if word == "poll":
            task = self.some(TASKS)
            reply = "closed" if self.is_over else self.cell.poll(self.reply, task)
            self.is_over |= reply != "pending"
            return self.line(f"poll {name} by {task}", reply)
        if word == "try_take":
            reply = self.cell.try_take() if self.cell.owners and not self.is_over else "closed"
            self.is_over |= reply != "none"
            return self.line(f"try_take {name}", reply)
        reply = "ok"
        if word == "into_inner":
            reply = "none" if self.is_over else self.cell.taken("inner")
        self.end_side(name)
        return self.line(f"{word} {name}", reply)

    def step(self):
        if not self.sides:
            self.begin()
        elif self.sides[0] == "it" and self.random.random() < 0.6:
            self.some([self.ask_it, self.ask_wait])()
        elif self.sides[-1] != "it":
            self.ask_reply()


def cases(count, first=0):
    """Returns the text of so many cases of each sort, one of each after the other."""
    seeds = range(first, first + count)
    made = [sort(seed) for seed in seeds for sort in (Cells, Owners, Slots, States, StatesAs)]
    for it in made:
        for _ in range(LENGTH):
            it.step()
    return "".join("\n".join(it.lines) + "\n\n" for it in made)
