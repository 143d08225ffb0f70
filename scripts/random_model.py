"""A plain model of a cell, of its owners and of those who wait, for scripts/random_cases.py.

It is written from docs/DEFINITIONS.md and docs/GUIDE.md: what each call replies, what happens in it,
and in which order.
"""
from itertools import takewhile


def once(tasks):
    """Who is woken, each once."""
    return list(dict.fromkeys(it for it in tasks if it))


class Wait:
    """The places of those who wait. A dropped future leaves its waker in its place, which is then
    free; the one that was left last is taken over first. Each fill, and the close, ends a round."""

    def __init__(self):
        self.round, self.tasks, self.free = 0, [], []

    def end(self):
        woken = once(self.tasks)
        self.round, self.tasks, self.free = self.round + 1, [], []
        return woken

    def wait(self, place, task):
        """Returns the place in which the task waits, and whom it lets go of."""
        if not place or place[0] != self.round:
            if not self.free:
                self.tasks.append(task)
                return (self.round, len(self.tasks) - 1), []
            place = self.round, self.free.pop()
        before, self.tasks[place[1]] = self.tasks[place[1]], task
        return place, [before] if before and before != task else []

    def leave(self, place, is_cancelled):
        """Returns whom a future lets go of that is cancelled, or dropped."""
        if not place or place[0] != self.round:
            return []
        self.free.append(place[1])
        if not is_cancelled:
            return []
        woken, self.tasks[place[1]] = self.tasks[place[1]], None
        return once([woken])

    def purge(self):
        woken = [self.tasks[it] for it in sorted(self.free)]
        for it in self.free:
            self.tasks[it] = None
        return once(woken)


class Cell:
    """A cell: what each call replies, and what happens in it. An event is a word and a number."""

    def __init__(self):
        self.content, self.owners, self.wait, self.events = None, 1, Wait(), []
        self.clones_fail, self.seen_in_drops = False, []

    def happen(self, word, *numbers):
        """Notes what happens. A task that was just woken is not woken again."""
        just = [*takewhile(lambda it: it[0] == word == "woke", reversed(self.events))]
        self.events += [(word, it) for it in numbers if (word, it) not in just]

    def fill(self, value):
        """Puts a value in, and returns the old one."""
        old, self.content = self.content, value
        if old is None and value is not None:
            self.wake_all()
        return old

    def wake_all(self):
        self.happen("woke", *self.wait.end())

    def drop(self, value):
        if value is not None:
            self.happen("dropped", value)
            self.seen_in_drops.append((value, self.told()))

    def set(self, value):
        self.drop(self.fill(value))
        return "ok"

    def or_set(self, value):
        self.drop(self.fill(value) if self.content is None else value)
        return "ok"

    def try_set(self, value):
        return f"back {value}" if self.content is not None else self.set(value)

    def replace(self, value):
        old = self.fill(value)
        return "none" if old is None else f"old {old}"

    def update(self, how, value):
        old = self.content
        self.happen("saw", "none" if old is None else old)
        if how == "add":
            value = None if old is None else old + value
        self.fill({"none": None, "keep": old}.get(how, value))
        return "ok"

    def update_some(self, how, value):
        if self.content is not None:
            return self.update(how, value)
        if not how:
            self.drop(value)
        return "ok"

    def taken(self, word):
        """Takes the content out, and replies with it after this word."""
        taken = self.take_out()
        return "none" if taken is None else f"{word} {taken}"

    def try_take(self):
        return self.taken("some")

    def try_get(self):
        return "none" if self.content is None else self.cloned("some")

    def peek(self):
        if self.content is None:
            return "none"
        self.happen("saw", self.content)
        return str(self.content)

    def cloned(self, word):
        if self.clones_fail:
            return "memory"
        self.happen("cloned", self.content)
        return f"{word} {self.content}'"

    def poll(self, future, task, word="ready"):
        """Polls a future: a list of whether it takes, and its place."""
        if not self.owners:
            return "closed"
        if self.content is None:
            return self.pend(future, task)
        future[1] = None
        return self.taken(word) if future[0] else self.cloned(word)

    def pend(self, future, task):
        future[1], let_go = self.wait.wait(future[1], task)
        self.happen("woke", *let_go)
        return "pending"

    def guarded(self, cancel, how, value):
        """Ends a guard."""
        if how == "drop":
            return self.or_set(cancel)
        if how != "release":
            getattr(self, how)(value)
        self.drop(cancel)
        return "ok"

    def end_owner(self):
        self.owners -= 1
        if not self.owners:
            self.wake_all()
            self.drop(self.take_out())
        return "ok"

    def take_out(self):
        """Empties the cell, and returns what it held."""
        taken, self.content = self.content, None
        return taken

    def leave(self, word, place):
        """Drops or cancels a future that waits in this place."""
        self.happen("woke", *self.wait.leave(place, word == "cancel"))

    def purge(self):
        self.happen("woke", *self.wait.purge())
        return "ok"

    def look(self, word):
        """What a call replies that is given nothing."""
        replies = {
            "is_set": self.content is not None,
            "is_closed": not self.owners,
            "waiting": len(self.wait.tasks),
        }
        return str(replies[word]).lower() if word in replies else getattr(self, word)()

    def debug(self):
        if self.content is not None and self.clones_fail:
            return "memory"
        if self.content is not None:
            self.happen("printed", self.content)
        return self.text()

    def told(self):
        """What a look replies that is made now, and what happens in it."""
        if self.content is None or not self.clones_fail:
            return self.text() + f", printed {self.content}" * (self.content is not None)
        return "memory"

    def text(self):
        """What the content prints."""
        if not self.owners:
            return "AsyncCell::Closed"
        if self.content is not None:
            return f"AsyncCell::Full({self.content})"
        return "AsyncCell::Pending" if any(self.wait.tasks) else "AsyncCell::Empty"


class State(Cell):
    """A latest state, of which a look sees the value."""

    def told(self):
        return f"{self.content}, saw {self.content}"
