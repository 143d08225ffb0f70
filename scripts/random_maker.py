"""Writes a random case down, call by call, with what scripts/random_model.py says comes back."""
import random

from random_model import Cell

TASKS = range(1, 8)
WRITES = ["set", "or_set", "try_set", "replace", "update", "update_some", "guarded"]
LOOKS = ["try_take", "try_get", "peek", "is_set", "is_closed", "waiting", "debug", "purge"]


class Maker:
    """Writes a case down, call by call."""

    # Its kinds, the model of them, what is looked at inside a drop, and its first calls.
    KINDS, MODEL, LOOK, FIRST = "owners", Cell, "debug", ["new"]

    def __init__(self, seed):
        self.random = random.Random(f"{self.KINDS} {seed}")
        self.cell, self.made, self.count, self.owners = self.MODEL(), {}, 0, ["it"]
        self.lines = [f"# Random calls on {self.KINDS}, seed {seed}", f"on {self.KINDS}"]
        self.lines += self.FIRST

    def some(self, choices):
        return self.random.choice(list(choices))

    def value(self):
        return self.random.randrange(9)

    def name(self, letter):
        self.count += 1
        return f"{letter}{self.count}"

    def line(self, call, reply="ok"):
        """Writes a call, its reply, and what has happened in it."""
        told, last = reply, None
        for word, number in self.cell.events:
            told += f" {number}" if word == last else f", {word} {number}"
            last = word
        self.cell.events = []
        self.lines.append(f"{call} -> {told}")
        looked, self.cell.seen_in_drops = self.cell.seen_in_drops, []
        for number, text in looked if self.owners and self.random.random() < 0.5 else []:
            self.lines.append(f"  in drop of {number}: {self.LOOK} {self.owners[0]} -> {text}")

    def fail(self):
        """Has clones fail from now on, or work again."""
        self.cell.clones_fail = not self.cell.clones_fail
        self.line(f"clones {'fail' if self.cell.clones_fail else 'work'}")

    def write(self, on=""):
        """Makes a call that may write."""
        cell, value, other = self.cell, self.value(), self.value()
        word = self.some(WRITES)
        if word.startswith("update"):
            how = self.some(["", "add", "keep"] + (["none"] if word == "update" else []))
            shown = how if how in ("none", "keep") else f"{how} {value}".strip()
            self.line(f"{word} {shown}{on}", getattr(cell, word)(how, value))
        elif word == "guarded":
            how = self.some(["drop", "release", "set", "or_set"])
            more = f" {other}" if how.endswith("set") else ""
            self.line(f"guarded {value} {how}{more}{on}", cell.guarded(value, how, other))
        else:
            self.line(f"{word} {value}{on}", getattr(cell, word)(value))

    def look(self, name=""):
        word = self.some(LOOKS)
        self.line(f"{word} {name}".strip(), self.cell.look(word))

    def poll(self, name, call="poll"):
        """Polls a future or a stream, by this call if it is a future."""
        future, task = self.made[name], self.some(TASKS)
        kind = future[2]
        reply = self.cell.poll(future, task, "item" if kind == "stream" else "ready")
        reply = reply.replace("closed", {"stream": "end", "close": "ready"}.get(kind, "closed"))
        self.line(f"{'next' if kind == 'stream' else call} {name} by {task}", reply)

    def end(self, name):
        """Drops or cancels a future or a stream."""
        future, word = self.made.pop(name), self.some(["cancel", "drop"])
        self.cell.leave(word, future[1])
        if future[2] == "owner":
            self.cell.end_owner()
        self.line(f"{word} {name}")
