"""The deliberate bugs of crates: how their texts are read, what each changes, and how a complaint of
the prover is judged."""
import glob
import hashlib
import os
import re
import subprocess
import tempfile

from lay_out import READ, read, write
from try_kit import KIT

BUG = re.compile(
    r"^(?P<file>[^\s:]+): (?P<name>.+)\n(?P<pairs>(?:- .+\n\+.*\n)+)(?:= (?P<clause>\w+)\n)?", re.M
)
PAIR = re.compile(r"^- (.+)\n\+ ?(.*)\n", re.M)
# How a bug is refused, best first: there are values at which a goal is false; a search ended without
# a proof; or one met its limits, so that it may only be lost. And the words that tell it.
WAYS = ("by values", "by a clause", "lost")
TOLD_BY = {"allow values at which": "by values", "gave up at one of its limits": "lost"}
FN = re.compile(r"( *)(?:pub(?:\([a-z]+\))? )?(?:const )?(?:unsafe )?fn (\w+)")


def function_at(lines, at):
    """Returns the name of the function whose body has this line, and its first and last line, with
    its docstring and attributes."""
    first = next((it for it in range(at, -1, -1) if FN.match(lines[it])), None)
    if first is None:
        return None
    indent, name = FN.match(lines[first]).groups()
    heads = (f"{indent}{{", f"{indent})", lines[first])
    above = (it for it in range(first, at) if lines[it].startswith(heads))
    opened = next((it for it in above if lines[it].endswith("{")), at)
    below = range(opened, len(lines))
    last = next((it for it in below if lines[it].startswith(f"{indent}}}")), at)
    if not opened < at < last:
        return None
    # (what is told of a whole function is told at its first attribute)
    return name, min(above_of(lines, first), default=first) + 1, last + 1


def above_of(lines, first):
    """Returns which lines above a function's first are its docstring and attributes."""
    indent = FN.match(lines[first])[1]
    for at in range(first - 1, -1, -1):
        if not lines[at].startswith((f"{indent}#[", f"{indent}///")):
            return range(at + 1, first)
    return range(first)


def with_files(folder):
    """Returns the names of functions that have proof files in a crate's folder."""
    return {os.path.basename(at) for at, _, files in os.walk(f"{folder}/proofs") if files}


def sum_of(*texts):
    return hashlib.sha256("\0".join(texts).encode()).hexdigest()


class Bug:
    """A bug: its changes, in which functions' bodies they are (None: in no body), the clause that is
    to refuse it, if that matters, and, once it is refused, how: one of WAYS."""

    def __init__(self, crate, name, file, pairs, clause):
        self.crate, self.name, self.file, self.clause = crate, name, f"src/{file}", clause
        self.changes, self.functions, self.fault, self.how = [], set(), None, None
        text = read(self.path()) if os.path.isfile(self.path()) and ".." not in file else ""
        for old, new in pairs:
            at, times = text.partition(old)[0].count("\n"), text.count(old)
            self.changes.append((at, old, new))
            self.functions.add(function_at(text.split("\n"), at))
            if old == new:
                self.fault = f"'{old}' is not changed"
            elif times != 1:
                self.fault = f"'{old}' stands in {self.file} {times} times, and not once"
        parts = [self.file, *(it for _, *pair in self.changes for it in pair), clause or ""]
        # (the sum of its file and name stays if a name in its text changes)
        self.sum, self.name_sum = sum_of(*parts)[:8], sum_of(self.file, name)[:8]

    def path(self):
        return f"crates/{self.crate}/{self.file}"

    def apply(self, source, path):
        """Writes the text of a file with it to a path. A change is of one line, so none moves."""
        lines = read(source).split("\n")
        for at, old, new in self.changes:
            lines[at] = lines[at].replace(old, new)
        write(path, "\n".join(lines))

    def is_beside(self, other):
        """Returns whether both change bodies of functions of one crate, and of no same one."""
        if self.crate != other.crate or None in self.functions | other.functions:
            return False
        return self.file != other.file or not self.functions & other.functions

    def is_at(self, told):
        """Returns whether this names a line of a function of it."""
        spans = [it for it in self.functions if it and told["file"] == self.file]
        return any(first <= int(told["line"]) <= last for _, first, last in spans)

    def is_of(self, name):
        """Returns whether a function of this name is one of it."""
        return any(it and it[0] == name for it in self.functions)

    def is_in(self, module):
        """Returns whether it is in the file of this module, or of one above that."""
        file = self.file[len("src/") : -len(".rt")]
        return file in ("lib", "main") or f"{module}/".startswith(f"{file}/")

    def needs_clause(self):
        """Returns whether words prove a function of its name that may not fit another body."""
        folders = f"crates/{self.crate}/proofs/**/"
        names = [it[0] for it in self.functions if it]
        return any(glob.glob(f"{folders}{it}/Answers.antt", recursive=True) for it in names)

    def counts(self, told):
        """Returns whether this complaint is of the clause that is to refuse it."""
        last = "" if self.clause == "returns" else rf"-clause-{self.clause}"
        goal = rf"returns(?:-(?!clause-)\w+)*?{last}(?:-\d+)?"
        others = {"loop": r"loop-[\w-]+", "invariant": r"invariant_of-[\w-]+"}
        goal = others.get(self.clause, goal)
        return not self.clause or bool(re.search(f"`{goal}`", told[0]))

    def judge(self, why, told=()):
        """Prints why it is not refused, or what the prover has told of it."""
        said = f"FAILED: {why}"
        if not why:
            ways = [way_of(it.string) for it in told]
            self.how = min(ways, key=WAYS.index)
            clause = f" by `{self.clause}`" if self.clause else ""
            said = f"refused{clause}, {self.how}: {told[ways.index(self.how)][0]}"
        # (the text and its line feed at once: other threads print too)
        print(f"{self.crate}: {self.name}: {said[:180]}\n", end="", flush=True)


def way_of(complaint):
    """Returns which of WAYS a complaint of the prover tells."""
    return next((way for words, way in TOLD_BY.items() if words in complaint), "by a clause")


def bugs_of(crate):
    """Returns the bugs of a crate that can be applied, and how many cannot."""
    path = f"crates/{crate}/bugs.txt"
    text = read(path)
    found = [Bug(crate, it["name"], it["file"], PAIR.findall(it["pairs"]), it["clause"])
             for it in BUG.finditer(text)]
    rest = [it for it in BUG.sub("", text).split("\n") if it.strip()]
    print("".join(f"{path}: FAILED: this line is of no bug: {it}\n" for it in rest[:1]), end="")
    names, sums = [it.name for it in found], [it.sum for it in found]
    for it in found:
        it.fault = it.fault or (names.count(it.name) > 1 and "another has its name")
        it.fault = it.fault or (sums.count(it.sum) > 1 and "another changes the same")
        if it.clause is None and it.needs_clause():
            it.fault = it.fault or "it names no clause, and an Answers.antt proves its function"
    parses = [it for it in found if not it.fault]
    for it, why in unread(parses):
        it.fault = f"its text does not parse: {why}"
    bad = [it for it in found if it.fault]
    for it in bad:
        it.judge(f"it cannot be applied: {it.fault}")
    return [it for it in found if not it.fault], len(bad) + bool(rest)


def unread(bugs):
    """Yields each of these bugs whose text does not parse, with what the kit says of it."""
    with tempfile.TemporaryDirectory() as room:
        for at, it in enumerate(bugs):
            it.apply(it.path(), f"{room}/{at}.rt")
        asked = [f"{KIT}/bin/rattle", "fmt", "--check", *(f"{it}.rt" for it in range(len(bugs)))]
        ran = subprocess.run(asked, cwd=room, check=False, **READ) if bugs else None
    if ran and ran.returncode not in (0, 1):
        raise OSError(f"the kit cannot read the bugs: {ran.stdout[-500:]}")
    said = re.findall(r"(?m)^(\d+)\.rt: it does not parse: (.*)", ran.stdout if ran else "")
    yield from ((bugs[int(at)], why) for at, why in said)


def groups_of(bugs):
    """Returns the bugs of each check, most first."""
    groups = []
    for bug in bugs:
        group = next((it for it in groups if all(map(bug.is_beside, it))), None)
        group.append(bug) if group else groups.append([bug])
    return sorted(groups, key=len, reverse=True)


def with_bugs():
    """Returns the crates that have deliberate bugs."""
    return sorted(it for it in os.listdir("crates") if os.path.isfile(f"crates/{it}/bugs.txt"))
