#!/usr/bin/env python3
"""Has the prover refuse the deliberate bugs, those of crates/NAME/bugs.txt (`rt ci` tries the edits
of crates/NAME/must-fail/).

    bugs.py [--over-ci] [--record] [--all|CRATE..]   those of all crates, or of these; without,
                        those that are not in the record, a tenth of those that are, the next after
                        each commit, and 12 of the others, by the commit's hash: four of each of
                        three checks. With `--record` also writes the record. With `--over-ci` they
                        are tried over what `rt ci` has built here, from nothing, which saves a
                        proof of all in a copy. (What `rt check` builds does not do.)
    bugs.py --list      whether each can be applied, and how those in the record were refused

A bug is a line 'FILE: what it does', with the file below src/, and after it pairs of lines '- OLD'
and '+ NEW': a text that stands in the file once, and what comes in its place. A line '= CLAUSE' may
follow, of the clause that is to refuse it: then a complaint of another one does not count, nor of
what a call requires. `= returns` is a contract of one clause, `= loop` the invariant of a loop,
`= invariant` that of a type. A bug of a function that has an Answers.antt needs the line, as the
words of that proof may not fit any other body. How bugs are tried: bug_trial.py.

A bug is refused by values, by a clause, or `lost`: a search met its limits, which says less of the
contract. A bug that is lost fails, unless the record has it. If its text is not the recorded one,
as after a rename, but a bug of its file and name is recorded, it has changed: it is tried, and may
be lost only if it was.

The record, scripts/bugs.lock, has a line for each crate: a sum of what it rests on that its bugs
are refused (the kit's logic, the code of the scripts that try them, the texts of the crate and of
those below it), and for each bug that was refused a sum of its text and one of its file and name,
marked with ? if it was lost. No comment, docstring or layout is in a sum. Prints a line for each
check and each bug, how many were refused in which way, and last 'N passed, M failed'.
"""
import ast
import functools
import glob
import os
import random
import re
import sys
from collections import Counter

from bug import WAYS, bugs_of, groups_of, sum_of, with_bugs
from bug_trial import PARTS, try_all, with_below
from lay_out import TOP, lines_of, read, said_by, write
from try_kit import KIT

RECORD = "scripts/bugs.lock"
ABOUT = "The deliberate bugs that were refused: `python3 scripts/bugs.py --record`."
# So many commits in a row try all of the record's bugs anew, one crate after the other. Drawn with
# them are bugs of so many checks, of each so many: a check costs far more than a bug in it.
TURNS, CHECKS, DRAWN = 10, 3, 4
HEAD = ("rev-parse HEAD", "rev-list --count HEAD")
SUMS = re.compile(r"(\w{8})\.(\w{8})(\??)")
FILE = re.compile(r"^file (\d+)\n((?:\d.*\n)*)", re.M)


@functools.cache
def tokens():
    """Returns the tokens of each text of Rattle, by its path, as the kit reads them."""
    paths = [it for part in PARTS for it in glob.glob(f"crates/*/{part}/**/*.*t", recursive=True)]
    said = said_by(f"{KIT}/bin/rattle", "fmt", "--tokens", *paths)
    # (a line of a token begins with its line and its bytes)
    found = {int(at): re.sub(r"(?m)^\d+ \d+ \d+ ", "", of) for at, of in FILE.findall(said)}
    return {path: found[at] for at, path in enumerate(paths)}


def code_of(script):
    """Returns the code of a script of Python, without comments, docstrings and layout."""
    tree = ast.parse(read(script))
    for it in ast.walk(tree):
        if isinstance(it, (ast.Module, ast.FunctionDef, ast.ClassDef)) and ast.get_docstring(it):
            it.body = it.body[1:] or [ast.Pass()]
    return ast.unparse(tree)


@functools.cache
def sum_of_crate(crate):
    """Returns the sum of what it rests on that the bugs of a crate are refused."""
    below = sorted(with_below([crate]))
    texts = [said_by("rt", "version").partition(" ")[2], *lines_of(below)]
    texts += [code_of(f"scripts/{it}.py") for it in ("bug", "bug_trial")]
    of = tuple(f"crates/{it}/" for it in below)
    texts += [f"{it}\n{tokens()[it]}" for it in sorted(tokens()) if it.startswith(of)]
    return sum_of(*texts)[:16]


@functools.cache
def lines_of_record():
    """Returns by crate the sum, and of each bug the sums of its text and of its name, and a mark if
    it was lost."""
    lines = read(RECORD).split("\n")[1:-1] if os.path.isfile(RECORD) else []
    parts = {crate: (of, map(SUMS.fullmatch, bugs)) for crate, of, *bugs in map(str.split, lines)}
    return {crate: (of, [it.groups() for it in bugs if it]) for crate, (of, bugs) in parts.items()}


def recorded(bug):
    """Returns what the record has of its text, or else of its file and name, or None."""
    _, bugs = lines_of_record().get(bug.crate, ("", []))
    of_text = (it for it in bugs if it[0] == bug.sum)
    return next(of_text, None) or next((it for it in bugs if it[1] == bug.name_sum), None)


def way_recorded(bug):
    """Returns how a bug was refused when it was recorded, now or before: lost, or else. If it has
    changed since, it was lost, or is as if it were new."""
    text, _, mark = recorded(bug) or (None, None, None)
    return "lost" if mark else "refuted" if text == bug.sum else None


def is_recorded(bug):
    """Returns whether it was refused as the texts are now."""
    of, _ = lines_of_record().get(bug.crate, ("", []))
    return of == sum_of_crate(bug.crate) and (recorded(bug) or [None])[0] == bug.sum


def record(bugs, tried):
    """Writes the record: of these bugs, which are all, so many were tried."""
    lines = {}
    for it in bugs:
        was = "?" * (way_recorded(it) == "lost") if is_recorded(it) else None
        mark = "?" * (it.how == "lost") if it.how else None if it in tried else was
        told = [] if mark is None else [f"{it.sum}.{it.name_sum}{mark}"]
        lines.setdefault(it.crate, []).extend(told)
    told = [f"{crate} {sum_of_crate(crate)} {' '.join(lines[crate])}" for crate in sorted(lines)]
    write(RECORD, "\n".join([f"# {ABOUT}", *told, ""]))


def due(bugs):
    """Returns the bugs that are not in the record, a part of those that are, and some more."""
    # (those that share a check stand together, and those of a crate)
    groups = sorted(groups_of(bugs), key=lambda it: it[0].crate)
    kept = [it for group in groups for it in group if is_recorded(it)]
    commit, count = (said_by("git", *it.split()).strip() for it in HEAD)
    again = [it for at, it in enumerate(kept) if at * TURNS // len(kept) == int(count) % TURNS]
    chance = random.Random(commit)
    for _ in range(CHECKS):
        # (each bug is as likely as any other)
        rest = groups_of(it for it in kept if it not in again)
        for group in rest and chance.choices(rest, [max(len(it), DRAWN) for it in rest]):
            again += chance.sample(group, min(DRAWN, len(group)))
    said = f"of which {len(again)} are tried again; {TURNS} commits in a row try all"
    print(f"{len(kept)} bugs are in the record, {said}", flush=True)
    return [it for it in bugs if it not in kept or it in again]


def main(words):
    os.chdir(TOP)
    is_list, is_over_ci = words == ["--list"], words[:1] == ["--over-ci"]
    words = words[is_list or is_over_ci :]
    is_record = words[:1] == ["--record"]
    asked = words[is_record:]
    for it in asked:
        if it not in ("--all", *with_bugs()):
            sys.exit(f"bugs.py: there are no bugs of a crate {it}")
    of_crates = [(it, *bugs_of(it)) for it in with_bugs()]
    bugs = [bug for _, found, _ in of_crates for bug in found]
    is_asked = lambda it: asked in ([], ["--all"]) or it in asked
    faults = sum(bad for it, _, bad in of_crates if is_asked(it))
    if is_list:
        ways = Counter(map(way_recorded, bugs))
        changed = sum((recorded(it) or [it.sum])[0] != it.sum for it in bugs)
        said = f"are refuted, {ways['lost']} lost, and {changed} have changed since"
        print(f"in the record {ways['refuted']} {said}")
        print(f"{len(bugs) + faults} deliberate bugs, {faults} of which cannot be applied")
        return 1 if faults or not bugs else 0
    tried = [it for it in bugs if is_asked(it.crate)] if asked else due(bugs)
    try_all(tried, is_over_ci)
    new = [it for it in tried if it.how == "lost" and way_recorded(it) is None]
    for it in new:
        it.judge("it is refused only because a search met its limits: choose another")
        it.how = None
    if is_record:
        record(bugs, tried)
    ways = Counter(it.how for it in tried)
    print(", ".join(f"{ways[it]} {it}" for it in WAYS))
    passed = sum(ways[it] for it in WAYS)
    failed = faults + len(tried) - passed
    print(f"{passed} passed, {failed} failed")
    return 1 if failed or not passed else 0


if __name__ == "__main__":
    sys.exit(main(sys.argv[1:]))
