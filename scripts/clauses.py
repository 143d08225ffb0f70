#!/usr/bin/env python3
"""Compares what users rely on with the last release: `python3 scripts/clauses.py [COMMIT]`.

A fact is a public item of the crates of README's table, a clause, a line of crates.txt, what WORDS
finds, or a definition of specs/ or a type of a part that a clause names, also in turn. Prints what
went (-) and came (+) since the last line of RELEASES, or COMMIT. Faults are: one whose call, type
or definition the first section of CHANGELOG does not name in backquotes; a word there that neither
a fact has, nor a file's name; a line of RELEASES, or a section of CHANGELOG, that is not as its
release has it; a section below the first that RELEASES does not name; and an item of the Rust crate
that neither a cell has, nor DIFFERENCES a row for it.
The last line is 'clauses: N facts, M changed, K faults'.
"""
import pathlib
import re
import subprocess
import sys
import tempfile

import api
from lay_out import reached

HERE = api.TOP
ITEM = re.compile(r"\w+::\w+")
CLAUSE = r"(?m)^ *(?=(?:requires|ensures|ghost)\b)"
NAMES = re.compile(r"\w+").findall
# What else is public: where it stands, of what it is, its name, and the rest.
WORDS = {
    "scripts/vendor.sh": r"(?m)^# +bash scripts/(vendor)\.sh (-*\w+)(.*?)  ",
    "crates/cellrun/src/*.rt": r'()"( ?[a-z][^"\n\\{]*)([^"\n]*)"',
    "crates/async_cell_core/src/**/*.rt": r'"(AsyncCell)::(\w+)([^"\n]*)"',
}
# The section of a release in CHANGELOG. What was added after the release stands last.
SECTION = r"(?ms)^## {} .*?(?=\s+^## |\s*\Z)"
# The public types of the Rust crate, and what each has, but for futures and drops; other names.
RUST = """AsyncCell Debug Default const new new_with into_inner shared into_shared set or_set
 replace update update_some notify try_take try_get is_set take take_shared take_weak get get_shared
 get_weak guard guard_shared wait wait_shared TakeRef GetRef weakref parking_lot no_std
Take Clone Copy must_use repr
Get Clone Copy must_use repr
TakeWeak Clone upgrade
GetWeak Clone upgrade
GuardedCell Deref set or_set release"""


def facts(path, *texts):
    """Yields each text, or each clause of it, on a line without comments."""
    for it in (it for text in texts for it in re.split(CLAUSE, text)):
        if it := " ".join(re.sub(r"(?m)(^|\s)(//|-- ).*", "", it).split()):
            yield f"{path} | {it}"


def stated(of):
    """Yields the facts of a crate, but for the words of specs/."""
    exports = [*of.exports()]
    for name, home, item in exports:
        path = f"{of.name}::{name}"
        if not item and home:
            yield f"{path} | all of {home.name}"
            exports += [it for it in home.exports() if it[0].startswith(f"{name}::")]
        if not item or item.is_hidden:
            continue
        yield from facts(path, item.declaration, item.contract)
        for within, it in api.functions(home, item):
            yield from facts(path, within.head)
            yield from facts(f"{path}::{it.name}", it.declaration, it.contract)
        for it in (it for it in home.impls(item) if it.is_of_trait):
            yield from facts(f"{path} as {' '.join(it.head.split())}", it.declaration, it.contract)


def named_by(parts):
    """Yields what a clause may name, with its fact: definitions of specs/, and types of parts."""
    for name, homes in api.definitions().items():
        for of, (file, text) in homes.items():
            path = f"{of}.{pathlib.Path(file).stem}.{name}"
            yield from ((name, fact) for fact in facts(path, text) if "callers" not in of)
    for of in filter(None, map(api.crate, parts)):
        for it in (it for it in of.named.values() if it.is_type):
            yield from ((it.name, fact) for fact in facts(f"{of.name}.{it.name}", it.declaration))


def all_facts(top):
    """Returns what is stated, and the words that this names, or that these name in turn."""
    api.TOP = top
    api.crate.cache_clear()
    api.definitions.cache_clear()
    taken = re.findall(r"`(?!example_)(\w+)`(?=.* \| )", api.read(f"{top}/README.md"))
    needs = dict(re.findall(r"(?m)^(\w+):(.*)", api.read(f"{top}/crates.txt")))
    taken = [it for it in taken if it in needs]
    found = {fact for of in filter(None, map(api.crate, taken)) for fact in stated(of)}
    found |= {f"crates.txt {it} |{needs[it]}" for it in taken}
    found |= {f"{of or 'cellrun'} {it.strip()} | {rest}" for files, pattern in WORDS.items()
              for file in pathlib.Path(top).glob(files)
              for of, it, rest in re.findall(pattern, api.read(file))}
    parts = [*named_by([it for it in needs if "async" in it and it not in taken])]
    facts_of = {name: " ".join(it for of, it in parts if of == name) for name, _ in parts}
    named = reached(NAMES(" ".join(found)), lambda name: NAMES(facts_of.get(name, "")))
    return found | {it for name, it in parts if name in named}


def unnamed(now, then, told):
    """Yields each change that none of these words tells."""
    items = [{it[0] for it in map(ITEM.match, of) if it} for of in (now, then)]
    for fact in now ^ then:
        path = fact.split(" | ")[0]
        item, names = ITEM.match(path), NAMES(path.split(" as ")[0])
        name = names[1 if item and item[0] not in items[0] & items[1] else -1]
        # (what is new in specs/ is in a clause, too)
        if (item or " " in path or fact in then) and name not in told:
            yield f"clauses: CHANGELOG does not name {path}"


def quoted(text):
    """Returns the words that stand in backquotes."""
    return set(NAMES(" ".join(re.findall(r"`([^`]+)`", text))))


def missing():
    """Yields each item of the Rust crate that neither a cell has, nor a row of DIFFERENCES."""
    rows = api.read(f"{HERE}/docs/DIFFERENCES.md").partition("\n## Left out\n")[2]
    rows = [quoted(it) for it in re.findall(r"(?m)^- (.*?):\s", rows)]
    for of, *names in map(str.split, re.split(r"\n(?! )", RUST)):
        for cell in map(api.crate, ("async_cell_sync", "async_cell_unsync")):
            item = cell.named[of]
            has = [it.name for _, it in api.functions(cell, item)] + [item.declaration]
            has += [it.head for it in cell.impls(item) if it.is_of_trait]
            for name in set(names).difference(NAMES(" ".join(has))):
                if not any({name, of} - {"AsyncCell"} <= row for row in rows):
                    yield f"clauses: DIFFERENCES has no row for {name} of {of} in {cell.name}"


def git(*said):
    """Returns what git prints: nothing if it fails."""
    said = subprocess.run(["git", "-C", HERE, *said], capture_output=True, text=True, check=False)
    return said.stdout


def main(since):
    log, releases = (api.read(f"{HERE}/{it}") for it in ("CHANGELOG.md", "RELEASES"))
    below = (it.split()[0] for it in re.split(r"(?m)^## ", log)[2:])
    faults = [f"clauses: RELEASES does not name {it}" for it in below if f"{it} " not in releases]
    for line in re.findall(r"(?m)^[^#\n].*", releases):
        name, commit, kit, *why = line.split(" ", 3)
        is_below = git("merge-base", commit, "HEAD") == f"{commit}\n"
        if not is_below or git("show", f"{commit}:VERSION") != f"version {name}\n":
            sys.exit(f"clauses: {name} in RELEASES is no commit below (git fetch --unshallow)")
        logs = log, git("show", f"{commit}:CHANGELOG.md")
        stands, was = (re.findall(SECTION.format(name), it) for it in logs)
        if [it.partition("\n\n### Corrected later\n")[0] for it in stands] != was:
            faults += [f"clauses: CHANGELOG's section {name} is not as it was released"]
        if f"for `{kit}`\n" not in "".join(was) or not re.match("withdrawn: .|$", "".join(why)):
            faults += [f"clauses: RELEASES says what the release does not: {line}"]
    with tempfile.TemporaryDirectory() as folder:
        whole = subprocess.check_output(["git", "-C", HERE, "archive", since or commit])
        subprocess.run(["tar", "-x", "-C", folder], input=whole, check=True)
        now, lost = all_facts(HERE), [*missing()]
        then = all_facts(folder)
        known = [str(it) for top in (HERE, folder) for it in pathlib.Path(top).glob("[a-z]*/*")]
    first, _, said = re.split(r"(?m)^## ", log)[1].partition("\n")
    told = quoted("" if not since and first.startswith(f"{name} ") else said)
    unknown = told.difference(NAMES(" ".join([*now, *then, *known])))
    faults += [f"clauses: CHANGELOG names {it}, which is nothing of users" for it in unknown]
    faults = sorted({*faults, *lost, *unnamed(now, then, told)})
    changes = sorted(f"{'+' if it in now else '-'} {it}" for it in now ^ then)
    total = f"clauses: {len(now)} facts, {len(changes)} changed, {len(faults)} faults"
    print(*changes, *faults, total, sep="\n")
    return len(faults) > 0


if __name__ == "__main__":
    sys.exit(main(*sys.argv[1:] or [None]))
