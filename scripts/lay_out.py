"""Lays the tests out as a crate of a project of its own.

`python3 scripts/lay_out.py --format` formats the texts of tests/ as `rt fmt` does.

The texts of tests/code are no .rt files, so that no check of the repository reads them: they are
tried and not proved. In the project they are the modules of one crate, `tests`, beside copies of
the crates that they test, and that of cells a second time, for one thread.
"""
import os
import re
import shutil
import subprocess
import sys
import tempfile

TOP = os.path.dirname(os.path.dirname(os.path.abspath(__file__)))
CODE = f"{TOP}/tests/code"
# How a program is run of which all that it says is read.
READ = {"stdin": subprocess.DEVNULL, "stdout": subprocess.PIPE, "stderr": subprocess.STDOUT}
READ["text"] = True
# What stands otherwise in a text of cells of one thread: no right to wait for a lock is taken, and
# owners end by their drop. What follows such a comment, up to an empty line, is left out.
WITHOUT_LOCK = [
    (r"(?m)^ *// Of what threads share\.\n(?:.+\n)+\n?", ""),
    (r"    let right = rt;\n", ""),
    (r"_sync\b", "_unsync"),
    (r"(use std::rc::Rc;\n)?use std::sync::Arc;", "use std::rc::Rc;"),
    (r"\bArc::try_clone\(pointer\)", "pointer.clone()"),
    (r"\bArc\b", "Rc"),
    (r"\bowner\.end\(&world\.rt\)", "drop(owner)"),
    (r", (?:R|HostRuntime)(?=>|, Ruled)", ""),
    (r" as Request<R>>", " as Request<_>>"),
    (r"(, )?&?(world\.rt|\$?right(:ident)?)\)", ")"),
]


def read(path):
    with open(path, encoding="utf-8") as file:
        return file.read()


def write(path, text):
    os.makedirs(os.path.dirname(path), exist_ok=True)
    with open(path, "w", encoding="utf-8") as file:
        file.write(text)


def said_by(*command):
    """Returns what a program says, which has to end with status 0."""
    return subprocess.run(command, check=True, **READ).stdout


def line_of(found, group=0):
    """Returns the number of the line in which what was found begins, or a group of it."""
    return found.string.count("\n", 0, found.start(group)) + 1


def reached(names, used_by):
    """Returns these names, and those that they lead to: what each uses, also in turn."""
    found, left = set(), {*names}
    while left:
        found |= left
        left = {it for name in left for it in used_by(name)} - found
    return found


def uses_of(project):
    """Returns what each crate of a project uses, by its name, as crates.txt says."""
    rows = re.findall(r"^(\w+)[^:#\n]*:(.*)", read(f"{project}/crates.txt"), re.M)
    return {name: used.split() for name, used in rows}


def texts_below(folder):
    """Returns the paths of all texts below a folder, from that folder on, in order."""
    found = [os.path.join(at, name) for at, _, names in os.walk(folder) for name in names]
    return sorted(os.path.relpath(it, folder) for it in found if it.endswith(".rt.txt"))


def lines_of(crates):
    """Returns the lines of crates.txt for these crates."""
    return re.findall(rf"(?m)^(?:{'|'.join(crates)})\b.*\n", read(f"{TOP}/crates.txt"))


def lay(folder, crates, *more):
    """Makes a project in a new folder: these crates, without what was built of them and what the
    prover is to refuse, and lines of crates.txt for more."""
    ignored = shutil.ignore_patterns("out", "must-fail", "bugs*")
    for it in crates:
        shutil.copytree(f"{TOP}/crates/{it}", f"{folder}/crates/{it}", ignore=ignored)
    write(f"{folder}/crates.txt", "".join([*lines_of(crates), *more]))
    shutil.copy(f"{TOP}/HANDLES", folder)
    subprocess.run(["git", "init", "-q", folder], check=True)


def lay_crate(folder, name, source, texts):
    """Makes a project in a new folder: all crates, and one more, of these texts of a source."""
    lay(folder, uses_of(TOP), read(f"{source}/crates.line"))
    for it in texts:
        write(f"{folder}/crates/{name}/src/{it.removesuffix('.txt')}", read(f"{source}/{it}"))


def texts_of(module):
    """The texts of a module of the tests, from tests/code on."""
    return [it for it in texts_below(CODE) if re.match(rf"{module}(/|\.rt\.txt$)", it)]


def with_used(modules):
    """Returns these modules of the tests, and those that they use."""
    texts = lambda module: "".join(read(f"{CODE}/{it}") for it in texts_of(module))
    used_by = lambda module: filter(texts_of, re.findall(r"\bcrate::(\w+)::", texts(module)))
    return sorted(reached(modules, used_by))


def without_lock(text):
    """Returns what a text of cells that threads share is of those that one thread has."""
    for old, new in WITHOUT_LOCK:
        text = re.sub(old, new, text)
    return text


def lay_out(folder, modules=None):
    """Makes the project in a new folder, with these modules of the tests and what they use, or with
    all; `cells`, if it is among them, a second time, as `cells_unsync`."""
    every = {it.split("/")[0].removesuffix(".rt.txt") for it in texts_below(CODE)}
    chosen, source = with_used(modules or every), f"{folder}/crates/tests/src"
    lay_crate(folder, "tests", CODE, [text for it in chosen for text in texts_of(it)])
    if "cells" in chosen:
        chosen.append("cells_unsync")
        write(f"{source}/cells_unsync.rt", without_lock(read(f"{source}/cells.rt")))
    declared = "".join(f"#[cfg(test)]\nmod {it};\n" for it in chosen)
    write(f"{source}/lib.rt", f"//! Tests.\n#![tactic(auto)]\n\n{declared}")


def formatted():
    """Returns, by their names from tests/ on, the texts that `rt fmt` would write otherwise."""
    before = {it: read(f"{TOP}/tests/{it}") for it in texts_below(f"{TOP}/tests")}
    with tempfile.TemporaryDirectory() as folder:
        write(f"{folder}/crates.txt", "texts:\n")
        source = f"{folder}/crates/texts/src"
        for it, text in before.items():
            write(f"{source}/{it.removesuffix('.txt')}", text)
        how = {"cwd": f"{folder}/crates/texts", "stdout": subprocess.DEVNULL}
        subprocess.run(["rt", "fmt"], check=True, **how)
        after = {it: read(f"{source}/{it.removesuffix('.txt')}") for it in before}
    return {it: text for it, text in after.items() if text != before[it]}


def main(words):
    if words != ["--format"]:
        sys.exit(__doc__)
    for it, text in formatted().items():
        write(f"{TOP}/tests/{it}", text)
        print(f"formatted tests/{it}")


if __name__ == "__main__":
    main(sys.argv[1:])
