#!/usr/bin/env python3
"""Runs each Rust snippet of the pages and the docstrings: `python3 scripts/snippets.py [PAGE..]`.

A snippet of a page is whole: with its `use` lines it is a program, or the body of its `main`, or
items alone, which only have to compile. An example in a docstring is the body of a `main`, and has
the exports of its crate and IMPORTS. All are modules of one program in a temporary project, which
`rt try` builds and runs, and proves nothing. What one prints has to be what its comments
`// prints TEXT` say, or the text block after it. Of one below the comment `<!-- snippet of
crates/NAME/src/FILE.rt -->` it is only seen that its lines stand in that file, one after the other,
but where a line `// ..` stands for others. Other blocks, of text or of a shell, are not read here.
The last line is 'N passed, M failed'; the status is 0 if none failed.
"""
import os
import re
import subprocess
import sys
import tempfile

from api import libraries
from lay_out import TOP, lay, line_of, read, uses_of, write
from pages import git_files

SNIPPET = re.compile(
    r"(?s)(?:<!-- snippet of (\S+) -->\n)?```rust\n(.*?)\n```\n"
    r"(?:\n(?:It prints:?\n\n)?```text\n(.*?)\n```)?"
)
EXAMPLE = re.compile(r"^ */// ```rust\n((?: *///.*\n)+?) */// ```$", re.M)
# What the examples in docstrings name, where it is from.
IMPORTS = {"next": "futures::StreamExt", "block_on": "futures::executor::block_on"}
IMPORTS |= {"left_future": "futures::FutureExt"}
IMPORTS |= {it: f"futures::future::{it}" for it in ("pending", "ready", "select", "Either")}
IMPORTS |= {"thread": "std::thread", "Duration": "std::time::Duration"}
# What `rt` may do in a module, where HostRuntime has no rights of its own.
RIGHTS = (
    "std::sync::Wait + std::thread::Threads + std::net::Net + std::time::Clock + std::io::Print"
    " + std::random::RandomSource + std::alloc::AllocGlobal + Copy + Send + Sync + 'static"
)
RUN = f"pub fn run<R: {RIGHTS}>(rt: R)"
BODY = f"{RUN} -> anyhow::Result<()> {{"


class Snippet:
    """A snippet, with the page and the line at which it begins."""

    def __init__(self, where, text, copied=None, printed=None):
        self.where, self.text, self.copied = where, text, copied
        self.printed = printed or "\n".join(re.findall(r"// prints (.*)", self.text))
        self.name = re.sub(r"\W", "_", self.where).lower()
        self.failure = None

    def module(self):
        """The snippet as a module with a function `run`, without its own lines moved."""
        if "fn main(rt: HostRuntime)" in self.text:
            text = self.text.replace("#![tactic(auto)]", "")
            return text.replace("fn main(rt: HostRuntime)", RUN)
        if re.search(r"^(fn|struct) ", self.text, re.M):
            return f"{self.text}\n{BODY}\nlet _ = rt;\nOk(())\n}}"
        uses, body = re.fullmatch(r"((?:use .*\n)+\n)(.*)", self.text, re.S).groups()
        return f"{uses.strip()} {BODY}\n\n{body}\nOk(())\n}}"

    def compare(self, printed):
        if printed is None:
            self.failure = "it did not run to its end"
        elif printed.strip() != self.printed.strip():
            self.failure = f"it printed\n{printed.strip()}\nand the page says\n{self.printed}"

    def compare_with_file(self):
        """Whether the file that it names has the parts of the snippet, in their order."""
        path = os.path.join(TOP, self.copied)
        texts = [self.text + "\n", read(path) if os.path.isfile(path) else ""]
        ours, theirs = (re.sub(r"\n\s*\n", "\n", it) for it in texts)
        parts = re.split(r"(?m)^ *// \.\.\n", ours)
        if not re.search(".*".join(f"^{re.escape(it)}" for it in parts), theirs, re.M | re.S):
            self.failure = f"{self.copied} has not these lines, none left out but at `// ..`"


def snippets_of(page):
    for it in SNIPPET.finditer(read(os.path.join(TOP, page))):
        yield Snippet(f"{page}:{line_of(it)}", it[2], it[1], it[3])


def unread(paths, snippets):
    """Yields each of these files with blocks of code, but of a shell or of text, that are no
    snippet: in a list, say, of another language or none, or in the docstring of a crate."""
    for path in paths:
        ends = re.findall(r"(?m)^[ />!*-]*(?:```|~~~) *(.*)", read(path))
        blocks = len(ends) / 2 - sum(it in ("sh", "text") for it in ends)
        if blocks != sum(it.where.startswith(f"{path}:") for it in snippets):
            yield f"{path} has {blocks:g} blocks of code, not all of which are read"


def examples_of(crate):
    """Yields the examples in the docstrings of a crate."""
    names = {name.split("::")[-1]: f"{crate.name}::{name}" for name, _, _ in crate.exports()}
    names = {**IMPORTS, **names}
    for file in sorted({it.file for it in crate.items}):
        for it in EXAMPLE.finditer(read(file)):
            text = re.sub(r"(?m)^ */// ?", "", it[1])
            uses = [f"use {names[word]};\n" for word in set(re.findall(r"\w+", text)) & {*names}]
            where = f"{os.path.relpath(file, TOP)}:{line_of(it)}"
            yield Snippet(where, "".join(uses) + "\n" + text)


def lay_out(work, snippets):
    """Writes a program of the snippets, beside the crates that their `use` lines name."""
    lines = ["//! The snippets.", "#![tactic(auto)]"]
    lines += [f"mod {it.name};" for it in snippets]
    lines += ["fn main(rt: HostRuntime) -> anyhow::Result<()> {"]
    for it in snippets:
        lines += [f'println!(rt; "== {it.name}")?;', f"{it.name}::run(rt)?;"]
    files = {it.name: it.module() for it in snippets}
    files["main"] = "\n".join([*lines, "Ok(())", "}"])
    for name, text in files.items():
        write(f"{work}/crates/snippets/src/{name}.rt", text + "\n")
    used = set(re.findall(r"^use (\w+)", "\n".join(files.values()), re.M)) - {"std"} | {"anyhow"}
    lay(work, uses_of(TOP), f"snippets: {' '.join(sorted(used))}\n")


def run(snippets):
    """Builds and runs them as one program, and once more without those that do not compile."""
    if not snippets:
        return
    print(f"{len(snippets)} snippets in one program ..", flush=True)
    with tempfile.TemporaryDirectory() as work:
        lay_out(work, snippets)
        asked = ["rt", "try", "--steps", "1"]
        ran = subprocess.run(asked, cwd=f"{work}/crates/snippets", stdin=subprocess.DEVNULL,
                             capture_output=True, text=True)
    for it in snippets:
        it.failure = "\n".join(re.findall(rf"(?m)^src/{it.name}\.rt:.*error.*", ran.stderr))
    left = [it for it in snippets if not it.failure]
    if len(left) < len(snippets):
        run(left)
        return
    parts = re.split(r"^== (\w+)\n", ran.stdout, flags=re.M)
    printed = dict(zip(parts[1::2], parts[2::2]))
    for it in snippets:
        it.compare(printed.get(it.name))
    if ran.returncode:
        last = [it for it in snippets if it.name in printed][-1:] or snippets
        last[-1].failure = "\n".join((ran.stderr + ran.stdout).splitlines()[-8:])


def main(pages):
    os.chdir(TOP)
    asked = pages or git_files("*.md")
    snippets = [it for page in asked for it in snippets_of(page)]
    snippets += [] if pages else [it for of in libraries() for it in examples_of(of)]
    for it in snippets:
        if it.copied:
            it.compare_with_file()
    run([it for it in snippets if not it.copied])
    failed = [f"{it.where}: {it.failure}" for it in snippets if it.failure]
    passed = len(snippets) - len(failed)
    sources = [] if pages else git_files("crates/*.rt")
    failed += unread([*asked, *sources], snippets)
    for it in failed:
        print(f"FAILED {it}")
    print(f"{passed} passed, {len(failed)} failed")
    return 1 if failed or not passed else 0


if __name__ == "__main__":
    sys.exit(main(sys.argv[1:]))
