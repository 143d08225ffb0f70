#!/usr/bin/env python3
"""Looks over the pages: `python3 scripts/pages.py [PAGE..]`; none: all *.md that git has.

Finds rows of a table without a header, links to nothing, and, written as code or in a shell's
block, paths where nothing lies, crates that are not there, options that a script does not know,
words that `rt` does not know, and another kit than this; paths of a machine, numbers of issues, and
figures typed by hand in a section on instructions or times. On the pages NAMED each name written as
code has to stand in the sources, and each label of CONTRIBUTING's table in a clause. It reads no
sense and runs no command: whether a sentence is true, or a label is of the call it speaks of, is
for who reviews. In the sources it finds lines, functions and files that are too long. Prints a line
for each fault, and last how many pages it read, how many faults it found, and how large all is; the
status is 0 if there is no fault.
"""
import functools
import glob
import os
import re
import subprocess
import sys
from collections import Counter

from lay_out import READ, TOP, line_of, read, said_by

# The end of a link, whose words may begin on the line above; and links of other forms.
LINK = re.compile(r"\]\(<?([^)\s>]+)")
STRANGE = re.compile(r"\]\[|^ {0,3}\[[^\]]+\]:|\b(?:href|src)=")
MACHINE = re.compile(
    r"(?<![\w.~])/(?:tmp|home|root|work|opt|usr|mnt)\b|(?<![\w(/])#\d+\b|\bissues? #?\d+"
)
CODE = re.compile(r"`([^`\n]+)`")
# Code that may go on in the next lines.
SPAN = re.compile(r"(?<!`)(`+)(?!`)((?:[^\n]|\n(?!\s*\n))+?)(?<!`)\1(?!`)")
# Paths of the repository begin so; what stands for any name is no path.
PATH = re.compile(r"(?:crates|docs|scripts|tests|bench|misuse|reentry|examples)/[\w./*-]+")
# Names of crates begin so.
CRATE = re.compile(r"(?:async_cell|bench|example)_\w+|cellrun|ghost_[a-z]+")
CALL = re.compile(r"\b((?:scripts|bench|misuse)/\w+\.(?:py|sh))([^|`]*)")
# What `rt` is told, on a page and in its help, and what it prints of itself.
TOLD = re.compile(r"(?:^|[ (;&])rt ([a-z][\w-]*)")
KNOWN = re.compile(r"(?m)^(?:usage:| ) +rt ([a-z][\w|-]*)")
KIT = re.compile(r"(rattle-kit-\w+) (logic \w+)")
# Pages whose names, written as code, have to stand in the sources (no part of a path does).
NAMED = re.compile(r"docs/(?:PROMISES|DEFINITIONS|EXPLICIT)\.md|crates/\w+/CALLING\.md")
NAME = re.compile(r"(?<![\w./-])[A-Za-z_]\w{2,}(?![\w/-]|\.\w)")
# Pages that may have figures: the table's own, and what each choice saved when it was made.
WITH_FIGURES = ("bench/README.md", "docs/DECISIONS.md", "CHANGELOG.md")
# What a section speaks of that may have no figures over 99, but round ones and a size.
COSTS = re.compile(r"(?i)instruction|\d (?:cycles|[nµu]s)\b")
FIGURE = re.compile(r"(?<![\w.-])(?<!\d,)(?!1,?024\b(?!,\d))\d[\d,]*\d\d(?<!00)(?![\w-]|,\d)")
# What stands around the libraries, and the sources of these: their lines are printed.
AROUND = re.compile(r"(?:tests|scripts|bench|misuse|crates/bench_\w+)/")
SOURCES = re.compile(r"crates/(?:async_cell(?!\w*_callers/)\w*|cellrun|ghost_tokens)/src/")
# How many functions the toolchain advises for a crate at most: crates with more are printed.
ADVISED = 100
FUNCTION = re.compile(r"^ *(?:pub(?:\([a-z]+\))? )?(?:const )?(?:unsafe )?fn [a-z]", re.M)
# How many lines a file and a body may have, and columns a line, but for imports and attributes:
# more than the 100 and 200 that CONTRIBUTING asks for, as some clauses and comments have.
LONGEST, LONGEST_BODY, WIDEST, WIDEST_PROOF = 400, 40, 112, 224
LINE = re.compile(r"(?m)^(?! *(?:(?:ghost )?use |#!?\[)).+")
# (what begins with a `type` is an impl, and has bodies)
BODY = re.compile(
    r"(?m)^( *)(?:\{(?!\n +type )|\)(?: ->.*)? \{|(?:pub\S* )?(?:const |unsafe )*fn [a-z].*\{)\n"
    r"(?:.*\n)*?\1\}\n"
    r"|^( *)def .*\n(?:\2 +.*\n|\n(?=\2 ))*"
)
# What a page says of a project of its reader's.
THEIRS = ("crates/my_program", "crates/queue", "crates/railyarrow")


def prose_of(text):
    """Returns the lines of a page with those of its blocks of code empty, but for a shell's, each
    of whose lines is code."""
    lines, block = [], None
    for line in text.split("\n"):
        if line.lstrip().startswith("```"):
            block = line.strip("` ") if block is None else None
            lines.append("")
        else:
            lines.append(f"`{line}`" if block == "sh" else line if block is None else "")
    # (a span of code that goes on in the next line is one in each)
    split = SPAN.sub(lambda it: it[0].replace("\n", f"{it[1]}\n{it[1]}"), "\n".join(lines))
    return split.split("\n")


def rows_without_header(lines):
    """Yields each row that begins a table without a second row of dashes below it."""
    for at, (above, line, below) in enumerate(zip(["", *lines], lines, [*lines[1:], ""])):
        is_first = line.startswith("|") and not above.startswith("|")
        if is_first and not re.fullmatch(r"\|[\s:|-]+\|", below):
            yield at, f"a row of a table without a header: {line[:60]}"


def anchors_of(text):
    """Returns what links to headings of this page may name."""
    titles = [it.lstrip("#").strip() for it in prose_of(text) if it.startswith("#")]
    plain = [re.sub(r"[^\w\s-]", "", it.lower()) for it in titles]
    return {it.replace(" ", "-") for it in plain}


def dead_links(page, lines):
    for at, line in enumerate(lines):
        plain = re.sub(CODE, "", line)
        for link in LINK.findall(plain):
            file, _, anchor = link.partition("#")
            if re.match(r"[a-z]+:", link):
                continue
            path = os.path.join(os.path.dirname(page), file) if file else page
            if not os.path.exists(path):
                yield at, f"a link to {link}, and there is no such file"
            elif anchor and path.endswith(".md") and anchor not in anchors_of(read(path)):
                yield at, f"a link to {link}, and there is no such heading"
        if STRANGE.search(plain):
            yield at, "a link of another form than [words](place)"


def names_of_nothing(page, lines):
    for at, line in enumerate(lines):
        code = CODE.findall(line)
        for path in PATH.findall(" ".join(code)):
            is_any = path.startswith(THEIRS) or re.search(r"\b[A-Z]{3,}\b(?!\.\w)|\.\.\.?$", path)
            if not is_any and not glob.glob(path.rstrip("./")):
                yield at, f"`{path}`, where nothing lies"
        for name in code:
            if CRATE.fullmatch(name) and not os.path.isdir(f"crates/{name}"):
                yield at, f"`{name}`, and there is no such crate"
            for word in TOLD.findall(name):
                if word not in "|".join(KNOWN.findall(tools())).split("|"):
                    yield at, f"`rt {word}`, which `rt help` does not name"
        # (an option that stands alone is one of any script; CHANGELOG has some that are gone)
        alone = [it for it in code if it.startswith("--") and page != "CHANGELOG.md"]
        called = CALL.findall(" | ".join(code)) + [("any script", f" {it}") for it in alone]
        for script, words in called:
            known = read(script) if os.path.isfile(script) else tools()
            for option in re.findall(r" (--\w[\w-]*)", words):
                if not re.search(rf"{option}(?![\w-])", known):
                    yield at, f"{option}, which is not known to {script}"
        # (kits of one logic are served in turn: a page may also name that of a release)
        for kit, logic in KIT.findall(line):
            if logic not in tools() or kit not in f"{tools()}\n{read('RELEASES')}":
                yield at, f"{kit} {logic}, which is not what `rt version` prints"
        for it in MACHINE.findall(line):
            yield at, f"{it}, a path of a machine or the number of an issue"


@functools.cache
def tools():
    """Returns the texts of all scripts, and what `rt` prints of itself."""
    said = [subprocess.run(["rt", it], check=False, **READ).stdout for it in ("version", "help")]
    return "\n".join([*said, *map(read, git_files("*.py", "*.sh"))])


@functools.cache
def sources():
    """Returns the words of the libraries' texts and of crates.txt, and the labels of clauses."""
    texts = [read(it) for it in git_files("crates/*.rt", "crates/*.antt")]
    words = {*re.findall(r"\w+", "\n".join([*texts, read("crates.txt")]))}
    words |= {it.removeprefix("async_cell_") for it in words} | {it.split("/")[1] for it in THEIRS}
    return words, {*re.findall(r"\b(?:requires|ensures|ghost) (\w+)", "\n".join(texts))}


def unknown_names(page, lines):
    words, labels = sources()
    for at, line in enumerate(lines):
        for name in NAME.findall(" ".join(CODE.findall(line))) if NAMED.fullmatch(page) else []:
            if name not in words:
                yield at, f"`{name}`, which stands in no source"
    if page == "CONTRIBUTING.md":
        for at in range(lines.index("## Labels of clauses"), len(lines)):
            for name in re.findall(r"`(\w+)`", lines[at].split(" | ")[0]):
                if name not in labels:
                    yield at, f"`{name}`, which is the label of no clause"


def typed_figures(page, lines):
    heads = [at for at, line in enumerate(lines) if line.startswith("#")]
    for start, end in zip([0, *heads], [*heads, len(lines)]):
        if page not in WITH_FIGURES and COSTS.search(" ".join(lines[start:end])):
            found = ((at, it) for at in range(start, end) for it in FIGURE.findall(lines[at]))
            yield from ((at, f"{it}: figures stand in bench/README.md alone") for at, it in found)


def git_files(*patterns):
    return [it for it in said_by("git", "ls-files", *patterns).split() if os.path.isfile(it)]


def sizes(pages):
    """Says how large all is: words of pages, lines of two sorts of files, and functions of crates
    that have more than the toolchain advises."""
    lines = {it: read(it).count("\n") for it in git_files()}
    around, own = (sum(n for it, n in lines.items() if of.match(it)) for of in (AROUND, SOURCES))
    found = ((it, FUNCTION.findall(read(it))) for it in git_files("crates/*/src/*"))
    has = Counter(it.split("/")[1] for it, functions in found for _ in functions)
    crowded = ", ".join(f"{it} {n}" for it, n in has.items() if n > ADVISED)
    words = sum(len(read(it).split()) for it in pages)
    return (f"{words:,} words, {around:,} lines around the libraries, {own:,} of their sources,"
            f" over {ADVISED} functions: {crowded or 'none'}")


def too_long():
    """Yields each line, body and file that is too long to be read at a glance."""
    for path in git_files("*.antt", "*.rt", "*.rt.txt", "*.py", "*.sh"):
        text, widest = read(path), WIDEST_PROOF if path.endswith(".antt") else WIDEST
        parts = [(it, len(it[0]), "columns", widest) for it in LINE.finditer(text)]
        parts += [(it, it[0].count("\n"), "lines", LONGEST_BODY) for it in BODY.finditer(text)]
        parts += [(it, it[0].count("\n"), "lines", LONGEST) for it in re.finditer("(?s).+", text)]
        for it, has, what, most in parts:
            if has > most:
                yield f"{path}:{line_of(it)}: {has} {what}, and at most {most} may be"


def faults_of(page):
    lines = prose_of(re.split(r"\n## \d", read(page))[0])  # (what is released stays as it was)
    looks = [rows_without_header(lines), dead_links(page, lines), names_of_nothing(page, lines)]
    looks += [unknown_names(page, lines), typed_figures(page, lines)]
    return [fault for it in looks for fault in it]


def main(pages):
    os.chdir(TOP)
    pages = pages or git_files("*.md")
    faults = [f"{page}:{at + 1}: {why}" for page in pages for at, why in faults_of(page)]
    faults += too_long()
    print(*faults, f"pages: {len(pages)} read, {len(faults)} faults; {sizes(pages)}", sep="\n")
    return 1 if faults or not pages else 0


if __name__ == "__main__":
    sys.exit(main(sys.argv[1:]))
