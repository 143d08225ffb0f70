#!/usr/bin/env python3
"""Makes the API reference: a page of Markdown for each library, and README.md, which lists them.

    python3 scripts/api.py FOLDER     writes the pages there
    python3 scripts/api.py --check    writes nothing

A page has the public items of a crate, also those that it exports from crates below it, and first
those that GUIDE names first: each with its declaration, its docstring and its contract, folded away
under the labels (that of a law is shown). What is `doc(hidden)`, or has a docstring that begins
with "Internal", is left out. Prints a line for each public item, variant or field without a
docstring, export that is not found, and item of a form that is not known here. The last line is
'api: N public items, M faults', and the status is 0 if M is.
"""
import functools
import glob
import os
import re
import sys
import textwrap

from lay_out import TOP, line_of, read, write
from try_kit import KIT

# The comments of crates.txt, and the libraries that it lists.
LISTED = re.compile(r"^# (.*)|^((?:async_cell|ghost_)(?!\w*_callers:)\w*):", re.M)
# An item as `rt fmt` lays it out: docstring and attributes, head, and body.
ITEM = (
    r"((?:^PAD(?:///|#\[)[^\n]*\n)*)^PAD((pub )?(?:const (?=fn|unsafe)|unsafe (?=fn|trait|impl))*"
    r"(fn|struct|enum|trait|type|mod|impl|use|const|static|ghost)\b ?(\w*).*?)"
    r"(?:;|\{\}|\{\n(.*?)^PAD\};?)(?: //[^\n]*)?$"
)
# What ITEM does not know: a public item of another kind, or a macro that is not hidden.
UNKNOWN = re.compile(
    r"^ *pub (?!(?:const |unsafe )*(?:fn|struct|enum|trait|type|mod|use|const|static|ghost)\b)\w+ .*"
    r"|(?<!#\[doc\(hidden\)\]\n)^ *#\[macro_export\]",
    re.M,
)
# The generics of an impl, and a private field of a struct.
GENERICS = re.compile(r"^impl<(?:[^<>]|<(?:[^<>]|<[^<>]*>)*>)*>")
PRIVATE = re.compile(r"(?:^ *(?:///|#\[).*\n)*^    (?!pub |///|#\[)\S.*\n", re.M)
# A variant or a field without a docstring, also a field of a variant.
BARE = re.compile(r"^(?! *(?:///|#\[)).*\n    (?:    )?(?:pub )?\w", re.M)
# In `specs/`: the head of a module or a definition, with its comment; and what is none, but code.
DEFINED = re.compile(
    r"(?m)^((?: *--.*\n)*( *)(?:module(?:.*\n)*?.* where$|"
    r"(?:[a-z]+ )*?(?:pub|abbrev) (?!pub |mod |use )(?:record |data )?(\S+).*(?:\n\2(?: +|\3 |}).*)*))"
)
OTHER = re.compile(r"(?m)^(?! *--|(?:pub )?(?:use|mod) ).*\S")
WORD = re.compile(r"\b\w+\b")
USE = re.compile(r"pub use ([\w:]+?)(?:::\{(.*)\})?(?: as (\w+))?$", re.S)
ALSO = re.compile(r"(\w+)(?: as (\w+))?")


class Item:
    """An item, with the items inside it."""

    def __init__(self, file, found, pad):
        marks, head, self.is_public, self.kind, self.name, body = found.groups("")
        head += f"{{{body}}}" if self.kind == "use" and body else ""
        self.file, self.line = file, line_of(found, 2)
        marks = [it.strip() for it in marks.split("\n")]
        self.docs = "\n".join(it[4:] for it in marks if it.startswith("///"))
        self.is_hidden = "#[doc(hidden)]" in marks or self.docs.startswith("Internal")
        head = textwrap.dedent(pad + head)
        self.head = re.split(r"\n\s*(?=(?:requires|ensures)\b)", head)[0].rstrip()
        self.contract = textwrap.dedent(head[len(self.head) :].strip("\n")).rstrip()
        derives = [it for it in marks if "derive" in it]
        self.declaration = re.sub(r"#\[.*?\] |pub\(crate\) ", "", "\n".join([*derives, self.head]))
        self.is_type = self.kind in ("struct", "enum")
        if body and self.is_type:
            body = PRIVATE.sub("", body) if self.kind == "struct" else body
            body = body or "    // private fields\n"
            self.declaration += f" {{\n{body}}}"
        self.is_declared = self.is_public and self.kind not in ("use", "mod")
        self.inside, self.names, self.is_of_trait = [], [], False
        if self.kind in ("impl", "trait"):
            self.inside = list(items(file, found.string, pad + "    ", *found.span(6)))
            text = re.split(r"\swhere\b", GENERICS.sub("", head.replace("->", "")))[0]
            self.is_of_trait = self.kind == "impl" and " for " in text
            self.names = re.findall(r"\b[A-Z]\w+", text)[: None if self.is_of_trait else 1]
            told = [it for it in self.inside if it.kind == "ghost" and it.name != "use"]
            told += [it for it in self.inside if it.contract] if self.is_of_trait else []
            self.contract = "\n\n".join(it.told() for it in told)

    def told(self):
        docs = "".join(f"/// {line}\n" for line in self.docs.split("\n") if line)
        return f"{docs}{self.head}\n{textwrap.indent(self.contract, '    ')}".rstrip()


def items(file, text, pad="", *span):
    """Yields the items of a text whose lines begin so."""
    for found in re.compile(ITEM.replace("PAD", pad), re.M | re.S).finditer(text, *span):
        yield Item(file, found, pad)


class Crate:
    """A crate: its items, and what it exports."""

    def __init__(self, folder):
        self.folder, self.name = folder, os.path.basename(folder)
        files = sorted(glob.glob(f"{folder}/src/**/*.rt", recursive=True))
        self.items = [it for file in files for it in items(file, read(file))]
        self.named = {it.name: it for it in self.items if it.is_declared}
        self.modules = [it.name for it in self.items if it.kind == "mod" and it.is_public]
        self.docs = "\n".join(re.findall(r"(?m)^//! ?(.*)", read(f"{folder}/src/lib.rt")))
        self.unknown = [(file, it) for file in files for it in UNKNOWN.finditer(read(file))]

    def exports(self):
        """Yields for each export its name, the crate that declares it, and its item."""
        for it in self.items:
            path = os.path.relpath(it.file, f"{self.folder}/src")[:-3].split("/")
            if not it.is_public or it.is_hidden or path[0] not in ("lib", *self.modules):
                continue
            within = [it for it in path if it != "lib"]
            if it.kind == "use":
                first, group, other = USE.match(it.head).groups()
                named = [(first.split("::")[-1], other)] if not group else ALSO.findall(group)
                for name, other in named:
                    found = self.find(first.split("::")[0], name)
                    yield "::".join([*within, other or name]), *found
            elif it.kind != "mod":
                yield "::".join([*within, it.name]), self, it

    def find(self, first, name):
        """Returns the crate that declares the name, and its item; a crate or a module has none."""
        other = self if os.path.isfile(f"{self.folder}/src/{first}.rt") else crate(first)
        if other in (self, None) or name == first or name in other.named:
            found = other and other.named.get(name)
            return (None if other == self and not found else other), found
        found = [(of, it) for exported, of, it in other.exports() if exported == name]
        return (found or [(other if name in other.modules else None, None)])[0]

    def impls(self, item):
        """Returns the impls of a type or a trait: its own first, and those of its file."""
        found = [it for it in self.items if it.kind == "impl" and item.name in it.names]
        found.sort(key=lambda it: (it.is_of_trait, it.file != item.file))
        return [item] * (item.kind == "trait") + found


@functools.cache
def crate(name):
    """Returns the crate of this name, of this repository or of the kit, if there is one."""
    for folder in (f"{TOP}/crates/{name}", f"{KIT}/rattle/{name}"):
        if os.path.isfile(f"{folder}/src/lib.rt"):
            return Crate(folder)


@functools.cache
def libraries():
    return [crate(it) for _, it in LISTED.findall(read(f"{TOP}/crates.txt")) if it]


def functions(home, item):
    """Returns what an impl or a trait has to call, each with that impl or trait."""
    inner = [(it, f) for it in home.impls(item) if not it.is_of_trait for f in it.inside]
    shown = [(it, f) for it, f in inner if f.is_public or it.kind == "trait"]
    return [(it, f) for it, f in shown if f.kind != "ghost" and not f.is_hidden]


def code(text):
    return f"```rust\n{text}\n```"


@functools.cache
def definitions():
    """Returns the definitions by name and crate: file, and text below the heads of its modules."""
    found = {}
    for file in sorted(glob.glob(f"{TOP}/crates/*/specs/**/*.antt", recursive=True)):
        of, within = file.split("/crates/")[1].split("/")[0], {}
        if lost := OTHER.search(DEFINED.sub("", read(file))):
            sys.exit(f"api: {file} has a definition of a form that is not known: {lost[0]}")
        for text, pad, name in DEFINED.findall(read(file)):
            within = {at: it for at, it in within.items() if len(at) < len(pad)} | {pad: text}
            if name:
                found.setdefault(name, {})[of] = file, "\n".join(within.values())
    return found


@functools.cache
def imported(file):
    """Returns the definitions that a file imports for its contracts, each with its crate."""
    uses = re.findall(r"use Rattle\.(\w+)\.specs\.(?!declared)[\w.]*\{(.*?)\}", read(file))
    named = [(of, name.strip()) for of, names in uses for name in names.split(",")]
    return {it.split(".")[-1]: of for of, it in named if not it.startswith("declared.")}


def linked_code(text, home_of):
    """Returns code, and links to what its words are in the crates that `home_of` gives."""
    homes = {it: home_of(it) for it in WORD.findall(text)}
    links = [f"[`{it}`](definitions.md#{of}.{it})" for it, of in homes.items()
             if of in definitions().get(it, {})]
    return f"{code(text)}\n\n{', '.join(links)}"


def definition(of, name, file, text):
    """Returns the section of a definition: the line that imports it, and its text, with links."""
    def home_of(word):
        home = of if of in definitions().get(word, {}) else imported(file).get(word)
        return home if word != name and not (word.isalpha() and word.islower()) else None
    path = os.path.relpath(file[: -len(".antt")], f"{TOP}/crates").replace("/", ".")
    use = code(f"ghost use Rattle.{path}.{{{name}}};")
    return f'## <a id="{of}.{name}"></a>{of}.{name}\n\n{use}\n\n{linked_code(text, home_of)}'


def folded(label, text):
    return f"<details><summary>{label}</summary>\n\n{text}\n\n</details>" * bool(text)


def one(item):
    """Returns the docstring of an item, and its contract, folded away under the labels."""
    labels = re.findall(r"(?m)^(?:    )?(?:requires|ensures|ghost) (\w+)", item.contract)
    label = ": ".join(["Contract", ", ".join(dict.fromkeys(labels))]).rstrip(": ")
    said = linked_code(item.contract, imported(item.file).get) * bool(item.contract)
    is_law = re.search(r"/laws(?:/|\.rt$)", item.file)
    return f"{item.docs}\n\n{said if is_law else folded(label, said)}"


def section(of, name, home, item):
    """Yields the section of an export; its functions are folded away if it is from below."""
    below = f" (of {home.name})" * (home != of)
    yield f'## <a id="{name}"></a>{name}{below}'
    if not item:
        yield f"All of {links_to(home)}"
        return
    yield from (code(item.declaration), one(item))
    inner, last = [], item
    for impl, it in functions(home, item):
        inner += [f"`{impl.head}`"] * (impl not in (last, item))
        inner += [f'### <a id="{name}.{it.name}"></a>{it.name}', code(it.head), one(it)]
        last = impl
    for it in home.impls(item):
        inner += [code(it.head), one(it)] * it.is_of_trait
    named = ", ".join(it.name for _, it in functions(home, item)) or "traits"
    yield folded(named, "\n\n".join(inner)) if below else "\n\n".join(inner)


def links_to(of):
    """Returns the name of a crate, and those of its exports, as links to its page."""
    names = [f"[{it}]({of.name}.md#{it})" for it, _, _ in of.exports()]
    return f"[{of.name}]({of.name}.md): {', '.join(names)}"


def page(folder, name, *parts):
    write(f"{folder}/{name}.md", "\n\n".join([*filter(None, parts), ""]))


def make(folder):
    """Writes the pages, and the one that lists them under the comments of crates.txt. What GUIDE
    names first comes first."""
    guide, title = read(f"{TOP}/docs/GUIDE.md"), ""
    body = ["# The libraries", "[All definitions](definitions.md)"]
    for comment, name in LISTED.findall(read(f"{TOP}/crates.txt")):
        title = comment.split(". ")[-1].rstrip(".") or title
        if name:
            of = crate(name)
            exports = sorted(of.exports(), key=lambda it: (
                it[1] != of, "::" in it[0], len(re.split(rf"\b{it[0]}\b", guide, maxsplit=1)[0])))
            sections = (it for export in exports for it in section(of, *export))
            page(folder, name, f"# {name}", of.docs, *sections)
            body += [f"## {title}" * bool(title), links_to(of), of.docs]
            title = ""
    page(folder, "README", *body)
    parts = (definition(of, name, *homes[of]) for name, homes in sorted(definitions().items()) for of in homes)
    page(folder, "definitions", "# The definitions", *parts)


def public_items(found):
    """Yields the public items among these and inside of them: of a public trait all."""
    for it in found:
        if it.is_declared:
            yield from [it, *it.inside]
        elif it.kind == "impl":
            yield from public_items(it.inside)


def main(folder):
    count, faults = 0, []
    for of in libraries():
        public = list(public_items(of.items))
        count += len(public)
        faults += [f"{it.file}:{it.line}: {it.name}, or a part, has no docstring" for it in public
                   if not it.docs or it.is_type and BARE.search(it.declaration)]
        faults += [f"{of.folder}/src/lib.rt: the crate has no docstring"] * (not of.docs)
        faults += [f"{file}:{line_of(it)}: no item of a form that is known: {it[0].strip()}"
                   for file, it in of.unknown]
        faults += [f"{of.folder}/src/lib.rt: {it} is not found" for it, home, item in of.exports()
                   if not home or not item and home not in libraries()]
    print("".join(f"{os.path.relpath(it, TOP)}\n" for it in faults), end="")
    if not faults and folder != "--check":
        make(folder)
    print(f"api: {count} public items, {len(faults)} faults")
    return 1 if faults or not count else 0


if __name__ == "__main__":
    sys.exit(main(sys.argv[1]) if len(sys.argv) == 2 and sys.argv[1] != "--help" else __doc__)
