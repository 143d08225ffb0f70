"""Reads the files of cases, and writes what the player plays: each case on each of its kinds.

What is read and never played is a fault, and so is a word of the language that no case uses.
"""
import itertools
import re
from collections import namedtuple

KINDS = """locked sync unsync sync_owner unsync_owner shared owner_as cell_as sync_closed
 unsync_closed states states_as sync_slot unsync_slot""".split()
GROUPS = {
    "cells": ("sync", "unsync"),
    "owners": ("sync_owner", "unsync_owner", "owner_as", "cell_as"),
    "closed": ("sync_closed", "unsync_closed"),
    "slots": ("sync_slot", "unsync_slot"),
}
REPLIES = "ok pending ready some back old item inner none true false memory closed full"
REPLIES = f"{REPLIES} shared end woke dropped cloned printed saw".split()
PLACES = "drop clone debug closure wake".split()
# What a call takes, in this order. What ends in `?` may be left out. NAME is a thing that has a
# name (none: `it`), MADE the name that a new thing gets, ON is `on NAME`, and BY is `by TASK`.
CALLS = """
new VALUE?; new_owned VALUE; drop NAME; clones HOW; waker_clones; set VALUE ON?; or_set VALUE ON?;
try_set VALUE ON?; replace VALUE ON?; update HOW? VALUE? ON?; update_some HOW? VALUE? ON?;
modify HOW? VALUE? ON?; modify_if HOW? VALUE? ON?; try_take NAME?; try_get NAME?; is_set NAME?;
is_closed NAME?; waiting NAME?; purge NAME?; debug NAME?; prints NAME; into_inner NAME?;
take MADE? ON? BY?; get MADE? ON? BY?; take_shared MADE ON? BY?; get_shared MADE ON? BY?;
take_weak MADE ON? BY?; get_weak MADE ON? BY?; poll NAME BY; cancel NAME; own MADE ON?; end NAME?;
into_owner MADE ON?; weak MADE ON?; clone NAME MADE; upgrade NAME MADE; values MADE ON?;
next NAME BY; guard MADE VALUE ON?; guarded VALUE HOW MORE? ON?; release NAME;
into_guard MADE VALUE ON?; reserve VALUE; owners; add_owner; end_owner; take_inner; read NAME?;
peek NAME?; follow MADE ON?; states MADE ON; changed MADE? ON BY?; wait_for VALUE MADE ON BY?;
has_changed NAME; mark_changed NAME; mark_unchanged NAME; read_and_update NAME; peek_and_update NAME;
closed MADE ON? BY?
"""
CALLS = {it.split()[0]: it.strip() for it in CALLS.split(";")}
FORMS = {
    "NAME": r"(?P<name>(?!on |by )[a-z]\S*)",
    "MADE": r"(?P<made>(?!on |by )[a-z]\S*)",
    "ON": r"on (?P<name>\S+)",
    "BY": r"by (?P<task>\d+#?)",
    "VALUE": r"(?P<value>-?\d+#?)",
    "MORE": r"(?P<more>-?\d+)",
    "HOW": r"(?P<how>none|keep|add|hide|drop|release|set|or_set|fail|work)",
}
# A case, and a line of it: where it stands, how often it is played, whether without memory, its
# call, its reply on each kind, and what is called inside: where, with which reply, in which place,
# and of which value.
Case = namedtuple("Case", "file at kinds lines")
Line = namedtuple("Line", "at times word call replies inside")
Inside = namedtuple("Inside", "at call reply place number")
CALL = re.compile(r"(without memory: )?(?:(\d+) times: )?(.*?)(?:; on (.*))?$")
INSIDE = re.compile(rf"in ({'|'.join(PLACES)})(?: of (-?\d+))?: (.*)$")


class Wrong(Exception):
    """What was wanted in a line that cannot be read, or would not be played."""


def kinds_of(words, among=KINDS):
    """Returns the kinds that these words name, of those that they may name."""
    found = [it for word in words.split() for it in GROUPS.get(word, (word,))]
    if not found or not set(found) <= set(among):
        raise Wrong("kinds, among those of the case")
    return found


def words_of(call):
    """Returns the parts of a call, each in its place, and a dash for none."""
    word = call.split()[0] if call else ""
    if word not in CALLS:
        raise Wrong("a call that tests/README.md names")
    said = word
    for form in CALLS[word].split()[1:]:
        part = f" {FORMS[form.rstrip('?')]}"
        said += f"(?:{part})?" if form.endswith("?") else part
    found = re.fullmatch(said, call)
    if not found:
        raise Wrong(CALLS[word])
    parts = {"name": "it", **{it: part for it, part in found.groupdict().items() if part}}
    places = ("name", "made", "how", "value", "more", "task")
    return " ".join([word, *(parts.get(it, "-") for it in places)])


def pair(text):
    """Returns a call and its reply."""
    call, _, reply = text.partition(" -> ")
    return call.strip(), reply.strip() or "ok"


def line_of(at, text, kinds):
    """Reads a call and its reply, and that on other kinds."""
    without, times, said, other = CALL.match(text).groups()
    if times is not None and int(times) < 1:
        raise Wrong("a call that is made at least once")
    call, reply = pair(said)
    replies = dict.fromkeys(kinds, reply)
    if other is not None:
        on, otherwise = pair(other)
        replies.update(dict.fromkeys(kinds_of(on, kinds), otherwise))
        if len(set(replies.values())) == 1:
            raise Wrong("another reply on some of the kinds")
    return Line(at, int(times or 1), "without" if without else "call", words_of(call), replies, [])


def add_note(line, at, text):
    """Reads what stands below a call: what is called inside."""
    found = INSIDE.match(text)
    if not found:
        raise Wrong("`in PLACE of VALUE: CALL`")
    place, number, said = found.groups()
    call, reply = pair(said)
    line.inside.append(Inside(at, words_of(call), reply, place, number or ""))


def case_of(file, text):
    """Reads a case, whose lines have their numbers. Returns it, and what of it is wrong."""
    kinds, lines, title, faults = [], [], 0, []
    for at, said in text:
        try:
            if said.startswith("#"):
                if title:
                    raise Wrong("an empty line before another case")
                title = at
            elif said.startswith("on "):
                if kinds or lines:
                    raise Wrong("one line of kinds, before all calls")
                kinds = kinds_of(said.removeprefix("on "))
            elif not said.startswith("  "):
                lines.append(line_of(at, said, kinds))
            elif not lines:
                raise Wrong("a call above it")
            else:
                add_note(lines[-1], at, said.strip())
        except Wrong as wanted:
            faults.append(f"{file}:{at}: wanted: {wanted}")
    if not (faults or title and kinds and lines and any(" -> " in said for _, said in text)):
        faults.append(f"{file}:{text[0][0]}: wanted: a title, `on` with kinds, calls, and a reply")
    return Case(file, title, kinds, lines), faults


def cases_of(file, text):
    """Returns the cases of a text, which end at empty lines, and what of them is wrong."""
    found, faults, numbered = [], [], enumerate(text.split("\n"), 1)
    for is_empty, lines in itertools.groupby(numbered, key=lambda it: not it[1].strip()):
        if not is_empty:
            case, wrong = case_of(file, [*lines])
            found, faults = [*found, case], faults + wrong
    return found, faults


def written(case, kind):
    """Returns the lines by which the player plays a case on a kind."""
    said = [("case", case.at, kind, case.file)]
    for line in case.lines:
        for number in range(1, line.times + 1):
            call = line.call.replace("#", str(number), 1)
            said.append((line.word, line.at, call, line.replies[kind]))
            said += [("in", *it) for it in line.inside]
    return "".join("\t".join(map(str, it)) + "\n" for it in [*said, ("end",)])


def played(cases):
    """Returns what the player reads of these cases."""
    return "".join(written(case, kind) for case in cases for kind in case.kinds)


def unused(cases):
    """Returns the words of the language that no case uses."""
    wanted = [*KINDS, *CALLS, *REPLIES, *PLACES]
    used = {kind for case in cases for kind in case.kinds}
    for line in (it for case in cases for it in case.lines):
        said = [(line.call, it) for it in line.replies.values()]
        for call, reply in said + [(it.call, it.reply) for it in line.inside]:
            used |= {call.split()[0], *reply.replace(",", " ").split()}
        used |= {it.place for it in line.inside}
    return [it for it in wanted if it not in used]
