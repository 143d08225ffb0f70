#!/usr/bin/env python3
"""Plays the cases of tests/cases on every kind of holder that they name.

The player, tests/player, is built once, without a proof, in a temporary project. It plays the cases
as they are, and then with each request for memory of each case refused in turn. Prints a line for
each thing that came out otherwise than a case says, and last `N passed, M failed`. Words name the
files of cases to play. Without any, all are played, and random ones: so many of each sort as
--random says, from the seed --seed on, which is another after each commit; of a tenth of them each
request is refused. One that fails is printed, to be pasted into tests/cases.
"""
import argparse
import os
import re
import subprocess
import sys
import tempfile

import random_cases
import read_cases
import try_kit
from lay_out import READ, TOP, lay_crate, read, texts_below, without_lock, write

PLAYER = f"{TOP}/tests/player"
# How long the player may run, which takes a minute of a processor.
SECONDS = str(try_kit.by_the_clock(600))


def lay_player(folder):
    """Lays the player out as a project: its text of cells as it is, for what threads share, and
    once more for what one thread has."""
    lay_crate(folder, "player", PLAYER, texts_below(PLAYER))
    kinds = f"{folder}/crates/player/src/kinds"
    os.rename(f"{kinds}/cells.rt", f"{kinds}/sync.rt")
    write(f"{kinds}/unsync.rt", without_lock(read(f"{kinds}/sync.rt")))


def cases(chosen):
    """Returns the cases of these files, or of all, and what of them is wrong."""
    found, faults = [], []
    known = sorted(os.listdir(f"{TOP}/tests/cases"))
    for name in chosen or known:
        if name not in known:
            sys.exit(f"cases.py: tests/cases has no file {name}; it has {' '.join(known)}")
        of_file, wrong = read_cases.cases_of(name, read(f"{TOP}/tests/cases/{name}"))
        found, faults = found + of_file, faults + wrong
    return found, faults


def play(project, inputs, random_text):
    """Builds the player, and runs it for each file of the folder `inputs`. Prints what it says, and
    the random cases that came out otherwise, and returns what each run counted."""
    refuses = try_kit.compiled(f"{TOP}/scripts/refuse.c", f"{inputs}.o", "-DPLAYER")
    words = ["--steps", "1", "--seconds", SECONDS, "--cases", inputs]
    words = try_kit.command(project, "player", [refuses], words)
    how = {**READ, "env": {**os.environ, "TMPDIR": os.path.dirname(inputs)}}
    said = subprocess.run(words, check=False, **how).stdout
    print(said, end="")
    lines, differ = random_text.split("\n"), re.findall(r"(?m)^random:(\d+) on ", said)
    begins = {max(at for at in range(int(it)) if lines[at].startswith("#")) for it in differ}
    for begin in sorted(begins):
        print("\n".join(lines[begin : lines.index("", begin) + 1]))
    return [[*map(int, it)] for it in re.findall(r"(?m)^(\d+) passed, (\d+) failed$", said)]


def of_commit():
    """Returns the first seed of the last commit: 0 where there is none."""
    asked = ["git", "-C", TOP, "rev-parse", "HEAD"]
    ran = subprocess.run(asked, capture_output=True, text=True, check=False)
    return int(ran.stdout[:6], 16) if ran.returncode == 0 else 0


def run(words):
    """Plays the cases that these words choose. Returns how many passed and failed."""
    reader = argparse.ArgumentParser(description=__doc__.split("\n\n", maxsplit=1)[0])
    reader.add_argument("--random", type=int, default=60, help="how many of each sort")
    reader.add_argument("--seed", type=int, default=of_commit(), help="the first seed")
    reader.add_argument("files", nargs="*", help="files of tests/cases")
    asked = reader.parse_args(words)
    by_hand, faults = cases(asked.files)
    made = "" if asked.files else random_cases.cases(asked.random, asked.seed)
    random, wrong = read_cases.cases_of("random", made)
    unused = read_cases.unused(by_hand + random) if made else []
    wrong += [f"no case has the word `{it}`" for it in unused]
    print("".join(f"{it}\n" for it in faults + wrong), end="", flush=True)
    with tempfile.TemporaryDirectory(prefix="cases-") as folder:
        lay_player(f"{folder}/project")
        write(f"{folder}/inputs/plain", read_cases.played(by_hand + random))
        refusing = read_cases.played(by_hand + random[: -(-len(random) // 10)])
        write(f"{folder}/inputs/refusing", f"refuse\n{refusing}")
        counts = play(f"{folder}/project", f"{folder}/inputs", made)
    passed, failed = (sum(it) for it in zip((0, len(faults + wrong)), *counts))
    return passed, failed + abs(2 - len(counts)) + sum(not any(it) for it in counts)


def main(words):
    passed, failed = run(words)
    print(f"{passed} passed, {failed} failed")
    return 1 if failed or not passed else 0


if __name__ == "__main__":
    sys.exit(main(sys.argv[1:]))
