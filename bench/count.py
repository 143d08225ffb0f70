#!/usr/bin/env python3
"""Counts what the calls cost, by callgrind: `count.py [--write]`.

It runs the programs crates/bench_cells and bench_pair, proved and built as users' are (`rt run`
builds one that is not there, or older than a source). It prints each figure that is not that of
the table of bench/README.md. The status is 0 if none rose or fell by more than 5 per cent (and 2
instructions), the table has the same fields, and the picture is what bench/tables.py draws of it.
--write writes both anew. The rows of others are not counted: their figures are taken as they are.
"""
import os
import platform
import re
import shutil
import subprocess
import sys
from concurrent.futures import ThreadPoolExecutor

import tables
from lay_out import read, said_by, write
from try_kit import program_of

# The rows: the program of each, its word for it, and the operations that it has.
ALL = ("reply", "watch", "fan", "tasks", "again", "stream")
ROWS = {
    "unsync": ("cells unsync", ALL[:5]),
    "unsync Owner": ("cells unsync_owner", ALL),
    "sync": ("cells sync", ALL[:5]),
    "sync Owner": ("cells sync_owner", ALL),
    "unsync pair": ("pair unsync_pair", ALL[:1]),
    "sync pair": ("pair sync_pair", ALL[:1]),
    "calls of an Owner": ("cells calls", ALL[:2]),
    "`_as` calls of an Owner": ("cells as", ALL[:2]),
    "latest_sync": ("cells latest", ("watch", "fan", "again")),
    "oneshot of the kit": ("pair oneshot", ALL[:1]),
}
# The columns: title, operation, and how many wait at once.
COLUMNS = [("reply slot", "reply", 1), ("watcher", "watch", 1)]
COLUMNS += [(f"fan-out {it:,}", "fan", it) for it in (1, 8, 64, 1024, 100_000)]
COLUMNS += [(f"{it:,} tasks", "tasks", it) for it in (8, 64, 1024)]
COLUMNS += [("poll again", "again", 1), ("stream", "stream", 1)]
POLLS = 4096


def collected(program, words, rounds, waiters):
    """Returns the instructions of a run, which has to count what it is asked for."""
    command = [program, *words, str(rounds), str(waiters)]
    callgrind = ["valgrind", "--tool=callgrind", "--callgrind-out-file=/dev/null"]
    ran = subprocess.run([*callgrind, *command], capture_output=True, text=True, check=True)
    is_sum = words[1] in ("reply", "watch", "stream")
    wanted = rounds * (rounds - 1) // 2 if is_sum else rounds * waiters
    if ran.stdout != f"{wanted}\n":
        sys.exit(f"count: {' '.join(command)} printed {ran.stdout!r}, and not {wanted}")
    return int(re.search(r"Collected : (\d+)", ran.stderr)[1])


def instructions(programs, row, operation, waiters):
    """Counts the instructions of an operation: those of twice as many rounds less those of once."""
    few = max(POLLS // waiters, 2)
    name, word = ROWS[row][0].split()
    once, twice = (
        collected(programs[name], (word, operation), it * few, waiters) for it in (1, 2))
    # (that a poll of a task begins and ends is no part of what it polls)
    alone = instructions(programs, row, "alone", waiters) if operation == "tasks" else 0
    return round((twice - once) / few / waiters) - alone


def counted():
    """Counts each figure of the table, as many side by side as there are processors."""
    programs = {it: program_of(f"bench_{it}") for it in ("cells", "pair")}
    fields = [(row, *it) for row, (_, has) in ROWS.items() for it in COLUMNS if it[1] in has]
    with ThreadPoolExecutor(len(os.sched_getaffinity(0))) as pool:
        ran = pool.map(lambda it: instructions(programs, it[0], *it[2:]), fields)
        made = {row: {} for row in ROWS}
        for (row, title, *_), figure in zip(fields, ran):
            made[row][title] = figure
    return made


def conditions():
    """Returns what the figures depend on: the kit, and the C library's way to allocate."""
    return f"{said_by('rt', 'version').split()[0]}, {' '.join(platform.libc_ver())}"


def main(words):
    if words not in ([], ["--write"]):
        sys.exit(__doc__)
    if not shutil.which("valgrind"):
        sys.exit("count: there is no valgrind, which counts the instructions")
    now = counted()
    page = read(tables.PAGE)
    said, table = tables.table_of(page)
    is_drawn = read(tables.PICTURE) == tables.drawn(table)
    others = {it: table.pop(it) for it in [*table] if it in tables.OTHERS}
    if said != conditions():
        print(f"the table is of {said}, and this is {conditions()}")
    told, faults = tables.compared(table, now)
    if not is_drawn:
        told, faults = [*told, "counts.svg is not what is drawn of the table"], faults + 1
    print("\n".join(told))
    if words:
        columns, whole = [it[0] for it in COLUMNS], {**now, **others}
        write(tables.PAGE, tables.written(page, conditions(), columns, whole))
        write(tables.PICTURE, tables.drawn(whole))
    figures = sum(map(len, now.values()))
    said = f"rose or fell by more than {tables.FAILS} % or are not there"
    print(f"count: {figures} counted, {faults} {said}")
    return 1 if faults and not words else 0


if __name__ == "__main__":
    sys.exit(main(sys.argv[1:]))
