"""Reads, compares and writes the table of instructions of bench/README.md, and draws counts.svg of
it. `count.py --write` writes both.

A line above the table says how it was counted. A field without a figure is empty.
"""
import os
import re
import sys
from html import escape

FOLDER = os.path.dirname(os.path.abspath(__file__))
# (for count.py, which builds the programs by scripts/try_kit.py)
sys.path.append(f"{os.path.dirname(FOLDER)}/scripts")
PAGE, PICTURE = f"{FOLDER}/README.md", f"{FOLDER}/counts.svg"
TABLE = re.compile(
    r"(?<=<!-- made by tables\.py -->\n\n)Counted with (.*?)\.\n\n(.*?\n)\n(?=<!-- end)", re.S
)
# What fails: a rise or a fall by so many per cent, if it is one by more than so many instructions,
# since of 13 one more is already 8 per cent.
FAILS, LEAST = 5, 2
# What the picture has: a panel a column, and in it the rows of ours and of others.
PANELS = ["reply slot", "watcher", "64 tasks"]
OURS = ["unsync pair", "sync pair", "unsync Owner", "sync Owner", "latest_sync"]
THEIRS = ["Rust unsync by `Rc`", "Rust unsync", "Rust sync by `Arc`", "Rust sync",
          "oneshot of the kit", "oneshot of tokio", "watch of tokio"]
# The rows of others in the table, which were counted once: what count.py finds is not of them.
OTHERS = [*THEIRS[:4], *THEIRS[5:], "oneshot of futures", "Notify of tokio + Mutex",
          "event-listener + Mutex", "Mutex + Vec of wakers", "by hand, of the kit's parts"]


def table_of(page):
    """Returns what is said of the table, and its figures by row and column."""
    said, table = TABLE.search(page).groups()
    lines = [[it.strip() for it in line.split("|")[1:-1]] for line in table.splitlines()]
    (_, *columns), _, *rows = lines
    figures = [[int(it.replace(",", "") or 0) for it in row[1:]] for row in rows]
    return said, {row[0]: {it: n for it, n in zip(columns, has) if n}
                  for row, has in zip(rows, figures)}


def written(page, said, columns, table):
    """Returns the page with this table in place of its own."""
    rows = [["", *columns], ["---"] * (len(columns) + 1)]
    rows += [[name, *(f"{row[it]:,}" if it in row else "" for it in columns)]
             for name, row in table.items()]
    lines = "".join(f"| {' | '.join(it)} |\n" for it in rows)
    return TABLE.sub(lambda _: f"Counted with {said}.\n\n{lines}\n", page)


def compared(before, now):
    """Compares two tables. Returns lines that tell of each figure that is not the same, or not in
    one of them, and how many of these are faults."""
    told, faults = [], 0
    for name in dict.fromkeys([*before, *now]):
        was, has = before.get(name, {}), now.get(name, {})
        for column in dict.fromkeys([*was, *has]):
            old, new = was.get(column), has.get(column)
            if old is None or new is None:
                told.append(f"{name}, {column}: not {'in the table' if old is None else 'counted'}")
                faults += 1
            elif new != old:
                rise = (new - old) * 100 / old
                told.append(f"{name}, {column}: {old:,} before, {new:,} now, {rise:+.1f} %")
                faults += abs(new - old) > max(LEAST, old * FAILS / 100)
    return told, faults


WHAT = "Instructions for an operation, or for each of 64 waiting tasks; less is better"
WIDTH, BAR, STEP, LABELS, TOP = 310, 12, 18, 150, 40
STYLE = ("<style>text { font: 12px sans-serif; fill: #1f2328 } .title { font-weight: bold }"
         " .label { text-anchor: end } .paper { fill: #ffffff } .ours { fill: #0969da }"
         " .rust { fill: #d9730d } .others { fill: #afb8c1 }</style>")


def text(x, y, said, kind=""):
    return f'<text x="{x}" y="{y}" class="{kind}">{escape(said)}</text>'


def rectangle(x, y, width, height, kind):
    return f'<rect class="{kind}" x="{x}" y="{y}" width="{width}" height="{height}"/>'


def bars_of(column, table):
    """Returns the bars of a panel, the shortest first: a figure, its row, and whose it is."""
    whose = {**{it: "ours" for it in OURS}, **{it: "others" for it in THEIRS}}
    whose.update({it: "rust" for it in THEIRS if it.startswith("Rust ")})
    return sorted((table[it][column], it, whose[it]) for it in whose if column in table[it])


def panel(column, bars, left):
    """Returns what draws a panel."""
    said = text(left + LABELS + 4, TOP + 14, column, "title")
    for at, (figure, row, whose) in enumerate(bars):
        y = TOP + 26 + at * STEP
        width = max(round(figure * (WIDTH - LABELS - 52) / bars[-1][0]), 1)
        said += text(left + LABELS, y + BAR - 1, row.replace("`", ""), "label")
        said += rectangle(left + LABELS + 4, y, width, BAR, whose)
        said += text(left + LABELS + width + 8, y + BAR - 1, f"{figure:,}")
    return said


def drawn(table):
    """Returns the picture, a line for each panel."""
    panels = [(it, bars_of(it, table)) for it in PANELS]
    legend, width = text(12, 22, WHAT, "title"), WIDTH * len(panels)
    for x, whose, said in ((540, "ours", "here"), (620, "rust", "the Rust crate"),
                           (770, "others", "others")):
        legend += rectangle(x, 11, BAR, BAR, whose) + text(x + BAR + 5, 22, said)
    lines = [panel(*it, place * WIDTH) for place, it in enumerate(panels)]
    height = TOP + 48 + STEP * max(len(bars) for _, bars in panels)
    size = f'viewBox="0 0 {width} {height}" width="{width}"'
    head = f'<svg xmlns="http://www.w3.org/2000/svg" {size}>'
    paper = rectangle(0, 0, width, height, "paper")
    return "\n".join([head + STYLE, paper + legend, *lines, "</svg>", ""])
