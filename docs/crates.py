#!/usr/bin/env python3
"""Writes what docs/ARCHITECTURE.md and docs/PROOFS.md say crate by crate.

    python3 docs/crates.py [--check [PAGE ..]]

The floors, and what a crate is, come from crates.txt. What is proved of a crate, and what is only tested, are the paragraphs
`Proved:` and `Only tested:` at the head of its root file. With --check nothing is written: a line for each page says whether it
is current.
"""
import sys

sys.dont_write_bytecode = True
import textwrap

import page

# the floor that stands beside the house
TESTS = "Tests"
# how wide the picture is, its titles, and its left column
WIDTH, TITLE, COLUMN = 116, 16, 20


def beside(title, names, width, room):
    """The names behind a title, wrapped."""
    lines = textwrap.wrap("  ".join(names), room - width, break_on_hyphens=False)
    return [f"{title if k == 0 else '':<{width}}{line}" for k, line in enumerate(lines)]


def columns(floors):
    """The floors of two columns. A floor `COLUMN: NAME` is one of that column; a column of one floor has no name for it."""
    left, right = [], []
    for title, _, rows in floors:
        column, _, name = title.partition(": ")
        names = [crate for crate, _ in rows]
        if name:
            right = right or [column]
            right += beside(f"  {name}", names, COLUMN, WIDTH - COLUMN - 2)
        else:
            left = [column, *(f"  {crate}" for crate in reversed(names))]
    size = max(len(left), len(right))
    left += [""] * (size - len(left))
    right += [""] * (size - len(right))
    return [f"{a:<{COLUMN}}| {b}".rstrip() for a, b in zip(left, right)]


def picture(floors):
    """The floors from the top, each with its crates; two columns in the middle."""
    down = floors[::-1]
    right = [k for k, (title, _, _) in enumerate(down) if ": " in title]
    # the floor above these is the other column
    first = right[0] - 1
    out = []
    for title, _, rows in down[:first]:
        out += beside(title, [crate for crate, _ in rows], TITLE, WIDTH)
    rule = "-" * COLUMN + "+" + "-" * (WIDTH - COLUMN - 1)
    out += [rule, *columns(down[first:right[-1] + 1]), rule]
    for title, _, rows in down[right[-1] + 1:]:
        out += beside(title, [crate for crate, _ in rows], TITLE, WIDTH)
    return out


def architecture(now):
    floors = page.floors()
    house = [floor for floor in floors if floor[0] != TESTS]
    tables = []
    for title, about, rows in floors:
        tables += [f"**{title}.** {about}", "", "| Crate | What it is |", "|---|---|", *(f"| `{crate}` | {said} |" for crate, said in rows), ""]
    now = page.filled(now, "floors", "\n".join(["```", *picture(house), "```"]))
    return page.filled(now, "crates", "\n".join(tables))


def paragraph(crate, label):
    """What stands behind the label in the head of the crate's root file, in each paragraph that begins with it."""
    return " ".join(part[len(label):].strip() for part in page.head(crate) if part.startswith(label))


def proofs(now):
    rows = ["| Crate | Proved | Only tested |", "|---|---|---|"]
    for crate in page.crates():
        proved = paragraph(crate, "Proved:")
        if not proved:
            sys.exit(f"docs/crates.py: the head of {crate} has no paragraph `Proved:`")
        tested = paragraph(crate, "Only tested:") or "–"
        rows.append(f"| `{crate}` | {proved[0].upper() + proved[1:]} | {tested[0].upper() + tested[1:]} |")
    return page.filled(now, "crate by crate", "\n".join(rows))


page.write({"docs/ARCHITECTURE.md": architecture, "docs/PROOFS.md": proofs})
