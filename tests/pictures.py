#!/usr/bin/env python3
"""Tests the pictures of docs/pictures.md by a parser of XML. Each test is a line `test NAME ... ok` or
`test NAME ... FAILED`. That the pictures are those of the examples' runs is tested in crates/tests_files."""
import os
import sys
import xml.etree.ElementTree as xml

SVG = "{http://www.w3.org/2000/svg}"
TOP = os.path.dirname(os.path.dirname(os.path.realpath(__file__)))
NAMES = ("gcd", "scheduler", "union_find")
BLACK = "#222222"
# The rows and the firings of examples/gcd/log.txt, worked by hand.
GCD = [
    "#1 gcd(9), activated by entry 3, removed by entry 6",
    "#2 gcd(6), activated by entry 5, removed by entry 9",
    "#3 gcd(3), activated by entry 8",
    "#4 gcd(0), activated by entry 11, removed by entry 12",
    "entry 6: rule 2, kept: #2, removed: #1",
    "entry 9: rule 2, kept: #3, removed: #2",
    "entry 12: rule 1, kept:, removed: #4",
]


def picture(name):
    return xml.parse(f"{TOP}/crates/tests_files/data/pictures/{name}.svg").getroot()


def titles(root):
    return [it.text for it in root.iter(f"{SVG}title")]


def entries(name):
    """Returns the log of an example's run: the lines of what `chr run` prints after `log N`."""
    with open(f"{TOP}/examples/{name}/expected.txt", encoding="utf-8") as file:
        lines = file.read().splitlines()
    return lines[next(i for i, it in enumerate(lines) if it.startswith("log ")) + 1 :]


def has_each_once(name):
    """Returns whether an example's picture has a row for each label of its log and a mark for each firing, in order."""
    log = [it.split() for it in entries(name)]
    told = titles(picture(name))
    rows = [it.split()[0] for it in told if it.startswith("#")]
    firings = [it.split(":")[0] for it in told if not it.startswith("#")]
    return rows == [f"#{it[2]}" for it in log if it[0] == "A"] and firings == [
        f"entry {i}" for i, it in enumerate(log, 1) if it[0] == "F"
    ]


def heads_are_joined(name):
    """Returns whether each firing has as many points as marks, in one column, at the heights of its heads' bars."""
    root = picture(name)
    rows = {}
    for bar in root.iter(f"{SVG}rect"):
        title = bar.find(f"{SVG}title")
        if title is not None:
            rows[title.text.split()[0]] = int(bar.get("y")) + 4
    for firing in root.iter(f"{SVG}g"):
        points = [it.split(",") for it in firing.find(f"{SVG}polyline").get("points").split()]
        marks = [[it.get("cx"), it.get("cy")] for it in firing.iter(f"{SVG}circle")]
        heads = [it.rstrip(",") for it in firing.find(f"{SVG}title").text.split() if it.startswith("#")]
        if points != marks or len({x for x, _ in points}) != 1 or [rows[it] for it in heads] != [int(y) for _, y in points]:
            return False
    return True


def bars_end_at_marks(name):
    """Returns whether each bar whose title tells a removal ends in the middle of a black mark of its row."""
    root = picture(name)
    black = {(int(it.get("cx")), int(it.get("cy"))) for it in root.iter(f"{SVG}circle") if it.get("fill") == BLACK}
    for bar in root.iter(f"{SVG}rect"):
        title = bar.find(f"{SVG}title")
        if title is not None and ", removed by " in title.text:
            if (int(bar.get("x")) + int(bar.get("width")), int(bar.get("y")) + 4) not in black:
                return False
    return True


TESTS = {
    "gcd_has_the_rows_and_firings_worked_by_hand": lambda: titles(picture("gcd")) == GCD,
    "each_label_has_a_row_and_each_firing_a_mark": lambda: all(map(has_each_once, NAMES)),
    "heads_are_joined": lambda: all(map(heads_are_joined, NAMES)),
    "bars_end_at_marks": lambda: all(map(bars_end_at_marks, NAMES)),
}

failed = 0
for name, test in TESTS.items():
    holds = test()
    failed += not holds
    print(f"test pictures::{name} ... {'ok' if holds else 'FAILED'}")
sys.exit(failed != 0)
