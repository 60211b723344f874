#!/usr/bin/env python3
"""Counts the instructions of what users look at beside those of like commands: views.py PROGRAM [FOLDER]

- `info` and `stations` beside `list`; `start --notes` beside `start`, with the table that `stations` prints.
- `list`, `calendar` and `diff` with filters beside the same without, the other filters than those of `select` in parts.py.
- Each command with `--csv` beside the same without; `blame` beside `show` of the flight.
- `take`, `receive` and `merge` with `--effects` beside these and `findings` of what they keep.

The data sets have 90,003 records: one record a date, and weekly strips (make/shapes.py). The other side of `diff` has another aircraft type on
a tenth of the lines. A desk over the first holds 1,500 texts. A line has the ratio of the instructions of two whole runs, by callgrind, and
the goal.
"""
import os
import subprocess

from measure import arguments
from parts import SHAPES, Counts
from texts import write_texts

TEXTS = 1_500
DATE = "01JUL25"


def changed(counts, name):
    """The name of a data set in which each tenth leg record has another aircraft type."""
    with open(os.path.join(counts.folder, name), "rb") as file:
        lines = file.read().splitlines(keepends=True)
    for place, line in enumerate(lines):
        if line[:1] == b"3" and place % 10 == 0:
            lines[place] = line[:72] + b"73W" + line[75:]
    other = f"changed.{name}"
    with open(os.path.join(counts.folder, other), "wb") as file:
        file.write(b"".join(lines))
    return other


def beside(counts, title, words, plain, goal):
    """Prints the ratio of two runs."""
    shown = " ".join([words[0], *(word for word in words[1:] if word[:2] == "--")])
    print(f"| {title}: `{shown}` | {counts.of(*words) / counts.of(*plain):.2f} | {goal} |", flush=True)


def count_timetables(counts, title, name):
    """What is printed of a data set, and of two."""
    other = changed(counts, name)
    listed = ["list", name]
    for command in "info", "stations":
        beside(counts, title, [command, name], listed, 1.0)
    with open(os.path.join(counts.folder, "stations.txt"), "wb") as file:
        subprocess.run([counts.program, "stations", name], cwd=counts.folder, check=True, stdout=file)
    beside(counts, title, ["start", "--notes", name, "stations.txt", "a.desk"], ["start", name, "stations.txt", "b.desk"], 1.1)
    for filters in ["--to", "25AUG25"], ["--station", "ABX"], ["--aircraft", "320"]:
        beside(counts, title, ["list", *filters, name], listed, 1.1)
        beside(counts, title, ["calendar", *filters, name, "LX17"], ["calendar", name, "LX17"], 1.1)
        beside(counts, title, ["diff", *filters, name, other], ["diff", name, other], 1.1)
    for words in ["list", name], ["diff", name, other], ["board", name, "ABX", DATE]:
        beside(counts, title, [words[0], "--csv", *words[1:]], words, 1.2)


def count_desk(counts, name):
    """What is printed of a desk."""
    texts, _ = write_texts(counts.folder, name, TEXTS)
    counts.run("start", name, "none", "base.desk")
    counts.run("take", "base.desk", "held.desk", *texts)
    with open(os.path.join(counts.folder, "mail"), "wb") as file:
        for text in texts:
            with open(os.path.join(counts.folder, text), "rb") as one:
                file.write(one.read() + b"NNNN\n")
    lines = ["texts", "held.desk"], ["findings", "held.desk"], ["history", "held.desk", "LX17", DATE], ["receive", "held.desk", "c.desk", "mail"]
    for words in lines:
        beside(counts, "a desk", [words[0], "--csv", *words[1:]], words, 1.2)
    beside(counts, "a desk", ["blame", "held.desk", "LX17"], ["show", "held.desk", "LX17", DATE], 1.2)


def count_effects(counts, name):
    """What a change does, of a desk that holds half of the texts and is brought the others."""
    texts, _ = write_texts(counts.folder, name, TEXTS)
    counts.run("start", name, "none", "base.desk")
    counts.run("take", "base.desk", "half.desk", *texts[::2])
    counts.run("take", "base.desk", "other.desk", *texts[1::2])
    with open(os.path.join(counts.folder, "mail"), "wb") as file:
        for text in texts[1::2]:
            with open(os.path.join(counts.folder, text), "rb") as one:
                file.write(one.read() + b"NNNN\n")
    counts.run("merge", "half.desk", "other.desk", "all.desk")
    findings = counts.of("findings", "all.desk")
    for words in ["take", "half.desk", "c.desk", *texts[1::2]], ["receive", "half.desk", "c.desk", "mail"], ["merge", "half.desk", "other.desk", "c.desk"]:
        ratio = counts.of(words[0], "--effects", *words[1:]) / (counts.of(*words) + findings)
        print(f"| a desk: `{words[0]} --effects`, beside `{words[0]}` and `findings` | {ratio:.2f} | 1.0 |", flush=True)


def main():
    (program,), folder, _ = arguments(__doc__, 1)
    counts = Counts(program, folder)
    print("| Instructions beside a like command | Ratio | Goal |\n|---|---|---|")
    names = {title: counts.data_set(*shape) for title, shape in SHAPES.items()}
    for title, name in names.items():
        count_timetables(counts, title, name)
    count_desk(counts, names["one record a date"])
    for name in names.values():
        count_effects(counts, name)


if __name__ == "__main__":
    main()
