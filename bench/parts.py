#!/usr/bin/env python3
"""Counts the instructions of `select`, `convert`, `board --days` and `carry` beside those of like commands: parts.py PROGRAM [FOLDER]

- `select` by each kind of choice, and `convert` to both time modes, beside `tidy` of the same data set of 90,003 records in UTC: one record a
  date, and weekly strips (make/shapes.py). Beside `convert` is also `tidy` of its data set: the two of `tidy` together read and write as much.
- `board` of seven dates beside `board` of one, of the same data sets, at a station at which all flights are and at one at which none is.
- `carry` beside `merge`, of two desks over the first of these data sets: each holds 1,500 texts, which change the equipment of other flights.

A line has the ratio of the instructions of two whole runs, by callgrind, also on a busy machine.
"""
import os
import subprocess

from measure import arguments, instructions
import chapter7
import shapes
from texts import write_texts

SHAPES = {"one record a date": ("dates", 500), "weekly strips": ("weeks", 7_500)}
# The options and the flights of each choice.
CHOICES = {"none": ([], []), "one flight": ([], ["LX17"]), "five of seven months": (["--to", "25AUG25"], []),
           "a station at which all flights are": (["--station", "ABX"], []), "a station at which none is": (["--station", "ZZZ"], []),
           "one of two aircraft types": (["--aircraft", "320"], [])}
TEXTS = 3_000


class Counts:
    """The instructions of runs of a program in a folder."""

    def __init__(self, program, folder):
        self.program, self.folder = program, folder

    def of(self, *words):
        """The instructions of a run."""
        return instructions(self.program, words, self.folder)

    def run(self, *words):
        """Runs the program."""
        subprocess.run([self.program, *words], cwd=self.folder, check=True, stdout=subprocess.DEVNULL)

    def data_set(self, shape, flights):
        """The name of a data set of a shape."""
        name = f"{shape}.ssim"
        chapter7.write(os.path.join(self.folder, name), shapes.records(shape, flights))
        return name


def count_parts(counts, title, name):
    """`select` and `convert` beside `tidy`."""
    tidied = counts.of("tidy", name)
    for choice, (options, flights) in CHOICES.items():
        print(f"| {title}: `select`, {choice} | {counts.of('select', *options, name, *flights) / tidied:.2f} |", flush=True)
    for mode in "utc", "local":
        counts.run("convert", mode, name, f"{mode}.ssim")
        converted, again = counts.of("convert", mode, name, f"{mode}.ssim"), counts.of("tidy", f"{mode}.ssim")
        print(f"| {title}: `convert {mode}` | {converted / tidied:.2f}, of both {converted / (tidied + again):.2f} |", flush=True)


def count_boards(counts, title, name):
    """`board` of seven dates beside `board` of one."""
    for flights, station in ("all flights are", "ABX"), ("none is", "ZZZ"):
        one, seven = (counts.of("board", *options, name, station, "01JUL25") for options in ([], ["--days", "7"]))
        print(f"| {title}: `board --days 7`, a station at which {flights} | {seven / one:.2f} |", flush=True)


def count_desks(counts, name):
    """`carry` beside `merge`."""
    texts, _ = write_texts(counts.folder, name, TEXTS)
    counts.run("start", name, "none", "base.desk")
    for desk, half in (("mine.desk", texts[::2]), ("theirs.desk", texts[1::2])):
        counts.run("take", "base.desk", desk, *half)
    carried, merged = (counts.of(command, "mine.desk", "theirs.desk", "both.desk") for command in ("carry", "merge"))
    print(f"| `carry` beside `merge` | {carried / merged:.2f} |", flush=True)


def main():
    (program,), folder, _ = arguments(__doc__, 1)
    counts = Counts(program, folder)
    print("| Instructions beside `tidy` | Ratio |\n|---|---|")
    names = {title: counts.data_set(*shape) for title, shape in SHAPES.items()}
    for title, name in names.items():
        count_parts(counts, title, name)
        count_boards(counts, title, name)
    count_desks(counts, names["one record a date"])


if __name__ == "__main__":
    main()
