#!/usr/bin/env python3
"""Measures all figures of speed, and writes them into the pages: figures.py run OURS OTHER FIGURES [FOLDER]; figures.py page FIGURES

`run` runs `data_sets.py` and `desks.py` on the two programs, counts instructions by callgrind, and writes what they print to
the file FIGURES. Files are made in FOLDER where they are not there yet. Run it with nothing beside it. `page` writes the tables of
README.md and bench/README.md, between the lines that mark their places. What is above its goal is not hidden: each row has its ratio.
"""
import json
import os
import re
import subprocess
import sys
import tempfile

from measure import TOP, instructions
from chapter7 import write
from shapes import records

HERE = os.path.dirname(os.path.abspath(__file__))
BEGIN, END = "<!--figures-->", "<!--/figures-->"

# Flights of the smaller data set whose instructions are counted; the larger one has three times as many.
COUNTED = {"dates": 110, "weeks": 1_600}

# The rows of the README: what is measured, the script, its row and the command.
SHORT = [
    ("`check`, one record a date, 180,003 records, seconds", "data_sets", "dates check"),
    ("`tidy` of 180,003 records in weekly strips", "data_sets", "weeks tidy"),
    ("`take` of 1,000 texts, desk of 900,020 records", "desks", "take 1000"),
]
SHAPE_NAMES = {
    "dates": "one record a date, 180 of them a flight, 180,003 records",
    "weeks": "weekly strips, twelve records a flight, 180,003 records",
    "legs": "9,000 itineraries of 99 legs, 891,003 records",
    "sequence": "one flight, seven leg sequences on 34,000 dates, the last first, 238,003 records",
}

DESK_NAMES = {
    "rising": "`rehearse`, texts in rising order of reference",
    "falling": "`rehearse`, in falling order",
}


def rows_of(script, programs, folder):
    """The rows that a script prints: seconds and MiB of each program, by the row's name."""
    lines = subprocess.run([sys.executable, os.path.join(HERE, f"{script}.py"), *programs, folder], stdout=subprocess.PIPE, text=True,
                           check=True).stdout.split("\n")
    found = {}
    for line in lines[1:]:
        row = re.match(r"^(.+?)\s+(\d+\.\d+) +(\d+\.\d+) +\d+\.\d+(?: +(\d+\.\d+) +(\d+\.\d+))?", line)
        if row:
            found[" ".join(row.group(1).split())] = [float(number) for number in row.groups()[1:] if number]
    return found


def instructions_a_record(shape, command, programs, folder):
    """The instructions of each program for a record more."""
    totals, sizes = [], []
    for flights in (COUNTED[shape], 3 * COUNTED[shape]):
        name = f"{shape}-{flights}.ssim"
        sizes.append(write(os.path.join(folder, name), records(shape, flights)))
        totals.append([instructions(program, [command, name], folder) for program in programs])
    return [(more - less) / (sizes[1] - sizes[0]) for less, more in zip(*totals)]


def measured(programs, folder):
    """All figures."""
    figures = {script: rows_of(script, programs, folder) for script in ("data_sets", "desks")}
    figures["instructions"] = {f"{shape} {command}": instructions_a_record(shape, command, programs, folder)
                               for shape in COUNTED for command in ("tidy", "check")}
    return figures


def row(title, ours, other, form):
    return f"| {title} | {ours:{form}} | {other:{form}} | {ours / other:.1f} |"


def short_table(figures):
    """The rows of the README."""
    return ["| Figure | ssimdesk | Plain Rust | Ratio |", "|---|---|---|---|",
            *[row(title, *figures[script][name][:2], ".3f") for title, script, name in SHORT]]


def long_tables(figures):
    """The tables of bench/README.md: shapes and sizes, memory, and commands on desk files."""
    lines = ["| Figure | ssimdesk | Plain Rust | Ratio |", "|---|---|---|---|"]
    for name, (ours, other) in figures["instructions"].items():
        shape, command = name.split()
        lines.append(row(f"{SHAPE_NAMES[shape].rsplit(', ', 1)[0]}: `{command}`, instructions a record", ours, other, ",.0f"))
    for name, (ours, other, *_) in figures["data_sets"].items():
        shape, command = name.split()
        of = SHAPE_NAMES.get(shape) or f"two legs and 43 records a flight, {int(shape):,} records"
        lines.append(row(f"{of}: `{command}`, seconds", ours, other, ".3f"))
    for name in ("900000 check", "900000 tidy", "dates tidy", "weeks tidy", "legs tidy"):
        shape, command = name.split()
        of = SHAPE_NAMES.get(shape) or f"{int(shape):,} records"
        lines.append(row(f"{of}: most memory of `{command}`, MiB", *figures["data_sets"][name][2:], ".0f"))
    lines += ["", "Commands on desk files, 900,020 records and 1,000 texts (`bench/desks.py`):", "",
              "| Command | Seconds | Plain Rust | Ratio | MiB | Plain Rust | Ratio |", "|---|---|---|---|---|---|---|"]
    for name, (ours, other, *peaks) in figures["desks"].items():
        memory = f" {peaks[0]:.0f} | {peaks[1]:.0f} | {peaks[0] / peaks[1]:.1f} |" if peaks else " | | |"
        lines.append(row(DESK_NAMES.get(name, f"`{name}`"), ours, other, ".2f") + memory)
    return lines


def put(page, table):
    """Writes a table between the lines that mark its place."""
    path = os.path.join(TOP, page)
    with open(path, encoding="utf-8", newline="\n") as file:
        before, rest = file.read().split(BEGIN)
    after = rest.split(END)[1]
    with open(path, "w", encoding="utf-8", newline="\n") as file:
        file.write(before + BEGIN + "\n" + "\n".join(table) + "\n" + END + after)


def main():
    match sys.argv[1:]:
        case ["run", ours, other, figures, *folder]:
            folder = os.path.abspath(folder[0]) if folder else tempfile.mkdtemp()
            os.makedirs(folder, exist_ok=True)
            with open(figures, "w", encoding="utf-8") as file:
                json.dump(measured([os.path.abspath(ours), os.path.abspath(other)], folder), file, indent=1)
        case ["page", figures]:
            with open(figures, encoding="utf-8") as file:
                found = json.load(file)
            put("README.md", short_table(found))
            put(os.path.join("bench", "README.md"), long_tables(found))
        case _:
            sys.exit(__doc__)


if __name__ == "__main__":
    main()
