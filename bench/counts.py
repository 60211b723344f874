#!/usr/bin/env python3
"""Counts the instructions of commands of two programs, also on a busy machine: counts.py OURS OTHER [FOLDER]

- `tidy` and `check` of one record a date and of weekly strips, and of two legs a flight with segment data: those of a record more, from
  20,000 and 60,000 records. The shapes are those of `figures.py` and `large.py`.
- Commands on a desk of 40,000 records and 3,000 texts that change 933 flights (`desks.py` says which texts): whole runs, in millions.

callgrind counts byte by byte where the processor fills a block at once. So `take` has some 25 million instructions that take next to no
time (the system's names of 3,000 files).
"""
import os
import subprocess

from measure import arguments, instructions
import chapter7
import large
from figures import COUNTED, instructions_a_record
from texts import write_texts

RECORDS, TEXTS = 40_000, 3_000
SIZES = (20_000, 60_000)


def print_row(title, ours, other, unit=1):
    print(f"| {title} | {ours / unit:,.0f} | {other / unit:,.0f} | {ours / other:.2f} |", flush=True)


def two_legs(records, folder):
    """The name of a data set of two legs a flight, and its records."""
    name = f"large-{records}.ssim"
    return name, chapter7.write(os.path.join(folder, name), large.records(records))


def count_shapes(programs, folder):
    for shape in COUNTED:
        for command in ("tidy", "check"):
            print_row(f"{shape}: `{command}`, a record", *instructions_a_record(shape, command, programs, folder))
    (less, few), (more, many) = (two_legs(size, folder) for size in SIZES)
    for command in ("tidy", "check"):
        counts = [(instructions(program, [command, more], folder) - instructions(program, [command, less], folder)) / (many - few)
                  for program in programs]
        print_row(f"two legs: `{command}`, a record", *counts)


def count_desks(programs, folder):
    base, _ = two_legs(RECORDS, folder)
    texts, designator = write_texts(folder, base, TEXTS)
    ours = programs[0]
    for words in (["start", base, "none", "base.desk"], ["take", "base.desk", "texts.desk", *texts]):
        subprocess.run([ours, *words], cwd=folder, check=True, stdout=subprocess.DEVNULL)
    for words in (["export", "texts.desk"], ["take", "base.desk", "taken.desk", *texts], ["findings", "texts.desk"],
                  ["merge", "texts.desk", "base.desk", "merged.desk"], ["show", "texts.desk", designator, "01JUL25"]):
        print_row(f"`{words[0]}`, millions", *[instructions(program, words, folder) for program in programs], 1_000_000)


def main():
    programs, folder, _ = arguments(__doc__, 2)
    print("| Instructions | ssimdesk | Plain Rust | Ratio |\n|---|---|---|---|")
    count_shapes(programs, folder)
    count_desks(programs, folder)


if __name__ == "__main__":
    main()
