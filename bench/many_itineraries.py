#!/usr/bin/env python3
"""Measures the commands on one flight with a different itinerary on each date: many_itineraries.py OURS [FOLDER] [DATES]

The flight flies on DATES (4,500), twice as many and four times as many dates, each with other times, and in a second data set on each of
these dates ten minutes later. `tidy` and `export` are refused with 50, since the flight needs more than 99 itinerary variations. Printed are
the seconds of each command (the best of three runs) and the growth from the first number of dates to the last: 4 is linear, 16 is
quadratic. GNU time reads the memory.
"""
import os

from measure import arguments, best, once
from chapter7 import write
from shapes import records

RUNS = 3
DATES = 4_500


def commands(count):
    """Each command, with the status that it ends with."""
    old, new, desk = f"{count}.ssim", f"{count}.later.ssim", f"{count}.desk"
    return [
        (["check", old], 0),
        (["tidy", old], 1),
        (["export", desk], 1),
        (["list", old], 0),
        (["list", "--csv", old], 0),
        (["list", "--dates", old], 0),
        (["page", old], 0),
        (["calendar", old, "LX0001"], 0),
        (["board", old, "ABX", "01JUL05"], 0),
        (["diff", old, new], 0),
        (["publish", desk, new, "01JAN00001E001", "out.desk"], 0),
    ]


def write_files(program, folder, count):
    """Writes the two data sets, and the desk of the first."""
    for name, later in ((f"{count}.ssim", 0), (f"{count}.later.ssim", 10)):
        path = os.path.join(folder, name)
        if not os.path.exists(path):
            write(path, records("itineraries", count, later))
    once(program, ["start", f"{count}.ssim", "none", f"{count}.desk"], folder)


def main():
    (program,), folder, words = arguments(__doc__, 1)
    dates = int(words[0]) if words else DATES
    counts = [dates, 2 * dates, 4 * dates]
    for count in counts:
        write_files(program, folder, count)
    print(f"{'command':15}" + "".join(f"{count:10}" for count in counts) + "    growth")
    for rows in zip(*map(commands, counts)):
        found = [best([once(program, words, folder, status) for _ in range(RUNS)])[0] for words, status in rows]
        name = " ".join(word for word in rows[0][0][:2] if word[0].isalpha() or word[0] == "-")
        print(f"{name:15}" + "".join(f"{seconds:10.3f}" for seconds in found) + f"{found[-1] / found[0]:10.1f}", flush=True)


if __name__ == "__main__":
    main()
