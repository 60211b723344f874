#!/usr/bin/env python3
"""Measures the commands that look at a timetable beside `tidy` and `show`: days.py OURS [FOLDER] [FLIGHTS]

The data set has one record a date, 180 of them a flight, of 5,444 flights (or FLIGHTS): 979,920 leg records. In a second one a tenth of
the flights have another aircraft type in the second half. `list` is measured against `tidy`, `diff` against a `tidy` of each of its
files; `board`, `calendar` and `history` against `show` on the desk of the data set; and `receive` of 4,000 texts in falling order of
reference against the same texts in rising order. Each runs five times, in turn; the best counts. GNU time reads the memory.
"""
import os

from measure import RUNS, arguments, best, in_turn, once
from chapter7 import write
from shapes import records
from texts import texts_for, write_mailbox

TEXTS = 4_000


def changed(lines):
    """The leg records, of which a tenth of the flights have another aircraft type in their second half."""
    for place, line in enumerate(lines):
        flight, day = divmod(place, 180)
        yield line[:72] + b"77W" + line[75:] if flight % 10 == 0 and day >= 90 else line


def write_files(program, folder, flights):
    """Writes the two data sets, the desk of the first, and the mailbox files, where they are not there yet; a flight of the first."""
    def path(name):
        return os.path.join(folder, name)

    if not os.path.exists(path("changed.ssim")):
        write(path("dates.ssim"), records("dates", flights))
        write(path("changed.ssim"), records("dates", flights, change=changed))
    texts, designator = texts_for(path("dates.ssim"), TEXTS)
    write_mailbox(path("rising"), texts.values())
    write_mailbox(path("falling"), reversed(texts.values()))
    once(program, ["start", "dates.ssim", "none", "dates.desk"], folder)
    return designator


def rows_of(flight):
    """Each command with that against which it is measured, how often this is counted, and the ratio that is the goal."""
    tidy, show = ["tidy", "dates.ssim"], ["show", "dates.desk", flight, "01JUL25"]
    return [
        (["list", "dates.ssim"], tidy, 1, 1.3),
        (["list", "--csv", "dates.ssim"], tidy, 1, 1.3),
        (["list", "--dates", "dates.ssim"], tidy, 1, 1.3),
        (["diff", "dates.ssim", "dates.ssim"], tidy, 2, 1.3),
        (["diff", "dates.ssim", "changed.ssim"], tidy, 2, 1.3),
        (["board", "dates.ssim", "ABX", "01JUL25"], show, 1, 1.0),
        (["board", "dates.desk", "ABX", "01JUL25"], show, 1, 1.0),
        (["calendar", "dates.desk", flight], show, 1, 1.0),
        (["history", "dates.desk", flight, "01JUL25"], show, 1, 1.0),
        (["receive", "dates.desk", "out.desk", "falling"], ["receive", "dates.desk", "out.desk", "rising"], 1, 1.5),
    ]


def main():
    (program,), folder, words = arguments(__doc__, 1)
    flight = write_files(program, folder, int(words[0]) if words else 5_444)
    print("command                                  seconds  against   ratio  goal      MiB  against")
    for words, other, times, goal in rows_of(flight):
        found = in_turn([(0, [program, *words]), (0, [program, *other])], folder, RUNS)
        (seconds, peak), (other_seconds, other_peak) = [best(runs) for runs in found]
        print(f"{' '.join(words):40} {seconds:7.3f}  {other_seconds * times:7.3f}  {seconds / other_seconds / times:6.2f}  {goal:4.1f}  "
              f"{peak / 2**20:7.1f}  {other_peak / 2**20:7.1f}", flush=True)


if __name__ == "__main__":
    main()
