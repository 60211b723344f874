#!/usr/bin/env python3
"""Measures `tidy` and `check` of two programs on data sets: data_sets.py OURS OTHER [FOLDER] [SHAPE..]

The shapes are the first four of make/shapes.py, and 10,000, 100,000 and 900,000 records of that of make/large.py, named by these numbers.
They are made in FOLDER where they are not there yet. Each command runs five times with each program, in turn; the best time and the
greatest peak memory of each count. What the two print has to be the same. Printed are seconds, their ratio, peak memory and its ratio; and
of ours memory for each byte of the file, and nanoseconds for a record.
"""
import os
import sys

from measure import RUNS, arguments, best, once, print_pair
import chapter7
import large
import shapes

NAMES = ["dates", "weeks", "legs", "sequence", "10000", "100000", "900000"]


def compare(command, name, programs, folder):
    """The best of each program, run in turn; what they print has to be the same."""
    runs = [[] for _ in programs]
    for _ in range(RUNS):
        printed = []
        for program, found in zip(programs, runs):
            found.append(once(program, [command, name], folder))
            with open(os.path.join(folder, "out"), "rb") as out:
                printed.append(out.read())
        if printed[0] != printed[1]:
            sys.exit(f"{command} {name}: the programs differ")
    return [best(found) for found in runs]


def main():
    programs, folder, names = arguments(__doc__, 2)
    print("data set         ours s  other s  ratio   ours MiB  other MiB  ratio  B/byte  ns/record")
    for name in names or NAMES:
        path = os.path.join(folder, f"{name}.ssim")
        if not os.path.exists(path):
            chapter7.write(path, large.records(int(name)) if name.isdigit() else shapes.records(name))
        size = os.path.getsize(path)
        for command in ("tidy", "check"):
            ours, other = compare(command, f"{name}.ssim", programs, folder)
            print_pair(f"{name} {command}", ours, other, f" {ours[1] / size:7.2f} {ours[0] / (size // 201) * 1e9:10.0f}")


if __name__ == "__main__":
    main()
