#!/usr/bin/env python3
"""Compares `split` of a file of several carriers with `tidy` of its parts: sections.py PROGRAM [FOLDER] [CARRIERS] [RECORDS]

The file has CARRIERS (64) carriers of RECORDS (14,063) records each, of the shape of `large.py`. Printed are the instructions of `split`, by
callgrind, those of `tidy` of all parts together, and their ratio, which shall be 1.2 at most; and then the peak memory of `split` of the file
and of `tidy` of one part, in MiB. With more carriers `split` takes no more memory.
"""
import os
import subprocess
import sys

from measure import arguments, best, in_turn, instructions
import chapter7
import large

GOAL = 1.2


def names_of(count):
    letters = "ABCDEFGHIJKLMNOPQRSTUVWXYZ"
    return [f"{letters[place // 26]}{letters[place % 26]} ".encode() for place in range(count)]


def of_airline(line, airline):
    return line if line[:1] == b"1" else line[:2] + airline + line[5:]


def write_parts(folder, carriers, records):
    """Writes the file, and a file for each carrier. Returns the names of these."""
    lines = [line for line in large.records(records)]
    names = []
    with open(os.path.join(folder, "world"), "wb") as world:
        serial = 0
        for place, airline in enumerate(names_of(carriers)):
            names.append(f"part-{place}")
            own = [of_airline(line, airline) for line in lines]
            chapter7.write(os.path.join(folder, names[-1]), own)
            for line in own if place == 0 else own[1:]:
                serial += 1
                if line[:1] == b"5":
                    line = chapter7.with_column(line, 188, f"{(serial - 1) % 1_000_000:06}")
                    line = chapter7.with_column(line, 194, "E" if place + 1 == carriers else "C")
                world.write(chapter7.with_serial(line, serial % 1_000_000) + b"\n")
    return names


def main():
    (program,), folder, words = arguments(__doc__, 1)
    carriers, records = (int(word) for word in (words + ["64", "14063"][len(words) :])[:2])
    names = write_parts(folder, carriers, records)
    os.makedirs(os.path.join(folder, "new"), exist_ok=True)
    split = ["split", "world", "new/"]
    done = subprocess.run([program, *split], cwd=folder, stdout=subprocess.PIPE, check=True).stdout.decode("ascii").splitlines()
    if done[-1] != f"carriers {carriers} kept {carriers} refused 0":
        sys.exit(done[-1])
    ours = instructions(program, split, folder)
    parts = sum(instructions(program, ["tidy", name], folder) for name in (names[0], names[-1])) / 2 * carriers
    print(f"instructions, millions: split {ours / 1e6:,.0f}, tidy of the parts {parts / 1e6:,.0f}, ratio {ours / parts:.2f}")
    whole, part = (best(runs) for runs in in_turn([(0, [program, *split]), (0, [program, "tidy", names[0]])], folder, 3))
    print(f"seconds: split {whole[0]:.2f}, tidy of the parts {part[0] * carriers:.2f}")
    print(f"MiB: split {whole[1] / 2**20:.0f}, tidy of a part {part[1] / 2**20:.0f}, the file {os.path.getsize(os.path.join(folder, 'world')) / 2**20:.0f}")
    sys.exit(ours > GOAL * parts)


if __name__ == "__main__":
    main()
