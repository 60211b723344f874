#!/usr/bin/env python3
"""Refuses each growth of memory in turn to the calls of the library in calls.txt: calls.py PROGRAM

PROGRAM is that of crates/ssim_cases. Growth number 1, 2, .. of a run is refused, each in a copy of the program that is made there, and at
last none. Where a call
returns that memory is out (90, or 52 of `save` and `export`), the program prints it, looks whether every desk is as before
(else its status is 3), and makes the call again. So it prints the lines of a run without refusals, and that one. A step of
`steps` that is refused is not made again: the other lines are those of the same cases without the step. With status 2 memory
was refused to the program itself, between calls; it has then printed a front of those lines. So are refused the growths of calls
on a desk that has taken 40 texts, after which a late one is applied from a checkpoint.

Then the growths of a run of 640 texts are counted, which are less than 20 times those of the first 64.
The last line is 'N passed, M failed'; the lines before it say how often each call was refused.
"""
import collections
import concurrent.futures
import os
import sys
import tempfile
import time

from small_runs import HERE, Runs, built_library

REFUSED = (b"refused 90 Memory\n", b"refused 52 WriteFault\n")
STEP_REFUSED = b"step refused 90 Memory\n"
OWN_MEMORY = 2

# The words that have to be refused: each call, and a step.
WORDS = ("read", "start", "take", "merge", "findings", "export", "save", "open", "steps", "step", "encode", "decode", "resolve")
AT_ONCE = 2

# Calls on a desk that holds many texts.
LATE = """guard 9220 9429 LX544
| SSM
| UTC
| 31MAY00001E001
| CNL
| LX544
| 05JUL25 05JUL25 6
file late
take 1 late
save 1 saved
open saved 1000000
start season stations
merge 3 1
"""

BASE = """= header
= carrier
= leg
= trailer
file season
file stations
"""


def calls():
    with open(os.path.join(HERE, "calls.txt"), encoding="ascii", newline="\n") as file:
        return file.read()


def late_calls():
    return cases_of_texts(40, True) + LATE


def growths_before_late(runs):
    """The growths of the texts before the calls of LATE, with remarks as long as these."""
    return growths_of(runs, cases_of_texts(40, True) + "".join("# " + line[2:] for line in LATE.splitlines(keepends=True)))


class Sweep:
    """The runs of cases in a folder, and how often each word was refused."""

    def __init__(self, runs, cases):
        self.runs, self.cases = runs, cases
        self.whole = self.printed(self.cases)
        self.without = {}
        self.counts = collections.Counter()

    def printed(self, cases):
        answer = self.runs.run([], given=cases.encode())
        assert answer.status == 0, answer
        return answer.out

    def without_step(self, place):
        """What is printed of the cases without this step."""
        if place not in self.without:
            lines = self.cases.splitlines(keepends=True)
            steps = [number for number, line in enumerate(lines) if line.startswith(("| TAKE ", "| MERGE "))]
            del lines[steps[place]]
            self.without[place] = self.printed("".join(lines))
        return self.without[place]

    def wrong(self, answer):
        """What is wrong with an answer, or nothing."""
        if answer.status == OWN_MEMORY and answer.refused:
            self.counts["the program's own memory"] += 1
            return None if self.whole.startswith(answer.out) else "other lines before the end"
        if answer.status != 0:
            return f"status {answer.status}"
        lines = answer.out.splitlines(keepends=True)
        expected = self.whole
        for place, line in enumerate(lines):
            if line in REFUSED:
                self.counts[lines[place - 1].split()[0].decode()] += 1
                del lines[place]
                break
            if line == STEP_REFUSED:
                self.counts["step"] += 1
                expected = self.without_step(sum(other.startswith(b"step ") for other in lines[:place]))
                del lines[place]
                break
        else:
            self.counts["no call"] += answer.refused
        return None if b"".join(lines) == expected else "other lines"

    def refuse(self, first):
        """Refuses growth `first`, and each AT_ONCE-th after it: how many runs, and what was wrong."""
        runs, faults = 0, []
        for number, answer in self.runs.each([], first, AT_ONCE, self.cases.encode()):
            runs += 1
            wrong = self.wrong(answer)
            if wrong:
                faults.append(f"calls: growth {number}: {wrong}: status {answer.status}, {answer.out[-200:]!r}, {answer.err[-200:]!r}")
        return runs, faults


def sweep(program, library, cases, first):
    with Runs(program, library, desks=()) as runs:
        one = Sweep(runs, cases)
        return (*one.refuse(first), one.counts)


def cases_of_texts(count, takes):
    """Cases with this many texts in order of reference, which a desk takes or does not."""
    first, *_ = calls().partition("\nguard ")
    texts = "".join(f"| SSM\n| UTC\n| 03JUN{number:05}E001\n| EQT\n| LX544\n| 01JUL25 01JUL25 2\n| J 319 CY\nfile text\n"
                    + ("take 1 text\n" if takes else "") for number in range(1, count + 1))
    return first + "\ncase long\n" + BASE + ("start season stations\n" if takes else "") + texts


def growths_of(runs, cases):
    """The greatest number of a growth whose refusal a run meets."""
    least, most = 0, 1 << 20
    while least < most:
        middle = (least + most + 1) // 2
        if runs.run([], "growths", middle, middle, given=cases.encode()).refused:
            least = middle
        else:
            most = middle - 1
    return least


def growths_of_a_long_run(program, library, count):
    """The growths of a desk that starts and takes the texts; those of the program without the desk do not count."""
    with Runs(program, library, desks=()) as runs:
        return growths_of(runs, cases_of_texts(count, True)) - growths_of(runs, cases_of_texts(count, False))


def main():
    if len(sys.argv) != 2:
        sys.exit(__doc__)
    begun = time.monotonic()
    program = os.path.abspath(sys.argv[1])
    passed, faults, counts = 0, [], collections.Counter()
    with tempfile.TemporaryDirectory() as room, concurrent.futures.ThreadPoolExecutor(AT_ONCE) as pool:
        library = built_library(room)
        long = [pool.submit(growths_of_a_long_run, program, library, count) for count in (64, 640)]
        with Runs(program, library, desks=()) as folder:
            late = growths_before_late(folder)
        sweeps = []
        for first in range(1, AT_ONCE + 1):
            sweeps += [pool.submit(sweep, program, library, cases, before + first) for cases, before in ((calls(), 0), (late_calls(), late))]
        for answer in sweeps:
            runs, wrong, refused = answer.result()
            passed += runs - len(wrong)
            faults += wrong
            counts += refused
        short, whole = (answer.result() for answer in long)
    faults += [f"calls: {word} was never refused" for word in WORDS if not counts[word]]
    if whole >= 20 * short or not short:
        faults.append("calls: a long run grows too often")
    else:
        passed += 1
    print("".join(line + "\n" for line in faults[:20]), end="")
    print("calls: refused: " + ", ".join(f"{word} {count}" for word, count in counts.items()))
    print(f"calls: growths of 64 texts {short}, of 640 texts {whole}")
    print(f"calls: {time.monotonic() - begun:.0f} s")
    print(f"{passed} passed, {len(faults)} failed")
    sys.exit(1 if faults or not passed else 0)


if __name__ == "__main__":
    main()
