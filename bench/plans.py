#!/usr/bin/env python3
"""Says what `publish` makes of a planner's changes, and measures it beside `diff`: plans.py OURS PLAN [FOLDER] [SHARE] [SEED]

PLAN is a data set in the shape of a carrier's plan. A planner's seeded changes of SHARE (0.6) of its flights make a second one
(make/planner.py). FROM is a desk with the station table that the UTC variations of PLAN give. Printed are the periods and dates of
`diff`, the sub-messages, texts and unsaid dates of `publish`, the seconds and peak memory of both (the best of three runs in turn), and what
a copy of the desk that receives the texts has left to `diff`. GNU time reads the memory.
"""
import os
import random
import subprocess
import sys

from measure import arguments, best, in_turn
from chapter7 import write
from messages import written
from planner import flights_of, planned, station_rows

RUNS = 3
GOAL = 3.0


def run(program, folder, *words):
    return subprocess.run([program, *words], cwd=folder, stdout=subprocess.PIPE, check=True).stdout.decode("latin-1").splitlines()


def main():
    (program, plan), folder, words = arguments(__doc__, 2)
    share, seed = words + ["0.6", "1"][len(words) :]
    with open(plan, "rb") as file:
        lines = [line for line in file.read().split(b"\n") if line[:1] in (b"1", b"2", b"3", b"5")]
    write(os.path.join(folder, "plan.ssim"), lines)
    write(os.path.join(folder, "planned.ssim"), planned(random.Random(seed), lines, float(share)))
    with open(os.path.join(folder, "stations"), "wb") as out:
        out.write(written(station_rows(lines)))
    day = lines[1][28:33].decode("ascii")
    run(program, folder, "start", "plan.ssim", "stations", "plan.desk")
    differing = run(program, folder, "diff", "plan.desk", "planned.ssim")
    words = ["publish", "plan.desk", "planned.ssim", f"{day}00001E001", "change"]
    said = run(program, folder, *words)
    periods = sum(line[:1] not in "-+ " for line in differing[:-1])
    _, texts, _, subs, _, _, unsaid = said[-1].split()
    print(f"{len(flights_of(lines))} flights; {differing[-1]}; periods {periods}")
    print(f"{said[-1]}; sub-messages a period {int(subs) / periods:.2f}; bytes {os.path.getsize(os.path.join(folder, 'change'))}")
    (diff_time, diff_peak), (time, peak) = [best(runs) for runs in in_turn(
        [(0, [program, "diff", "plan.desk", "planned.ssim"]), (0, [program, *words])], folder, RUNS)]
    print(f"diff {diff_time:.3f} s {diff_peak / 2**20:.0f} MiB; publish {time:.3f} s {peak / 2**20:.0f} MiB; "
          f"ratio {time / diff_time:.2f}, goal {GOAL}")
    received = run(program, folder, "receive", "plan.desk", "new.desk", "change")
    left = run(program, folder, "diff", "new.desk", "planned.ssim")
    print(f"received: {received[-1]}; left: {left[-1]}")
    dates = 0 if left[-1] == "same" else int(left[-1].split()[-1])
    sys.exit(0 if (received[-1], dates) == (f"taken {texts} repeated 0 refused 0", int(unsaid)) else 1)


if __name__ == "__main__":
    main()
