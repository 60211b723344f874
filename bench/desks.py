#!/usr/bin/env python3
"""Measures the commands on desk files of two programs side by side: desks.py OURS OTHER [FOLDER] [RECORDS] [TEXTS]

A data set of 900,000 records (or RECORDS) is made in FOLDER where it is not there yet, and 1,000 texts (or TEXTS), each of
which changes the equipment of a flight in one week. Each command runs five times with each program, in turn; the best time
and the greatest peak memory of each count. `start` and `take` of both programs write the same files, which is checked. `cp`
of the desk file stands beside the commands that write it. Opening a desk file alone is a `take` that is refused at its text. Opening
and saving run 25 times in turn, and the mean of the five best times counts, since saving is the difference of the two. `rising` and
`falling` are a `rehearse` of one desk that takes the texts in this order of reference. GNU time (`/usr/bin/time`) reads the memory.
"""
import filecmp
import os
import subprocess

from measure import RUNS, arguments, best, in_turn, once, print_pair
import chapter7
import large
from texts import write_texts

# Runs of opening and saving: the difference of two times wants more of them.
MANY = 25


def mean_of_best(runs):
    """The mean of the five best times, and the greatest peak."""
    return sum(sorted(seconds for seconds, _ in runs)[:5]) / 5, max(peak for _, peak in runs)


def compare(title, lines, folder):
    """The best of each command line."""
    found = [best(runs) for runs in in_turn([(0, line) for line in lines], folder, RUNS)]
    print_pair(title, *found[:2], "".join(f"  cp {copied:.3f} s" for copied, _ in found[2:]))


def compare_orders(both, dataset, names, folder):
    """A desk that takes the texts in order of reference, and one that takes each before the last one. Their difference is what a late
    text costs."""
    for order, texts in (("rising", names), ("falling", names[::-1])):
        with open(os.path.join(folder, order), "w") as script:
            script.write("DESKS 1\n" + "".join(f"TAKE 1 {name}\n" for name in texts))
        compare(order, both(["rehearse", dataset, "none", order]), folder)


def compare_file(both, folder):
    """Opening a desk file alone, which is a `take` of a text that is no message, and opening and saving it, which is a `take` of a
    text that is held. The time of saving is their difference."""
    with open(os.path.join(folder, "no-message"), "w") as text:
        text.write("no message\n")
    lines = [(1, line) for line in both(["take", "desk.@", "again.@", "no-message"])]
    lines += [(0, line) for line in both(["take", "desk.@", "again.@", "text0000"])]
    lines.append((0, ["/bin/cp", "desk.a", "copy"]))
    opened, other_opened, kept, other_kept, copied = [mean_of_best(runs) for runs in in_turn(lines, folder, MANY)]
    print_pair("open", opened, other_opened)
    print_pair("open and save", kept, other_kept, f"  cp {copied[0]:.3f} s")
    saved, other_saved = kept[0] - opened[0], other_kept[0] - other_opened[0]
    print(f"{'save':14} {saved:8.3f} {other_saved:8.3f} {saved / other_saved:6.2f}", flush=True)


def main():
    (ours, other), folder, words = arguments(__doc__, 2)
    size, count = (int(word) for word in (words + ["900000", "1000"][len(words) :]))
    dataset = f"{size}.ssim"
    if not os.path.exists(os.path.join(folder, dataset)):
        chapter7.write(os.path.join(folder, dataset), large.records(size))
    texts, designator = write_texts(folder, dataset, count)
    half = count // 2

    def both(words):
        return [[program, *[word.replace("@", mark) for word in words]] for program, mark in ((ours, "a"), (other, "b"))]

    print("command         ours s  other s  ratio   ours MiB  other MiB  ratio")
    start = both(["start", dataset, "none", "empty.@"])
    for line in start:
        once(line[0], line[1:], folder)
    compare("start", [*start, ["/bin/cp", "empty.a", "copy"]], folder)
    compare(f"take {count}", both(["take", "empty.@", "desk.@", *texts]), folder)
    for program, mark in ((ours, "a"), (other, "b")):
        for name, part in (("first", texts[:half]), ("second", texts[half:])):
            subprocess.run([program, "take", f"empty.{mark}", f"{name}.{mark}", *part], cwd=folder, check=True, stdout=subprocess.DEVNULL)
    compare_file(both, folder)
    compare_orders(both, dataset, texts, folder)
    compare(f"merge {half}+{half}", both(["merge", "first.@", "second.@", "merged.@"]), folder)
    compare("show", both(["show", "desk.@", designator, "01JUL25"]), folder)
    compare("findings", both(["findings", "desk.@"]), folder)
    compare("export", both(["export", "desk.@"]), folder)
    for name in ("empty", "desk", "merged"):
        pair = [os.path.join(folder, f"{name}.{mark}") for mark in "ab"]
        print(f"{name}: {'the same file' if filecmp.cmp(*pair, shallow=False) else 'DIFFERENT FILES'}")


if __name__ == "__main__":
    main()
