#!/usr/bin/env python3
"""Measures whether messages may come in any order: orders.py OURS [FOLDER] [COUNT]

COUNT (100,000), twice and four times as many small texts are brought to an empty desk in order of reference, in falling order, and in a
seeded random order:

- `receive` reads them from one mailbox file. All three orders end with the same desk file, which is checked;
- `take` reads each from a file of its own: a quarter as many texts, as many names as a command line can have;
- `withdraw` takes away every 20th message, in the three orders;
- `merge` brings two desks together that have every other message each, and two of which one has all earlier messages;
- `findings` opens a desk file, which has its messages in order.

Each runs three times, and the least processor time counts, as the processor is shared. The first ratio of an order is to that of the
messages in order, the last column is the time of a message against that of the smallest count.
"""
import filecmp
import os
import random
import re
import resource
import subprocess
import sys

from measure import RUNS, TOP, arguments
from texts import reference, sample_text, write_mailbox

ORDERS = ("sorted", "falling", "random")
RUN = {"check": True, "stdout": subprocess.DEVNULL}


def in_orders(numbers):
    """The numbers in the three orders."""
    numbers = list(numbers)
    return {"sorted": numbers, "falling": numbers[::-1], "random": random.Random(1).sample(numbers, len(numbers))}


def seconds(words, folder):
    """Processor seconds of one run."""
    before = resource.getrusage(resource.RUSAGE_CHILDREN)
    subprocess.run(words, cwd=folder, **RUN)
    after = resource.getrusage(resource.RUSAGE_CHILDREN)
    return after.ru_utime + after.ru_stime - before.ru_utime - before.ru_stime


def least(words, folder):
    return min(seconds(words, folder) for _ in range(RUNS))


class Report:
    """The rows of the table, and the time of a message at the smallest count."""

    def __init__(self):
        self.first = {}
        print("| Command | Messages | Seconds | Ratio to sorted | A message, to the fewest |\n|---|---|---|---|---|")

    def row(self, title, count, spent, sorted_spent):
        self.first.setdefault(title, spent / count)
        print(f"| {title} | {count:,} | {spent:.3f} | {spent / sorted_spent:.2f} | {spent / count / self.first[title]:.2f} |", flush=True)


def measure(report, folder, command, count, numbers, words_of):
    """The rows of a command line, which is made of an order and of the numbers in this order."""
    spent = {}
    for order, each in in_orders(numbers).items():
        spent[order] = least(words_of(order, each), folder)
        report.row(f"`{command}`, {order}", count, spent[order], spent["sorted"])


def measure_receive(ours, folder, count, report):
    def words_of(order, numbers):
        write_mailbox(os.path.join(folder, order), map(sample_text, numbers))
        return [ours, "receive", "empty", f"{order}.desk", order]

    measure(report, folder, "receive", count, range(count), words_of)
    for order in ORDERS[1:]:
        if not filecmp.cmp(*[os.path.join(folder, f"{name}.desk") for name in ("sorted", order)], shallow=False):
            sys.exit(f"{order}: another desk file")


def measure_take(ours, folder, count, report):
    """The names of the files are short, since they are all on one command line."""
    for number in range(count):
        with open(os.path.join(folder, f"{number:x}"), "w") as file:
            file.write(sample_text(number))
    measure(report, folder, "take", count, range(count),
            lambda _, numbers: [ours, "take", "empty", "taken.desk", *[f"{number:x}" for number in numbers]])


def measure_withdraw(ours, folder, count, report):
    names = {number: re.sub("(.{5})(.{5}).(.*)", r"SSM \g<1>27 \2 \3", reference(number)) for number in range(0, count, 20)}
    measure(report, folder, "withdraw", count, names,
            lambda _, numbers: [ours, "withdraw", "sorted.desk", "less.desk", *[names[number] for number in numbers]])


def measure_merge(ours, folder, count, report):
    halves = {"earlier": range(count // 2), "later": range(count // 2, count), "even": range(0, count, 2), "odd": range(1, count, 2)}
    for name, numbers in halves.items():
        write_mailbox(os.path.join(folder, name), map(sample_text, numbers))
        subprocess.run([ours, "receive", "empty", f"{name}.desk", name], cwd=folder, **RUN)
    spent = {}
    for one, other in (("earlier", "later"), ("even", "odd")):
        spent[one] = least([ours, "merge", f"{one}.desk", f"{other}.desk", "merged.desk"], folder)
        report.row(f"`merge`, {one} and {other}", count, spent[one], spent["earlier"])


def main():
    (ours,), folder, words = arguments(__doc__, 1)
    fewest = int(words[0]) if words else 100_000
    subprocess.run([ours, "start", os.path.join(TOP, "samples", "season.ssim"), "none", "empty"], cwd=folder, **RUN)
    report = Report()
    for count in (fewest, 2 * fewest, 4 * fewest):
        measure_receive(ours, folder, count, report)
        measure_take(ours, folder, count // 4, report)
        measure_withdraw(ours, folder, count, report)
        measure_merge(ours, folder, count, report)
        opened = least([ours, "findings", "sorted.desk"], folder)
        report.row("`findings`", count, opened, opened)


if __name__ == "__main__":
    main()
