#!/usr/bin/env python3
"""Compares a program with a plain model on seeded cases: run.py MODEL PROGRAM [--cases N] [--seed N] [--kind KIND] [--jobs N] [PEER]

MODEL is a module of this folder, whose doc string says what is compared. `commands`, `data_sets`, `desk_files` and `problems` compare with PEER,
another program of the same requirement.

Each of N (200) cases has a folder of its own, and a random number generator by the seed (1) and its number. The model makes a case of KIND,
or of any of its kinds, by `make(rng, room, kind)`; then `compared(rng, room, case)` runs commands and yields what is compared, what came and
what has to come. Printed are the differences, how often what came, and as the last line 'N passed, M failed', of the cases. The
folders of the cases that failed are left.
"""
import argparse
import collections
import importlib
import multiprocessing
import os
import random
import shutil
import sys
import tempfile

TOP = os.path.dirname(os.path.dirname(os.path.abspath(__file__)))
sys.path.insert(0, os.path.join(TOP, "make"))
sys.path.append(os.path.join(TOP, "tests"))

from room import Answer, Room

MODELS = ["blame", "carry", "convert", "days", "effects", "explain", "parts", "publish", "receive", "refused", "since", "split", "sql", "views",
          "words"]
WITH_PEER = ["commands", "data_sets", "desk_files", "problems"]
SHOWN = 5


def difference(what, got, wanted):
    """Shows how two values differ: answers and files by their names, bytes and lists from before the first line that differs."""
    if isinstance(got, Answer):
        got, wanted = got._asdict(), wanted._asdict()
    if isinstance(got, dict):
        names = [name for name in {**got, **wanted} if got.get(name) != wanted.get(name)]
        return "; ".join(difference(f"{what}: {name}", got.get(name), wanted.get(name)) for name in names)
    if isinstance(got, bytes) and isinstance(wanted, bytes):
        got, wanted = got.split(b"\n"), wanted.split(b"\n")
    if isinstance(got, list) and isinstance(wanted, list):
        place = next((place for place, pair in enumerate(zip(got, wanted)) if pair[0] != pair[1]), min(len(got), len(wanted)))
        what = f"{what}: line {place + 1}"
        got, wanted = (lines[max(place - 3, 0) : place + 4] for lines in (got, wanted))
    return f"{what}: {got!r:.600} and {wanted!r:.600}"


def tried(task):
    """The number and the kind of a case, what came, and the differences."""
    number, words = task
    model, rng = importlib.import_module(words.model), random.Random(f"{words.seed} {number}")
    kind = words.kind or rng.choice(model.KINDS)
    top = os.path.join(words.folder, f"{number}")
    room = Room(os.path.join(top, "files"), words.program, words.peer)
    found = model.compared(rng, room, model.make(rng, room, kind))
    found = [difference(*values) for values in found if values[1] != values[2]]
    if not found:
        shutil.rmtree(top)
    return number, kind, room.counts, found


def run(words):
    """Tries the cases, and returns how many failed."""
    counts, failed = collections.Counter(), 0
    with multiprocessing.Pool(words.jobs) as pool:
        for number, kind, came, found in pool.imap(tried, [(number, words) for number in range(words.cases)]):
            counts += collections.Counter({f"cases: {kind}": 1}) + came
            if found:
                failed += 1
                print(f"{words.model} {number}, {kind}, in {words.folder}/{number}:", *found[:SHOWN], sep="\n  ", flush=True)
    for what, times in sorted(counts.items()):
        print(f"{times:8} {what}")
    return failed


def main():
    parser = argparse.ArgumentParser(description=__doc__.splitlines()[0])
    parser.add_argument("model", choices=MODELS + WITH_PEER)
    parser.add_argument("program", type=os.path.abspath)
    parser.add_argument("peer", nargs="?", type=os.path.abspath)
    parser.add_argument("--cases", type=int, default=200)
    parser.add_argument("--seed", type=int, default=1)
    parser.add_argument("--kind")
    parser.add_argument("--jobs", type=int)
    words = parser.parse_intermixed_args()
    if (words.peer is not None) != (words.model in WITH_PEER):
        parser.error(f"{words.model} is compared {'with' if words.peer is None else 'without'} PEER")
    model = importlib.import_module(words.model)
    kinds = sorted({*model.KINDS, *getattr(model, "ONLY_NAMED", ())})
    if words.kind not in [None, *kinds]:
        parser.error(f"the kinds of {words.model} are: {', '.join(kinds)}")
    for program in filter(None, (words.program, words.peer)):
        if not os.access(program, os.X_OK):
            parser.error(f"{program} is no program")
    # In memory, if there is such a folder, since a desk file is synced whenever it is kept.
    words.folder = tempfile.mkdtemp(prefix="compare-", dir="/dev/shm" if os.access("/dev/shm", os.W_OK) else None)
    failed = run(words)
    if not failed:
        shutil.rmtree(words.folder)
    print(f"{words.model}: {words.cases} cases, seed {words.seed}")
    print(f"{words.cases - failed} passed, {failed} failed")
    sys.exit(1 if failed else 0)


if __name__ == "__main__":
    main()
