#!/usr/bin/env python3
"""Tries wrong bodies, each of which the prover must refuse: wrong_bodies.py [--beside LOG] [CRATE..]

A wrong body is an edit of the code, which names functions (tests/edits.py): the prover checks these in a copy of the crate that
is changed so. It is refused if each of these functions has a goal that is not proved. An edit that does not compile, or that a
proof file no longer fits, is refused for another reason, and counts as a failure.
That the functions as they are can be proved is what `rt ci` says, so a wrong body of a crate that `rt ci` did not prove fails.

One check tries several wrong bodies of a crate, since each check reads all libraries first. Such a group changes only bodies of
functions that are named, no two of them the same. A function is checked against the contracts of others, not their bodies, so each
wrong body is judged by the goals of its own functions. One that is not found refused so is tried again alone, and that decides.

It takes the libraries below a crate from crates/*/out/rlib, where `rt ci` builds them. With --beside it runs beside `rt ci`, waits
for each library until LOG, what `rt ci` prints, says that it is proved, and leaves out what is to be tried by hand. The last line is
'N passed, M failed'.
"""
import collections
import concurrent.futures
import os
import re
import shutil
import subprocess
import sys
import tempfile
import time

from edits import TOP, groups_of
from prover import Prover

PARTS = ("src", "specs", "proofs")

# How many checks run side by side: half of the processors, since proofs run beside them.
AT_ONCE = max(1, len(os.sched_getaffinity(0)) // 2)

# What a check says of a function whose proof it refuses, and what is said on that line of a goal that no answer was found for; of a
# goal of the code that is not proved, or an answer that does not prove its goal; of such an answer in the files of a function's
# proof; and of an answer that only names what the code no longer has. `ENDED` is the last line of `rt ci`.
REFUSED = re.compile(r"^fn \w+::(\S+): (?:not proved|no proof)(.*)", re.MULTILINE)
NOT_FOUND = "`search` did not prove `"
GOAL = re.compile(r"^(?:note: )?(?:src/\S+: (?:error: )?it is not proved that|(?:\./)?proofs/\S+: error: ).*", re.MULTILINE)
WRONG_ANSWER = re.compile(r"^(?:note: )?(?:\./)?proofs/(?:(\S+)/)?\w+\.antt:\S+: error: .*", re.MULTILINE)
UNFIT = re.compile(r"is not in scope|has no field|has no `|was not admitted|is no name")
ENDED = re.compile(r"^\d+ passed, \d+ failed", re.MULTILINE)


class Log:
    """What `rt ci` prints to a file, if it runs."""

    def __init__(self, path):
        self.path = path

    def said(self):
        """What it has printed so far."""
        if not self.path:
            return ""
        with open(self.path, encoding="utf-8", errors="replace") as file:
            return file.read()

    def are_proved(self, crates):
        """Whether it says that these crates are proved, if it runs."""
        said = self.said()
        return not self.path or all(re.search(rf"^rt: {name} (proved|is kept)", said, re.MULTILINE) for name in crates)

    def has_ended(self):
        """Whether it has printed its last line, or does not run."""
        return not self.path or bool(ENDED.search(self.said()))


def copied(crate, folder):
    """Copies a crate's code, definitions and proofs into a folder."""
    for part in PARTS:
        if os.path.isdir(os.path.join(TOP, "crates", crate, part)):
            shutil.copytree(os.path.join(TOP, "crates", crate, part), os.path.join(folder, part))


def functions_of(group):
    """The functions that some wrong bodies name."""
    return [name for edit in group for name in edit.functions]


def refused_among(functions, said):
    """Which of these functions a check refuses for their meaning: each has a goal of its own that is not proved, and no answer that
    does not fit the code. It is told of none if any other proof file has an error, since goals of these may rest on it."""
    wrong = collections.defaultdict(list)
    for found in WRONG_ANSWER.finditer(said):
        wrong[(found[1] or "").replace("/", "::")].append(found[0])
    if not wrong.keys() <= functions:
        return set()
    refused = {name for name, rest in REFUSED.findall(said) if wrong[name] or NOT_FOUND in rest}
    return {name for name in refused if not any(map(UNFIT.search, wrong[name]))}


class Tries:
    """The tries of wrong bodies of a crate."""

    def __init__(self, prover, crate):
        self.prover, self.crate = prover, crate

    def tried(self, group):
        """What a check of a copy with some wrong bodies prints, and its status; or what is wrong with one of them, and None."""
        with tempfile.TemporaryDirectory() as folder:
            copied(self.crate, folder)
            for edit in group:
                wrong = edit.apply(folder)
                if wrong:
                    return wrong, None
            command = [*self.prover.command(self.crate), "--jobs", "1"]
            for name in functions_of(group):
                command += ["--only", name]
            done = subprocess.run(command, cwd=folder, stdin=subprocess.DEVNULL, stdout=subprocess.PIPE, stderr=subprocess.STDOUT,
                                  errors="replace", check=False)
            return done.stdout, done.returncode

    def why_not_refused(self, edit):
        """Why a wrong body that is tried alone is not refused for its meaning; or None."""
        said, status = self.tried([edit])
        refused = {name for name, _ in REFUSED.findall(said)}
        goals = [it for it in GOAL.findall(said) if not UNFIT.search(it)]
        if status == 1 and goals and refused.issuperset(edit.functions):
            return None
        what = {None: "it does not fit", 0: "it is proved"}.get(status, f"it is refused for another reason, with status {status}")
        return f"{self.crate}: {edit.name}: {what}:\n{said[:6000]}"

    def why_not_all_refused(self, group):
        """For each wrong body of a group: None, or why it is not refused for its meaning."""
        if len(group) == 1:
            return [self.why_not_refused(group[0])]
        said, status = self.tried(group)
        refused = refused_among(set(functions_of(group)), said) if status == 1 else set()
        return [None if refused.issuperset(edit.functions) else self.why_not_refused(edit) for edit in group]


def verdicts(prover, log, crates):
    """For each wrong body of these crates, and each of these crates: None, or why it fails. A crate's turn comes once those below it
    are proved."""
    left, tried, ended = list(crates), [], False
    with concurrent.futures.ThreadPoolExecutor(AT_ONCE) as pool:
        while left and not ended:
            ended = log.has_ended()
            for crate in [it for it in left if log.are_proved(prover.below(it))]:
                left.remove(crate)
                groups = groups_of(crate, by_hand=not log.path)
                tried += [pool.submit(Tries(prover, crate).why_not_all_refused, group) for group in groups]
            time.sleep(1)
    results = [f"{crate}: a library below it is not proved" for crate in left]
    for it in tried:
        results += it.result()
    while not log.has_ended():
        time.sleep(1)
    return results + [None if log.are_proved([crate]) else f"{crate}: as it is, it is not proved" for crate in crates]


def main(names):
    log = Log(names[1] if names[:1] == ["--beside"] else None)
    names = names[2:] if log.path else names
    prover = Prover()
    results = verdicts(prover, log, [crate for crate in names or prover.uses if groups_of(crate, by_hand=not log.path)])
    failed = [why for why in results if why]
    for why in failed:
        print(f"wrong bodies: {why}", flush=True)
    print(f"{len(results) - len(failed)} passed, {len(failed)} failed")
    return 1 if failed else 0


if __name__ == "__main__":
    sys.exit(main(sys.argv[1:]))
