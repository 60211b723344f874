#!/usr/bin/env python3
"""Lets three offices work apart by git: by_git.py PROGRAM [SEEDS] [STEPS]

For each of SEEDS (20) three clones of one repository hold a desk, with the merge driver of docs/OFFICES.md. In each of STEPS (60) an office
takes some texts, which another one may have taken, withdraws a text that it alone took, or pulls and pushes. In half of the seeds offices
also pull from each other. At last all pull until they have one commit. No merge may end in a conflict, and each desk has to be the one that
took every text that was not withdrawn, in another order. Printed are the merges that the driver made, the texts and the withdrawn ones; the
last line is 'N passed, M failed'.
"""
import collections
import os
import random
import subprocess
import sys
import tempfile

from measure import TOP

sys.path.insert(0, os.path.join(TOP, "compare"))

import carry
from carry import Desk, printed
from room import Room

OFFICES = ["fdh", "ham", "muc"]
DESK = "season.desk"
DRIVER = "ssimdesk merge --since %O %A %B %A >> ../driver.log"


class Office:
    """A clone, the texts that only it took and has, and those that it took at all."""

    def __init__(self, room, name):
        self.room, self.name, self.folder, self.own = room, name, room.path(name), {}

    def git(self, *words):
        """Runs git in the clone. A status but 0 ends the run of this seed."""
        names = {**os.environ, "HOME": self.room.folder, "GIT_CONFIG_NOSYSTEM": "1", "LC_ALL": "C.UTF-8"}
        names["PATH"] = os.pathsep.join([self.room.path("programs"), names["PATH"]])
        done = subprocess.run(["git", *words], cwd=self.folder, env=names, stdout=subprocess.PIPE, stderr=subprocess.STDOUT, check=False)
        if done.returncode:
            raise RuntimeError(f"{self.name}: git {' '.join(words)}: {done.stdout.decode('latin-1')}")
        return done.stdout.decode("latin-1").strip()

    def set_up(self):
        for name, value in [("user.name", self.name), ("user.email", f"{self.name}@example.org"), ("pull.rebase", "false"),
                            ("merge.ssimdesk.driver", DRIVER)]:
            self.git("config", name, value)

    def commit(self, what):
        self.git("commit", "-q", "--allow-empty", "-a", "-m", what)

    def pull(self, place):
        self.git("pull", "-q", "--no-edit", place, "main")

    def share(self):
        """Pulls from the common repository, and pushes."""
        self.pull("origin")
        self.git("push", "-q", "origin", "main")

    def desk(self):
        return os.path.join(self.folder, DESK)


def texts_of(rng, room, base, tries):
    """Texts that a desk takes, each with a reference of its own, by reference."""
    room.copy("empty.desk", "texts.desk")
    for _ in range(tries):
        carry.bring(room, "texts.desk", [carry.text_of(rng, (base, base))])
    return Desk(room.read("texts.desk")).held


def set_up(room, program):
    """A repository with the desk, and its three clones."""
    os.mkdir(room.path("programs"))
    os.symlink(program, room.path("programs/ssimdesk"))
    for words in [("init", "-q", "--bare", "-b", "main", "common.git"), *(("clone", "-q", "common.git", name) for name in OFFICES)]:
        subprocess.run(["git", *words], cwd=room.folder, check=True, stderr=subprocess.DEVNULL)
    offices = [Office(room, name) for name in OFFICES]
    for office in offices:
        office.set_up()
    first = offices[0]
    first.git("checkout", "-q", "-b", "main")
    with open(os.path.join(first.folder, ".gitattributes"), "w", encoding="ascii") as file:
        file.write("*.desk -text merge=ssimdesk\n")
    room.copy("empty.desk", os.path.join(first.name, DESK))
    first.git("add", ".")
    first.commit("the season")
    first.git("push", "-q", "origin", "main")
    for office in offices[1:]:
        office.git("pull", "-q", "origin", "main")
        office.git("checkout", "-q", "-B", "main", "origin/main")
    return offices


def step(rng, room, office, offices, left, shared, gone, apart):
    """One step of an office: it takes texts, withdraws one, or gets what others have."""
    kind = rng.choice(["take", "take", "withdraw", "share", "share" if apart else "pull"])
    if kind == "take":
        new = [left.popitem() for _ in range(min(len(left), rng.randrange(4)))]
        office.own.update(new[1:])
        shared.update(new[:1])
        texts = [text for _, text in new] + rng.sample(sorted(shared.values()), min(len(shared), rng.randrange(3)))
        carry.bring(room, os.path.join(office.name, DESK), texts)
        office.commit(f"{len(texts)} texts")
    elif kind == "withdraw" and office.own:
        reference = rng.choice(sorted(office.own))
        gone[reference] = office.own.pop(reference)
        answer = room("withdraw", office.desk(), office.desk(), printed(reference))
        if answer.out != f"withdrawn {printed(reference)}\n".encode():
            raise RuntimeError(f"{office.name}: {answer}")
        office.commit("one withdrawn")
    elif kind == "share":
        office.share()
    elif kind == "pull":
        office.pull(rng.choice([other.folder for other in offices if other is not office]))


def run(seed, steps, program):
    """The counts of a seed, and what is wrong, if something is."""
    rng, counts = random.Random(seed), collections.Counter()
    with tempfile.TemporaryDirectory() as folder:
        room = Room(os.path.join(folder, "room"), program)
        base, _ = carry.two_bases(rng, "dates")
        carry.start(rng, room, "empty.desk", base, [1, 2])
        offices = set_up(room, program)
        all_texts = texts_of(rng, room, base, 60)
        left, shared, gone = dict(all_texts), {}, {}
        try:
            for _ in range(steps):
                step(rng, room, rng.choice(offices), offices, left, shared, gone, seed % 2 == 1)
            for office in offices + offices:
                office.share()
        except RuntimeError as error:
            return counts, str(error)
        took = {reference: text for reference, text in all_texts.items() if reference not in left and reference not in gone}
        room.copy("empty.desk", "whole.desk")
        carry.bring(room, "whole.desk", rng.sample(sorted(took.values()), len(took)))
        merges = 0
        if os.path.exists(room.path("driver.log")):
            merges = len((room.read("driver.log") or b"").splitlines())
        counts.update({"merges": merges, "texts": len(took), "withdrawn": len(gone)})
        desks = {room.read(os.path.join(office.name, DESK)) for office in offices}
        if desks != {room.read("whole.desk")}:
            return counts, f"{len(desks)} desks, of {[len(Desk(desk).held) for desk in desks]} texts, where {len(took)} are expected"
    return counts, None


def main():
    if not 2 <= len(sys.argv) <= 4:
        sys.exit(__doc__)
    program = os.path.abspath(sys.argv[1])
    seeds, steps = (int(word) for word in (sys.argv[2:] + ["20", "60"][len(sys.argv) - 2 :]))
    counts, failed = collections.Counter(), 0
    for seed in range(1, seeds + 1):
        more, wrong = run(seed, steps, program)
        counts.update(more)
        if wrong:
            failed += 1
            print(f"seed {seed}: {wrong}")
    print(f"merges {counts['merges']} texts {counts['texts']} withdrawn {counts['withdrawn']}")
    print(f"{seeds - failed} passed, {failed} failed")
    sys.exit(1 if failed else 0)


if __name__ == "__main__":
    main()
