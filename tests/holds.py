#!/usr/bin/env python3
"""Runs commands of the built program at once on one desk file, and on files that are not theirs to replace: holds.py PROGRAM

First each example of a file that a command may not replace, and of one that another program holds or changes: the refusal, and that no
file changes. Then two commands at once, 200 times, and eight workers whose commands take, receive, merge and withdraw, some of them
killed: each text of a line `taken` is held unless it was withdrawn, and no lock, no part and no invalid desk file is left. The last line
is 'N passed, M failed'.
"""
import fcntl
import multiprocessing
import os
import random
import shutil
import stat
import subprocess
import sys
import tempfile
import threading

from small_runs import SAMPLES, fast_folder

ROUNDS = 200
WORKERS = 8
TEXTS = 10


def text_of(worker, number):
    """A text with a reference of its own, which is the first line of the pair."""
    serial = worker * 1000 + number
    return f"SSM 01MAR27 {serial:05} 001", f"SSM\nLT\n01MAR{serial:05}E001\nCNL\nZ7101\n29MAR27 29MAR27 1\n"


class Holds:
    """A folder with the samples and a desk, and the numbers of what was as it has to be."""

    def __init__(self, program):
        self.program = os.path.abspath(program)
        self.room = tempfile.TemporaryDirectory(dir=fast_folder())
        self.folder = os.path.join(self.room.name, "files")
        shutil.copytree(SAMPLES, self.folder)
        self.passed = self.failed = 0
        self.run("start", "season.ssim", "stations.txt", "fdh.desk")
        self.run("take", "fdh.desk", "fdh.desk", "texts/03-larger-aircraft.ssm")

    def path(self, name):
        return os.path.join(self.folder, name)

    def command(self, *words):
        return [self.program, *words]

    def run(self, *words, **options):
        return subprocess.run(self.command(*words), cwd=self.folder, capture_output=True, timeout=100, check=False, **options)

    def count(self, name, wrong, *details):
        self.passed, self.failed = self.passed + (not wrong), self.failed + bool(wrong)
        if wrong:
            print(f"holds: {name}: {wrong}", *(repr(detail)[:300] for detail in details), flush=True)

    def files(self):
        found = {}
        for folder, _, names in os.walk(self.folder):
            for name in names:
                path = os.path.join(folder, name)
                if stat.S_ISREG(os.lstat(path).st_mode):
                    with open(path, "rb") as file:
                        found[os.path.relpath(path, self.folder)] = file.read()
        return found

    def refused(self, name, line, *words):
        """The command is refused before it prints, and no file changes."""
        before = self.files()
        done = self.run(*words)
        same = (done.returncode, done.stdout, done.stderr) == (1, b"", line.encode() + b"\n")
        self.count(name, not same and "another answer" or self.files() != before and "a file changed", done)

    # ---- files that are not to be replaced

    def occupied(self):
        texts = ["texts/01-holiday.ssm", "texts/02-new-times.ssm"]
        with open(self.path("note"), "w", encoding="ascii") as file:
            file.write("a note\n")
        for name in "empty", "empty mail":
            with open(self.path(name), "wb"):
                pass
        os.link(self.path("empty"), self.path("link to empty"))
        os.symlink("fdh.desk", self.path("link to desk"))
        self.refused("OUT of take forgotten", "refused 93 Occupied texts/01-holiday.ssm", "take", "fdh.desk", *texts)
        self.refused("OUT of start is the season", "refused 93 Occupied season.ssim", "start", "season.ssim", "stations.txt", "season.ssim")
        self.refused("OUT of start is the table", "refused 93 Occupied stations.txt", "start", "season.ssim", "stations.txt", "stations.txt")
        self.refused("OUT of receive forgotten", "refused 93 Occupied texts/01-holiday.ssm", "receive", "fdh.desk", *texts)
        self.refused("OUT of merge is a note", "refused 93 Occupied note", "merge", "fdh.desk", "fdh.desk", "note")
        self.refused("OUT of carry is a note", "refused 93 Occupied note", "carry", "fdh.desk", "fdh.desk", "note")
        self.refused("OUT of withdraw is a mailbox", "refused 93 Occupied mail.txt", "withdraw", "fdh.desk", "mail.txt", "SSM 15MAR27 00001 001")
        self.refused("nothing is read before", "refused 93 Occupied note", "take", "missing", "note", "missing")
        publish = ["publish", "season.ssim", "planned.ssim", "20MAR00001E001"]
        self.refused("OUT of publish is a desk", "refused 93 Occupied fdh.desk", *publish, "fdh.desk")
        self.refused("OUT of publish is a data set", "refused 93 Occupied planned.ssim", *publish, "planned.ssim")
        for name in "fdh.desk", "note", "mail.txt", "link to desk":
            self.refused("OUT of convert is no data set", f"refused 93 Occupied {name}", "convert", "utc", "season.ssim", name)
        shutil.copyfile(self.path("fdh.desk"), self.path("new-Z7.ssim"))
        self.refused("a name of split is a desk", "refused 93 Occupied new-Z7.ssim", "split", "season.ssim", "new-")
        shutil.copyfile(self.path("season.ssim"), self.path("new-Z7.ssim"))
        receive = ["fdh.desk", "fdh.desk", "mail.txt"]
        for name in "mail.txt", "fdh.desk", "note", "link to desk", "season.ssim":
            self.refused("refused texts go to a file with bytes", f"refused 93 Occupied {name}", "receive", "--refused", name, *receive)
        self.refused("refused texts go to an empty mailbox", "refused 93 Occupied empty", "receive", "--refused", "empty", *receive, "empty")
        self.refused("refused texts go to a link to it", "refused 93 Occupied link to empty", "receive", "--refused", "link to empty",
                     *receive, "empty")
        self.refused("refused texts go to the new desk", "refused 93 Occupied new", "receive", "--refused", "new", "fdh.desk", "new", "mail.txt")
        done = self.run("receive", "--refused", "empty mail", *receive)
        self.count("refused texts go to an empty file", done.returncode != 0 and "another status", done)
        done = self.run("merge", "fdh.desk", "fdh.desk", "link to empty")
        self.count("a desk file replaces an empty file", done.returncode != 0 and "another status", done)
        done = self.run(*publish, "note")
        self.count("messages replace a note", done.returncode != 0 and "another status", done)
        done = self.run("convert", "utc", "season.ssim", "planned.ssim")
        self.count("a data set replaces a data set", done.returncode != 0 and "another status", done)
        done = self.run("split", "season.ssim", "new-")
        self.count("a data set of a section replaces a data set", done.returncode != 0 and "another status", done)

    # ---- files that another program holds or changes

    def commands(self):
        """A command of each kind on the desk, whose OUT is the desk."""
        return [["start", "season.ssim", "stations.txt", "fdh.desk"], ["take", "fdh.desk", "fdh.desk", "texts/01-holiday.ssm"],
                ["receive", "fdh.desk", "fdh.desk", "mail.txt"], ["merge", "fdh.desk", "fdh.desk", "fdh.desk"],
                ["carry", "fdh.desk", "fdh.desk", "fdh.desk"], ["withdraw", "fdh.desk", "fdh.desk", "SSM 15MAR27 00001 001"]]

    def busy(self):
        with open(self.path("fdh.desk"), "rb") as file:
            fcntl.flock(file, fcntl.LOCK_EX)
            for words in self.commands():
                self.refused(f"{words[0]} of a file that is held", "refused 92 Busy fdh.desk", *words)
            self.refused("nothing is read before", "refused 92 Busy fdh.desk", "take", "missing", "fdh.desk", "missing")
            os.rename(self.path("fdh.desk"), self.path("new-Z7.ssim"))
            self.refused("a name of split that is held", "refused 92 Busy new-Z7.ssim", "split", "season.ssim", "new-")
            os.rename(self.path("new-Z7.ssim"), self.path("fdh.desk"))
            done = self.run("texts", "fdh.desk")
            self.count("a file that is held is read", done.returncode != 0 and "another status", done)
        with open(self.path("back"), "wb") as file:
            fcntl.flock(file, fcntl.LOCK_EX)
            self.refused("refused texts go to a file that is held", "refused 92 Busy back", "receive", "--refused", "back", "fdh.desk",
                         "fdh.desk", "mail.txt")

    def changed(self):
        """The desk is changed by a program that asks for no lock, while the command waits for its text."""
        os.mkfifo(self.path("fifo"))
        new = self.path("made")
        shutil.copy(self.path("fdh.desk"), new)
        self.run("take", "made", "made", "texts/02-new-times.ssm")
        with open(new, "rb") as file:
            other = file.read()

        def in_place():
            with open(self.path("fdh.desk"), "r+b") as file:
                file.write(other)
                file.truncate()

        changes = {"written in place": in_place, "renamed over": lambda: os.replace(new, self.path("fdh.desk")),
                   "removed": lambda: os.unlink(self.path("fdh.desk"))}
        for name, change in changes.items():
            job = subprocess.Popen(self.command("take", "fdh.desk", "fdh.desk", "fifo"), cwd=self.folder, stdout=subprocess.PIPE,
                                   stderr=subprocess.PIPE)
            with open(self.path("fifo"), "wb") as fifo:
                change()
                before = self.files()
                fifo.write(text_of(0, 0)[1].encode())
            _, err = job.communicate(timeout=100)
            wrong = err != b"refused 92 Busy fdh.desk\n" and "another line" or self.files() != before and "a file changed"
            self.count(f"the desk is {name}", wrong, err)
        with open(self.path("fdh.desk"), "wb") as file:
            file.write(other)
        os.unlink(self.path("fifo"))

    def owner(self):
        """Mode, owner and group of a file stay, the last two as far as the system lets us."""
        os.chmod(self.path("fdh.desk"), 0o640)
        if os.geteuid() == 0:
            os.chown(self.path("fdh.desk"), 1, 2)
        before = os.stat(self.path("fdh.desk"))
        done = self.run("take", "fdh.desk", "fdh.desk", "texts/01-holiday.ssm")
        after = os.stat(self.path("fdh.desk"))
        same = (before.st_mode, before.st_uid, before.st_gid) == (after.st_mode, after.st_uid, after.st_gid)
        self.count("mode, owner and group stay", (done.returncode or not same) and "other ones", done, after)

    # ---- commands at once

    def held(self, desk):
        """The references of the messages of a desk; nothing if it cannot be read."""
        done = self.run("findings", desk)
        if done.returncode:
            return None
        return {" ".join(line.split(" ")[:4]) for line in done.stdout.decode().splitlines()}

    def two_at_once(self):
        refused = 0
        texts = [text_of(0, 1), text_of(0, 2)]
        for number, (_, text) in enumerate(texts):
            with open(self.path(f"two{number}"), "w", encoding="ascii") as file:
                file.write(text)
        verbs = ["take"], ["receive"], ["receive", "--refused", "back0"]
        for number in range(ROUNDS):
            self.run("start", "season.ssim", "stations.txt", "race.desk")
            jobs = [subprocess.Popen(self.command(*verbs[(number + job) % 3], "race.desk", "race.desk", f"two{job}"), cwd=self.folder,
                                     stdout=subprocess.PIPE, stderr=subprocess.PIPE) for job in (0, 1)]
            answers = [(job.communicate(timeout=100), job.returncode) for job in jobs]
            held = self.held("race.desk")
            lost = [text[0] for text, (_, status) in zip(texts, answers) if status == 0 and text[0] not in (held or ())]
            other = [err for (_, err), status in answers if status and err not in (b"refused 92 Busy race.desk\n", b"refused 92 Busy back0\n")]
            refused += sum(status != 0 for _, status in answers)
            self.count("two commands at once", held is None and "the desk is invalid" or lost or other, answers)
            if os.path.exists(self.path("back0")):
                os.unlink(self.path("back0"))
        return refused

    def many_at_once(self):
        self.run("start", "season.ssim", "stations.txt", "many.desk")
        counts = multiprocessing.Array("i", 4)
        results = multiprocessing.Queue()
        jobs = [multiprocessing.Process(target=Worker(self, worker, counts).work, args=(results,)) for worker in range(WORKERS)]
        for job in jobs:
            job.start()
        expected = set().union(*(results.get(timeout=200) for _ in jobs))
        for job in jobs:
            job.join()
        done = self.run("take", "many.desk", "many.desk", "two0")
        expected.add(text_of(0, 1)[0])
        self.count("a command after all", done.returncode != 0 and "it is refused", done)
        held = self.held("many.desk")
        self.count("eight workers", held is None and "the desk is invalid", held)
        lost = expected - (held or set())
        self.count("no text is lost", lost and f"{len(lost)} are", sorted(lost))
        more = (held or set()) - expected
        self.count("no text comes back", more and f"{len(more)} do", sorted(more))
        self.count("no other refusal", counts[3] and f"{counts[3]}")
        parts = [name for name in os.listdir(self.folder) if name.endswith(".part")]
        self.count("no part is left", parts and "some are", parts)
        with open(self.path("many.desk"), "rb") as file:
            fcntl.flock(file, fcntl.LOCK_EX | fcntl.LOCK_NB)
        return counts

    def all(self):
        self.occupied()
        self.busy()
        self.changed()
        self.owner()
        refused = self.two_at_once()
        counts = self.many_at_once()
        print(f"two commands at once, {ROUNDS} rounds: {refused} commands refused with 92")
        print(f"{WORKERS} workers with {TEXTS} texts each: {counts[0]} commands done, {counts[1]} refused with 92, {counts[2]} killed")
        self.room.cleanup()


class Worker:
    """One of the workers: it takes its texts in several ways, and withdraws some. A command that is refused or killed is tried again."""

    def __init__(self, holds, worker, counts):
        self.holds, self.worker, self.counts = holds, worker, counts
        self.random = random.Random(worker)

    def name(self, what):
        return f"made{self.worker}.{what}"

    def write(self, name, text):
        with open(self.holds.path(name), "w", encoding="ascii") as file:
            file.write(text)

    def count(self, at):
        with self.counts.get_lock():
            self.counts[at] += 1

    def until_done(self, *words):
        while True:
            job = subprocess.Popen(self.holds.command(*words), cwd=self.holds.folder, stdout=subprocess.PIPE, stderr=subprocess.PIPE)
            killer = threading.Timer(self.random.random() * 0.0015, job.kill)
            if self.random.random() < 0.3:
                killer.start()
            _, err = job.communicate(timeout=100)
            killer.cancel()
            if job.returncode == 0:
                return self.count(0)
            if job.returncode == -9:
                self.count(2)
            elif err.startswith(b"refused 92 Busy "):
                self.count(1)
            else:
                return self.count(3)

    def bring(self, number, text):
        """Brings a text to the desk by `take`, by `receive`, or in a desk that is merged."""
        file, desk = self.name("text"), "many.desk"
        self.write(file, text)
        if number % 3 == 0:
            self.until_done("take", desk, desk, file)
        elif number % 3 == 1:
            self.until_done("receive", desk, desk, file)
        else:
            own = self.name("desk")
            self.until_done("start", "season.ssim", "stations.txt", own)
            self.until_done("take", own, own, file)
            self.until_done("merge", desk, own, desk)

    def work(self, results):
        brought = set()
        for number in range(TEXTS):
            reference, text = text_of(self.worker + 1, number)
            self.bring(number, text)
            brought.add(reference)
            if number % 4 == 3:
                self.until_done("withdraw", "many.desk", "many.desk", reference)
                brought.remove(reference)
        results.put(brought)


def main():
    if len(sys.argv) != 2:
        sys.exit(__doc__)
    holds = Holds(sys.argv[1])
    holds.all()
    print(f"{holds.passed} passed, {holds.failed} failed")
    sys.exit(1 if holds.failed or not holds.passed else 0)


if __name__ == "__main__":
    main()
