#!/usr/bin/env python3
"""Refuses each growth of memory in turn to each of the commands: growths.py PROGRAM

For k = 1, 2, .. growth number k of a run is refused, and for each third k every growth from the k-th on, until a run meets no refusal:
these runs differ only in what is done after a refusal. Each run ends with status 0 and exactly the bytes and the file of a run without
refusals; or with status 1 and `refused 90 Memory`, and no file is kept or changed. Before a 90 `take` may have printed the lines of its
first texts, `receive`, `withdraw` and `publish` all their lines, and no other command anything. `rehearse` may print 90 in the line of a
step: then the other lines are those of the script without the step. It may print 90 in the line of a desk, and does so in some run: then
the other desks have the lines that they have without it, and the last line is `same` only if all desks have this line. `receive` may print
90 in the line of a text: then the other lines are as they are without it, the text is among the refused ones, and the desk is that of the
other texts. The last line is 'N passed, M failed'; the lines before it say how many runs each command took.
"""
import concurrent.futures
import os
import sys
import tempfile
import time

from small_runs import COMMANDS, MAIL, NEVER, SCRIPT, Runs, built_library, mailbox

MEMORY = b"refused 90 Memory\n"
AT_ONCE = 2


def lines_of(data):
    return data.splitlines(keepends=True)


class TextLines:
    """What `receive` prints of each text as a line, and then how many were taken, repeated and refused."""

    @staticmethod
    def of(out):
        """The lines of texts and files."""
        return lines_of(out)[:-1]

    @staticmethod
    def result(line):
        return line.split()[1]

    @staticmethod
    def without_memory(line):
        """The line of a text that is refused with 90."""
        return line.split()[0] + b" " + MEMORY

    @staticmethod
    def whole(lines, results):
        """All that is printed with these lines."""
        counts = tuple(results.count(word) for word in (b"taken", b"repeated", b"refused"))
        return b"".join([*lines, b"taken %d repeated %d refused %d\n" % counts])


class TextRows:
    """What `receive --csv` prints: the names of the fields, and of each text a row."""

    NAMES = b"file,line,result,reference,number,name,place\n"

    @staticmethod
    def of(out):
        """The rows of texts and files."""
        return lines_of(out)[1:]

    @staticmethod
    def result(row):
        return row.split(b",")[2]

    @staticmethod
    def without_memory(row):
        """The row of a text that is refused with 90."""
        return b",".join([*row.split(b",")[:2], b"refused,,90,Memory,\n"])

    @classmethod
    def whole(cls, rows, _):
        """All that is printed with these rows."""
        return b"".join([cls.NAMES, *rows])


# How each of the commands that receive prints what became of a text.
RECEIVED = {"receive": TextLines, "receive --csv": TextRows}


class Sweep:
    """The runs of a command in a folder."""

    def __init__(self, runs, command):
        self.runs = runs
        self.name, self.words, self.kept = command
        self.whole = runs.run(self.words)
        runs.put_back(self.whole.files)
        assert self.whole.status == 0, self.whole
        self.rehearsals, self.desks = {}, {}

    def wrong(self, answer):
        """What is wrong with an answer, or nothing."""
        if answer.refused == 0 or answer.status == 0:
            return self.wrong_if_done(answer)
        if answer.status != 1:
            return f"status {answer.status}"
        if answer.err != MEMORY:
            return "another line"
        kept_first = {**self.runs.start, "back": answer.files.get("back")} if self.name in RECEIVED else self.runs.start
        if self.name == "split" and answer.out:
            # The file of a section is kept before its line is printed.
            kept_first = self.whole.files
        if answer.files not in (self.runs.start, kept_first):
            return "a file changed"
        return None if self.may_be_printed(answer.out) else "something was printed"

    def may_be_printed(self, out):
        """Whether the command may print this before it is refused."""
        if self.name.split()[0] in ("withdraw", "publish"):
            return out in (b"", self.whole.out)
        return out == b"" or self.name.split()[0] in ("take", "split") and self.is_front(out) or self.name in RECEIVED

    def wrong_if_done(self, answer):
        if answer.status != 0:
            return f"status {answer.status}"
        if answer.err:
            return "a line of a refusal"
        if self.name in RECEIVED:
            return self.wrong_if_received(answer, RECEIVED[self.name])
        if answer.files != self.whole.files:
            return "other files"
        if answer.out != self.whole.out and not (self.name == "rehearse" and self.is_rehearsal(answer.out)):
            return "other bytes"
        return None

    def is_front(self, out):
        """Whether these are the first lines that the command prints."""
        return self.whole.out.startswith(out) and out.endswith(b"\n")

    def is_rehearsal(self, out):
        """Whether these are the lines of a rehearsal in which no other steps and exports were refused than those whose lines say 90."""
        refused = tuple(place for place, line in enumerate(lines_of(out)) if line.endswith(b" " + MEMORY))
        if refused not in self.rehearsals:
            self.rehearsals[refused] = self.rehearsal_without(refused)
        return out == self.rehearsals[refused]

    def rehearsal_without(self, places):
        """What is printed of the script without the steps of these lines, and the line of a 90 in the place of each step and desk."""
        first, *steps = SCRIPT.splitlines(keepends=True)
        left = [step for place, step in enumerate(steps) if place not in places]
        self.runs.write({"script": "".join([first, *left]).encode()})
        lines = lines_of(self.runs.run(self.words).out)
        self.runs.put_back(self.runs.files())
        for place in places:
            if place < len(steps):
                lines.insert(place, steps[place].split()[1].encode() + b" " + MEMORY)
        desks = [place for place in places if place >= len(steps)]
        for place in desks:
            lines[place : place + 1] = [b"desk %d " % (place - len(steps) + 1) + MEMORY]
        if desks:
            lines[-1] = b"same\n" if len(desks) == int(first.split()[1]) else b"different\n"
        return b"".join(lines)

    def wrong_if_received(self, answer, form):
        """What is wrong with the lines and the files of mail of which the texts whose lines say 90 were refused, or nothing."""
        whole = form.of(self.whole.out)
        refused = tuple(place for place, (line, old) in enumerate(zip(form.of(answer.out), whole)) if line == form.without_memory(old))
        ends = [form.result(line) if place < len(MAIL) and place not in refused else b"refused" for place, line in enumerate(whole)]
        lines = [form.without_memory(line) if place in refused else line for place, line in enumerate(whole)]
        if answer.out != form.whole(lines, ends):
            return "other bytes"
        if refused not in self.desks:
            self.desks[refused] = self.desk_of([text for text, end in zip(MAIL, ends) if end != b"refused"])
        back = mailbox([text for text, end in zip(MAIL, ends) if end == b"refused"])
        if answer.files != {**self.runs.start, "back": back, "new": self.desks[refused]}:
            return "other files"
        return None

    def desk_of(self, texts):
        """The desk file of the desk that received these texts."""
        found = self.runs.files()
        self.runs.put_back(found)
        self.runs.write({"mail": mailbox(texts)})
        files = self.runs.run(["receive", "desk", "new", "mail"]).files
        self.runs.put_back(files)
        return files["new"]

    def has_refused_text(self):
        """Whether a run printed 90 in the line of a text."""
        return any(self.desks)

    def has_refused_export(self):
        """Whether a run printed 90 in the line of a desk."""
        steps = len(SCRIPT.splitlines()) - 1
        return any(place >= steps for places in self.rehearsals for place in places)

    def refuse(self, onward):
        """Refuses growth 1, 2, .., or each third one and those after it: the number of runs, and what was wrong."""
        faults = []
        for runs, number in enumerate(range(1, NEVER, 3 if onward else 1), 1):
            answer = self.runs.run(self.words, "growths", number, NEVER if onward else number)
            wrong = self.wrong(answer)
            if wrong:
                faults.append(f"growths: {self.name}: growth {number}{' and on' if onward else ''}: {wrong}: status {answer.status}, "
                              f"{answer.out[:200]!r}, {answer.err[:200]!r}")
            self.runs.put_back(answer.files)
            if answer.refused == 0:
                if self.name == "rehearse" and not onward and not self.has_refused_export():
                    faults.append("growths: rehearse: no line of a desk has 90")
                if self.name in RECEIVED and not onward and not self.has_refused_text():
                    faults.append(f"growths: {self.name}: no line of a text has 90")
                return runs, faults


def sweep(program, library, command, onward):
    with Runs(program, library) as runs:
        return Sweep(runs, command).refuse(onward)


def main():
    if len(sys.argv) != 2:
        sys.exit(__doc__)
    begun = time.monotonic()
    program = os.path.abspath(sys.argv[1])
    passed = failed = 0
    with tempfile.TemporaryDirectory() as room, concurrent.futures.ThreadPoolExecutor(AT_ONCE) as pool:
        library = built_library(room)
        asked = []
        for onward in False, True:
            asked += [(command[0], onward, pool.submit(sweep, program, library, command, onward)) for command in COMMANDS]
        for name, onward, answer in asked:
            runs, faults = answer.result()
            print(f"{name}: {runs} runs{', each growth from one on, for each third' if onward else ''}")
            print("".join(line + "\n" for line in faults[:20]), end="")
            passed += runs - len(faults)
            failed += len(faults)
    print(f"growths: {time.monotonic() - begun:.0f} s")
    print(f"{passed} passed, {failed} failed")
    sys.exit(1 if failed or not passed else 0)


if __name__ == "__main__":
    main()
