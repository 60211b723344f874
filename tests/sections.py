#!/usr/bin/env python3
"""Splits data sets of several carriers and compares what is printed and kept with what is expected: sections.py PROGRAM

First a file of three carriers, made from the samples; then each refusal of a section, of the whole file and of a name, in their order, and
each note. The last line is 'N passed, M failed'.
"""
import os
import shutil
import subprocess
import sys
import tempfile

TOP = os.path.dirname(os.path.dirname(os.path.abspath(__file__)))
sys.path.insert(0, os.path.join(TOP, "make"))

from chapter7 import DAY, FILL, carrier, date, header, leg, trailer, with_column, with_serial

import datetime

SAMPLES = os.path.join(TOP, "samples")
FIRST = datetime.date(2027, 3, 28)


def numbered(records):
    """The records with serials from 1 on, and the check reference of each trailer."""
    found = []
    for serial, line in enumerate(records, 1):
        line = with_column(line, 188, f"{serial - 1:06}") if line[:1] == b"5" else line
        found.append(with_serial(line, serial))
    return found


def in_fives(groups):
    """Groups of records, each filled up to a multiple of five, as an export has them."""
    records = iter(numbered([line for group in groups for line in group]))
    return [line for group in groups for line in [next(records) for _ in group] + [FILL] * (-len(group) % 5)]


def sample(name):
    with open(os.path.join(SAMPLES, name), "rb") as file:
        return [line for line in file.read().split(b"\n") if line and line != FILL]


def with_code(section, code):
    return section[:-1] + [with_column(section[-1], 194, code)]


def groups_of(records):
    """The carrier record, the periods and the trailer."""
    return [records[:1], records[1:-1], records[-1:]]


def one_leg(airline, columns=(), first=FIRST):
    """The leg record of a flight on a date."""
    return leg((" ", airline, "0544"), "01", "01", date(first), date(first), "1234567",
               [(37, "ZRH"), (40, "05450545"), (48, "+0200"), (55, "LHR"), (58, "07000700"), (66, "+0100"), (73, "320"), *columns])


def section(airline, code="C", columns=()):
    """The records of a carrier with one leg record."""
    return [carrier(airline, "28MAR27", "30OCT27", "01FEB27"), one_leg(airline, columns), trailer(airline, "01FEB27", 0, code)]


def world():
    """The season, a carrier with a frequency rate of 2, and the planned season, with fill as an export has it."""
    lx = section("LX ", columns=[(36, "2")])
    return in_fives([sample("season.ssim")[:1], *groups_of(with_code(sample("season.ssim")[1:], "C")), *groups_of(lx),
                     *groups_of(with_code(sample("planned.ssim")[1:], "E"))])


def written(lines):
    return "".join(line + "\n" for line in lines)


class Sections:
    """Counts what was as it had to be."""

    def __init__(self, program):
        self.program = os.path.abspath(program)
        self.room = tempfile.TemporaryDirectory()
        self.folder = os.path.join(self.room.name, "files")
        self.passed = self.failed = 0

    def run(self, *words, given=b"", **options):
        options = {"stdout": subprocess.PIPE, **options}
        return subprocess.run([self.program, *words], cwd=self.folder, input=given, stderr=subprocess.PIPE, timeout=100, check=False, **options)

    def files(self):
        found = {}
        for folder, _, names in os.walk(self.folder):
            for name in names:
                with open(os.path.join(folder, name), "rb") as file:
                    found[os.path.relpath(os.path.join(folder, name), self.folder)] = file.read()
        return found

    def tidied(self, records):
        return self.run("tidy", "-", given=b"".join(numbered(records))).stdout

    def expect(self, name, records, lines, *, refused=None, kept=None, before=None, prefix="new-", data=None, **options):
        """Splits the records: the lines that are printed, the line of a refusal, and the data set in each file that is kept."""
        shutil.rmtree(self.folder, ignore_errors=True)
        os.makedirs(os.path.join(self.folder, "there"))
        for file, text in (before or {}).items():
            with open(os.path.join(self.folder, file), "wb") as out:
                out.write(text)
        with open(os.path.join(self.folder, "FILE"), "wb") as out:
            out.write(b"".join(records) if data is None else data)
        start = self.files()
        done = self.run("split", "FILE", prefix, **options)
        out = None if done.stdout is None else done.stdout.decode("ascii")
        wanted = {**start, **{file: self.tidied(set_of) for file, set_of in (kept or {}).items()}}
        err = f"refused {refused}\n" if refused else ""
        wrong = []
        if (done.returncode, done.stderr.decode("ascii")) != (1 if refused else 0, err):
            wrong.append(f"status {done.returncode}, {done.stderr!r}")
        if out is not None and out != written(lines):
            wrong.append(f"printed {out!r}")
        if self.files() != wanted:
            wrong.append(f"files {sorted(self.files())}")
        self.passed, self.failed = self.passed + (not wrong), self.failed + bool(wrong)
        if wrong:
            print(f"sections: {name}:", *wrong, sep="\n  ", flush=True)

    # ---- several carriers

    def example(self):
        sets = {"new-Z7.ssim": sample("season.ssim"), "new-Z7-2.ssim": sample("season.ssim")[:1] + sample("planned.ssim")[1:]}
        lines = ["Z7 kept new-Z7.ssim records 74 flights 41 notes 0", "LX refused 37 Frequency record 96",
                 "Z7 kept new-Z7-2.ssim records 76 flights 42 notes 0", "carriers 3 kept 2 refused 1"]
        self.expect("three carriers", world(), lines, kept=sets)
        stale = {"new-LX.ssim": sample("season.ssim")[0], "new-Z7.ssim": b""}
        self.expect("a file of another day stays", world(), lines, kept=sets, before=stale)
        self.expect("a folder", world(), [line.replace("new-", "there/") for line in lines], prefix="there/",
                    kept={name.replace("new-", "there/"): records for name, records in sets.items()})
        self.expect("line ends", [line + b"\r\n" for line in world()], lines, kept=sets)

    def lone(self):
        head = header()
        self.expect("one carrier", numbered([head, *section("LX ", "E")]),
                    ["LX kept new-LX.ssim records 3 flights 1 notes 0", "carriers 1 kept 1 refused 0"],
                    kept={"new-LX.ssim": [head, *section("LX ", "E")]})
        self.expect("no flight", numbered([head, *section("LX ", "E")[::2]]),
                    ["LX kept new-LX.ssim records 2 flights 0 notes 0", "carriers 1 kept 1 refused 0"],
                    kept={"new-LX.ssim": [head, *section("LX ", "E")[::2]]})
        self.expect("a name is printed on one line", numbered([head, *section("LX ", "E")]),
                    ["LX kept a\\x0abLX.ssim records 3 flights 1 notes 0", "carriers 1 kept 1 refused 0"],
                    kept={"a\nbLX.ssim": [head, *section("LX ", "E")]}, prefix="a\nb")

    # ---- a section that is refused

    def refused_sections(self):
        head, good = header(), section("U2 ", "E")
        kept = {"new-U2.ssim": [head, *good]}
        last = "U2 kept new-U2.ssim records 3 flights 1 notes {}"
        bad = section("LX ")
        days = [one_leg("LX ", [(40, f"{place // 60:02}{place % 60:02}")], FIRST + place * DAY) for place in range(100)]
        cases = [
            ("a type in the section", [bad[0], b"9" + bad[1][1:], bad[2]], "LX refused 11 BadType record 3"),
            ("a header in the section", [bad[0], head, *bad[1:]], "LX refused 11 BadType record 3"),
            ("a record after the trailer", [*bad, one_leg("LX ")], "LX refused 11 BadType record 5"),
            ("a column", [bad[0], with_column(bad[1], 37, "Z1H"), bad[2]], "LX refused 12 BadColumn record 3 column 37"),
            ("an open end", [bad[0], with_column(bad[1], 15, "31OCT27" + "00XXX00"), bad[2]], "LX refused 12 BadColumn record 3 column 22"),
            ("the carrier record", [with_column(bad[0], 2, "X"), *bad[1:]], "? refused 12 BadColumn record 2 column 2"),
            ("no trailer", bad[:2], "LX refused 32 NoTrailer record 4"),
            ("another airline", [bad[0], one_leg("SR "), bad[2]], "LX refused 33 OtherAirline record 3"),
            ("twice on a date", [bad[0], bad[1], *bad[1:]], "LX refused 34 Overlap record 4"),
            ("an itinerary variation", [bad[0], with_column(bad[1], 128, "1"), bad[2]], "LX refused 36 Overflow record 3"),
            ("a frequency rate", [bad[0], with_column(bad[1], 36, "2"), bad[2]], "LX refused 37 Frequency record 3"),
            ("99 variations", [bad[0], *days, bad[2]], "LX refused 50 Variations flight LX544"),
        ]
        for name, records, line in cases:
            self.expect(name, numbered([head, *records, *good]), [line, last.format(0), "carriers 2 kept 1 refused 1"], kept=kept)
        whole = numbered([head, *with_code(good, "C"), *with_code(bad, "E")])
        cut = b"".join(whole)[:-1]
        self.expect("the last one is cut", [], [last.format(0), "LX refused 10 Short record 7", "carriers 2 kept 1 refused 1"], kept=kept, data=cut)
        self.expect("the last one has no trailer", whole[:-1],
                    [last.format(0), "LX refused 32 NoTrailer record 7", "carriers 2 kept 1 refused 1"], kept=kept)
        self.expect("both are refused", numbered([head, *bad[:2], *bad[:2]]),
                    ["LX refused 32 NoTrailer record 4", "LX refused 32 NoTrailer record 6", "carriers 2 kept 0 refused 2"])
        self.expect("a refused one counts", numbered([head, *bad[:2], *with_code(bad, "E")]),
                    ["LX refused 32 NoTrailer record 4", "LX kept new-LX-2.ssim records 3 flights 1 notes 0", "carriers 2 kept 1 refused 1"],
                    kept={"new-LX-2.ssim": [head, *with_code(bad, "E")]})

    # ---- notes

    def notes(self):
        head, one, two = header(), section("LX "), section("U2 ", "E")
        kept = {"new-LX.ssim": [head, *with_code(one, "E")], "new-U2.ssim": [head, *two]}
        good = numbered([head, *one, *two])
        rows = ["LX kept new-LX.ssim records 3 flights 1 notes {}", "U2 kept new-U2.ssim records 3 flights 1 notes {}"]
        count = "carriers 2 kept 2 refused 0"

        def lines(*notes):
            found = []
            for row, own in zip(rows, notes):
                found += [f"note {note}" for note in own] + [row.format(len(own))]
            return [*found, count]

        again = good[:4] + [with_serial(line, serial) for serial, line in enumerate(good[4:], 2)]
        again[-1] = with_column(again[-1], 188, "000003")
        self.expect("each carrier begins with serial 2", again, lines([], ["Serial record 5"]), kept=kept)
        self.expect("the header's serial", [with_serial(good[0], 0), *good[1:]], lines(["Serial record 1", "Serial record 2"], []), kept=kept)
        self.expect("a check reference", [*good[:-1], with_column(good[-1], 188, "000000")], lines([], ["CheckReference record 7"]), kept=kept)
        self.expect("E and a carrier follows", [*good[:3], with_column(good[3], 194, "E"), *good[4:]], lines(["Continuation record 4"], []), kept=kept)
        self.expect("C and none follows", [*good[:-1], with_column(good[-1], 194, "C")], lines([], ["Continuation record 7"]), kept=kept)

    # ---- the whole file

    def refused_files(self):
        head, one = header(), section("LX ", "E")
        whole = numbered([head, *one])
        self.expect("no record", [], [], refused="30 NoHeader record 1")
        self.expect("no header", whole[1:], [], refused="30 NoHeader record 1")
        self.expect("the type of the header", [b"9" + head[1:]] + whole[1:], [], refused="11 BadType record 1")
        self.expect("a column of the header", [with_column(whole[0], 2, "X")] + whole[1:], [], refused="12 BadColumn record 1 column 2")
        self.expect("a cut header", [], [], refused="10 Short record 1", data=whole[0][:100])
        self.expect("a header alone", whole[:1], [], refused="31 NoCarrier record 2")
        self.expect("a cut carrier record", [], [], refused="10 Short record 2", data=b"".join(whole)[:300])
        self.expect("no carrier record", whole[:1] + whole[2:], [], refused="31 NoCarrier record 2")
        self.expect("a type after the header", [whole[0], b"9" + whole[1][1:], *whole[2:]], [], refused="11 BadType record 2")
        self.expect("a desk file", [], [], refused="12 BadColumn record 1 column 2", data=b"1" + b"SSIMDESK " * 30)
        shutil.rmtree(self.folder, ignore_errors=True)
        os.makedirs(self.folder)
        for name, words, status, err in [("no file", ("missing", "new-"), 1, b"refused 91 File missing\n"),
                                         ("a folder", (".", "new-"), 1, b"refused 91 File .\n")]:
            done = self.run("split", *words)
            wrong = (done.returncode, done.stdout, done.stderr) != (status, b"", err) or bool(self.files())
            self.passed, self.failed = self.passed + (not wrong), self.failed + wrong
            if wrong:
                print(f"sections: {name}: {done}")

    # ---- names

    def names(self):
        head = header()
        one, two, three = section("LX "), section("U2 "), section("9W ", "E")
        whole = numbered([head, *one, *two, *three])
        first = ["LX kept new-LX.ssim records 3 flights 1 notes 0"]
        kept = {"new-LX.ssim": [head, *with_code(one, "E")]}
        for text in b"a note", b"SSIMDESK 1", b"1AIRLINE STANDARD SCHEDULE DATA SE":
            self.expect("a file of another kind", whole, first, refused="93 Occupied new-U2.ssim", kept=kept, before={"new-U2.ssim": text})
        self.expect("no such folder", whole, [], refused="91 File none/LX.ssim", prefix="none/")
        self.expect("a file for a folder", whole, [], refused="91 File FILE/LX.ssim", prefix="FILE/")
        with open("/dev/full", "wb") as full:
            self.expect("standard output takes nothing", whole, None, refused="52 WriteFault", kept=kept, stdout=full)
        refused = numbered([head, one[0], *two])
        self.expect("the line of a refused one comes first", refused, ["LX refused 32 NoTrailer record 3"], refused="93 Occupied new-U2.ssim",
                    before={"new-U2.ssim": b"a note", "new-LX.ssim": b"a note"})


def main(program):
    sections = Sections(program)
    sections.example()
    sections.lone()
    sections.refused_sections()
    sections.notes()
    sections.refused_files()
    sections.names()
    print(f"{sections.passed} passed, {sections.failed} failed")
    return 1 if sections.failed else 0


if __name__ == "__main__":
    sys.exit(main(*sys.argv[1:]))
