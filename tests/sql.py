#!/usr/bin/env python3
"""Loads scripts of `sql` into databases, and compares what these answer with what other commands print: sql.py PROGRAM

The databases are SQLite, as Python has it, and PostgreSQL, if its programs are here: a server of its own, in a temporary folder. Each script
is loaded twice. `leg` has to have the rows of `list --csv`, `flown` those of `list --csv --dates`, `departure` and `arrival` those of
`board`, `message` what `texts` prints, `sub_message` what `findings --csv` and `texts --csv` print, `change` and `changed` what `diff --csv`
of the data set and the desk prints. The desks are those of the samples, of
made data sets, and one whose carried columns and free text are made of what SQL and its shells may take for something else. The last line
is 'N passed, M failed'.
"""
import csv
import datetime
import glob
import io
import os
import random
import shutil
import sqlite3
import subprocess
import sys
import tempfile

TOP = os.path.dirname(os.path.dirname(os.path.abspath(__file__)))
sys.path.insert(0, os.path.join(TOP, "make"))

import messages
import small
from chapter7 import dates_of, with_column

SAMPLES = os.path.join(TOP, "samples")
TABLES = ["timetable", "leg", "segment", "station_row", "message", "sub_message", "change"]
WORDS = [b"'", b"''", b"\\'", b'"', b"--", b"/*", b"$$", b";", b":a", b"\\q", b"%s", b"\xe9\xff\x80", b"\xc3(", b"?1", b"{}"]
FREE = ["//", "SI IT'S", ".QUIT", "\\q", "/", "go", ";", "COMMIT;", "--", "\\! false", "'", ":x"]
LEG_COLUMNS = ("flight, first_date, last_date, days, leg, departure_station, arrival_station, departure_passenger, arrival_passenger, service, "
               "aircraft, bookings, configuration, departure_terminal, arrival_terminal")
BOARDS = 12


class Sqlite:
    """A database of SQLite in memory."""
    name = "SQLite"

    def __init__(self):
        self.base = sqlite3.connect(":memory:", isolation_level=None)

    def load(self, script):
        self.base.executescript(script.decode("utf-8"))

    def load_cut(self, script):
        """Loads a script that ends too early, as a shell does at the end of its input."""
        try:
            self.base.executescript(script.decode("utf-8"))
        except sqlite3.Error:
            pass
        if self.base.in_transaction:
            self.base.execute("ROLLBACK")

    def ask(self, query):
        return [["" if it is None else str(it) for it in row] for row in self.base.execute(query)]


class Postgres:
    """A database of a PostgreSQL server of its own."""
    name = "PostgreSQL"

    def __init__(self, folder):
        self.folder = folder
        found = sorted(glob.glob("/usr/lib/postgresql/*/bin/initdb")) + [it for it in [shutil.which("initdb")] if it]
        if not found or not shutil.which("psql"):
            raise FileNotFoundError("no PostgreSQL is here")
        self.programs = os.path.dirname(found[-1])
        self.user = {"user": "postgres", "group": "postgres", "extra_groups": []} if os.getuid() == 0 else {}
        if self.user:
            shutil.chown(folder, "postgres", "postgres")
        self.run("initdb", "-A", "trust", "-U", "postgres", "-E", "UTF8", "--locale=C", "-D", f"{folder}/data")
        self.run("pg_ctl", "-D", f"{folder}/data", "-o", f"-c listen_addresses='' -k {folder}", "-w", "-l", f"{folder}/log", "start")

    def run(self, program, *words):
        subprocess.run([os.path.join(self.programs, program), *words], stdout=subprocess.DEVNULL, check=True, **self.user)

    def psql(self, *words, given=None, check=True):
        words = ["psql", "-Xq", "-h", self.folder, "-U", "postgres", "-v", "ON_ERROR_STOP=1", *words, "postgres"]
        return subprocess.run(words, input=given, stdout=subprocess.PIPE, stderr=subprocess.PIPE, check=check).stdout

    def load(self, script):
        self.psql(given=script)

    def load_cut(self, script):
        self.psql(given=script, check=False)

    def ask(self, query):
        answer = self.psql("--csv", "-t", "-c", query).decode("utf-8").replace("\r\n", "\n")
        return list(csv.reader(io.StringIO(answer, newline="")))

    def close(self):
        self.run("pg_ctl", "-D", f"{self.folder}/data", "-m", "immediate", "-w", "stop")


class Checks:
    """The program in a folder, the databases, and what passed."""

    def __init__(self, program, folder, bases):
        self.program, self.folder, self.bases = program, folder, bases
        self.passed = self.failed = 0

    def run(self, *words):
        done = subprocess.run([self.program, *words], cwd=self.folder, stdout=subprocess.PIPE, stderr=subprocess.PIPE, check=False)
        if done.returncode != 0:
            raise ValueError(f"{words}: {done.stderr.decode('latin-1')}")
        return done.stdout

    def text(self, *words):
        return self.run(*words).decode("latin-1")

    def cells(self, *words):
        return list(csv.DictReader(io.StringIO(self.text(*words), newline="")))

    def expect(self, what, query, wanted, ordered=False):
        """Each database answers with these rows."""
        for base in self.bases:
            found = base.ask(query)
            if (found if ordered else sorted(found)) == (wanted if ordered else sorted(wanted)):
                self.passed += 1
                continue
            self.failed += 1
            pairs = zip(sorted(found), sorted(wanted))
            print(f"{what}, {base.name}: {len(found)} and {len(wanted)} rows, {next((p for p in pairs if p[0] != p[1]), '')}")

    def load(self, script):
        for base in self.bases:
            base.load(script)

    def compare(self, rng, path, base=None):
        """Loads the script of a file twice, and compares all that it makes. A desk has the data set of the file `base`."""
        script = self.run("sql", path)
        for _ in range(2):
            self.load(script)
        name = next(line for line in script.split(b"\n") if line.startswith(b"DELETE FROM leg ")).split(b" = ")[1][:-1].decode("utf-8")
        self.expect(f"{path}: one row", f"SELECT COUNT(*) FROM timetable WHERE timetable = {name}", [["1"]])
        self.legs(path, name)
        self.boards(rng, path, name)
        if base is None:
            self.expect(f"{path}: no change", f"SELECT COUNT(*) FROM change WHERE timetable = {name}", [["0"]])
        else:
            self.held(path, name)
            self.changes(path, base, name)
        return name

    def legs(self, path, name):
        wanted = [leg_cells(it) for it in self.cells("list", "--csv", path)]
        self.expect(f"{path}: leg", f"SELECT {LEG_COLUMNS} FROM leg WHERE timetable = {name}", wanted)
        wanted = [[it["flight"], it["first"], str(int(it["leg"])), it["from"], it["to"], it["aircraft"]]
                  for it in self.cells("list", "--csv", "--dates", path)]
        self.expect(f"{path}: flown", "SELECT flight, date, leg, departure_station, arrival_station, aircraft FROM flown "
                    f"WHERE timetable = {name}", wanted)

    def changes(self, path, base, name):
        """The legs and the dates on which a desk differs from its data set."""
        rows = [(side, it) for it in self.cells("diff", "--csv", base, path)
                for side in (["old", "new"] if it["side"] == "both" else [it["side"]])]
        wanted = [[side, *leg_cells(it)] for side, it in rows]
        self.expect(f"{path}: change", f"SELECT side, {LEG_COLUMNS} FROM change WHERE timetable = {name}", wanted)
        wanted = [[it["flight"], day.isoformat(), side, str(int(it["leg"])), it["from"], it["to"], it["service"], it["aircraft"]]
                  for side, it in rows for day in dates_of(*map(datetime.date.fromisoformat, (it["first"], it["last"])), it["days"])]
        self.expect(f"{path}: changed", "SELECT flight, date, side, leg, departure_station, arrival_station, service, aircraft FROM changed "
                    f"WHERE timetable = {name}", wanted)
        last = self.text("diff", base, path).splitlines()[-1].split(" ")
        self.expect(f"{path}: flights and dates that differ", "SELECT COUNT(DISTINCT flight), COUNT(*) FROM "
                    f"(SELECT DISTINCT flight, date FROM changed WHERE timetable = {name}) c", [last[2::2] or ["0", "0"]])

    def boards(self, rng, path, name):
        ends = self.cells("list", "--csv", path)
        if not ends:
            return
        stations = sorted({it[end] for it in ends for end in ("from", "to")})
        for _ in range(BOARDS):
            station, near = rng.choice(stations), rng.choice(ends)
            day = rng.choice([near["first"], near["last"]])
            wanted = [[it["time"], it["movement"], it["flight"], it["origin_date"], it["other_station"], it["other_time"],
                       "1" if it["warning"] else "0"]
                      for it in self.cells("board", "--csv", path, station, date_of(day))]
            where = f"WHERE timetable = {name} AND station = '{station}' AND day = '{day}'"
            self.expect(f"{path}: board {station} {day}", "SELECT time, 'dep', flight, date, to_station, to_time, doubtful FROM departure "
                        f"{where} UNION ALL SELECT time, 'arr', flight, date, from_station, from_time, doubtful FROM arrival {where}", wanted)

    def held(self, path, name):
        own = f"WHERE m.timetable = {name}"
        count = self.text("info", path).split("\nmessages ")[1].split("\n")[0]
        texts = self.text("texts", path)
        wanted = [[text] for text in texts.removesuffix("\n").split("\n\n")] if texts else []
        wanted = [[text[0] + "\n"] for text in wanted]
        self.expect(f"{path}: message", f"SELECT m.text FROM message m {own} ORDER BY m.place", wanted, True)
        self.expect(f"{path}: messages", f"SELECT m.messages FROM timetable m {own}", [[count]])
        both = zip(self.cells("findings", "--csv", path), self.cells("texts", "--csv", path))
        wanted = [[one["reference"], one["sub"], one["action"], one["flight"], other["first"], other["last"], other["days"],
                   *(one[it] for it in ("acted", "absent", "present", "no_leg", "no_station"))] for one, other in both]
        self.expect(f"{path}: sub_message", "SELECT s.reference, s.sub, s.action, s.flight, s.first_date, s.last_date, s.days, s.acted, s.absent, "
                    "s.present, s.no_leg, s.no_station FROM sub_message s JOIN message m ON m.timetable = s.timetable "
                    f"AND m.reference = s.reference {own} ORDER BY m.place, s.sub", wanted, True)

    def rows(self):
        """How many rows each table has in the first database."""
        return [self.bases[0].ask(f"SELECT COUNT(*) FROM {it}") for it in TABLES]

    def cut(self, rng, path):
        """A script that is cut changes nothing."""
        script, before = self.run("sql", path), self.rows()
        for place in [rng.randrange(len(script)) for _ in range(5)]:
            for base in self.bases:
                base.load_cut(script[: max(place, script.index(b"DELETE "))].decode("utf-8", "ignore").encode("utf-8"))
        for number, table in enumerate(TABLES):
            self.expect(f"{table} after scripts that are cut", f"SELECT COUNT(*) FROM {table}", before[number])


def leg_cells(it):
    """The cells of a leg that are in LEG_COLUMNS, too."""
    return [it["flight"], it["first"], it["last"], it["days"], str(int(it["leg"])), it["from"], it["to"], it["passenger_departure"],
            it["passenger_arrival"], it["service"], it["aircraft"], it["bookings"], it["configuration"], it["departure_terminal"],
            it["arrival_terminal"]]


def date_of(iso):
    return f"{iso[8:]}{'JAN FEB MAR APR MAY JUN JUL AUG SEP OCT NOV DEC'.split()[int(iso[5:7]) - 1]}{iso[2:4]}"


def hostile_records(records):
    """Records with such bytes in carried columns, and the booking designators that the legs have then."""
    found, held = [], set()
    for line in records:
        if line[:1] == b"3":
            word = WORDS[len(found) % len(WORDS)]
            held.add(word.decode("latin-1"))
            line = with_column(with_column(line, 76, word.ljust(20)), 101, word.ljust(10))
        if line[:1] == b"4":
            line = with_column(line, 40, b" '; DROP TABLE leg; -- \xfc '".ljust(155))
        found.append(line)
    return found, held


class Desks:
    """Desks and data sets, which are made in a folder."""

    def __init__(self, checks):
        self.checks = checks

    def write(self, name, data):
        with open(os.path.join(self.checks.folder, name), "wb") as file:
            file.write(data)

    def samples(self):
        for name in ("season.ssim", "stations.txt", "mail.txt"):
            shutil.copyfile(os.path.join(SAMPLES, name), os.path.join(self.checks.folder, name))
        self.checks.run("start", "season.ssim", "stations.txt", "fdh.desk")
        texts = sorted(glob.glob(os.path.join(SAMPLES, "texts", "*")))
        self.checks.run("receive", "fdh.desk", "fdh.desk", *texts, "mail.txt")
        return "season.ssim", "fdh.desk"

    def hostile(self):
        with open(os.path.join(SAMPLES, "season.ssim"), "rb") as file:
            records, held = hostile_records(file.read().split(b"\n"))
        self.write("hostile.ssim", b"\n".join(records))
        lines = [".HAMOPZ7", "SSM", "LT", "01MAR00001E001/'; --", "CNL", "Z7101", "29MAR27 29MAR27 1", *FREE]
        self.write("hostile.ssm", messages.written(lines))
        self.checks.run("start", "hostile.ssim", "stations.txt", "hostile.desk")
        self.checks.run("take", "hostile.desk", "hostile.desk", "hostile.ssm")
        return "hostile.desk", "hostile.ssim", held

    def made(self, rng, number):
        """A desk of a made data set with a few messages, and the data set."""
        records = small.data_set(rng)
        season, name = messages.Season(records), f"made{number}.desk"
        self.write("made.ssim", small.file_bytes(rng, records))
        self.write("made.txt", messages.written(messages.station_rows(rng, season)))
        self.checks.run("start", "made.ssim", "made.txt", name)
        for _ in range(4):
            self.write("made.ssm", messages.written(messages.message(rng, season)))
            subprocess.run([self.checks.program, "take", name, name, "made.ssm"], cwd=self.checks.folder, capture_output=True, check=False)
        return name, "made.ssim"


def main():
    if len(sys.argv) != 2:
        sys.exit(__doc__)
    rng = random.Random(1)
    with tempfile.TemporaryDirectory() as folder, tempfile.TemporaryDirectory() as server:
        os.chmod(folder, 0o755)
        bases = [Sqlite()]
        try:
            bases.append(Postgres(server))
        except FileNotFoundError as missing:
            print(f"{missing}: SQLite alone")
        checks = Checks(os.path.abspath(sys.argv[1]), folder, bases)
        desks = Desks(checks)
        base, path = desks.samples()
        for it in (base, path, base, path):
            checks.compare(rng, it, None if it == base else base)
        checks.cut(rng, path)
        path, base, held = desks.hostile()
        name = checks.compare(rng, path, base)
        checks.expect("carried bytes", f"SELECT DISTINCT bookings FROM leg WHERE timetable = {name}", [[it] for it in sorted(held)])
        for number in range(12):
            checks.compare(rng, *desks.made(rng, number))
        for base in bases[1:]:
            base.close()
    print(f"{checks.passed} passed, {checks.failed} failed")
    sys.exit(checks.failed != 0)


if __name__ == "__main__":
    main()
