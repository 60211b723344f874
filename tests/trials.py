#!/usr/bin/env python3
"""Runs texts and merges on three desks at random, beside a plain model: trials.py PROGRAM [RUNS] [SEED]

PROGRAM is that of crates/ssim_cases; it gets RUNS (300) runs as cases. The model keeps the messages of each desk in a dictionary, and
the legs of each flight date by date. Compared are the result of every text and merge, the number of messages applied again, the
references held, each line of findings, the legs of every date in the export, those that `show` prints of a few dates, whether the
export is read back and exported as the same bytes, and whether exports are equal wherever the desks hold the same messages.
The last line is 'N passed, M failed', of the runs.
"""
import collections
import dataclasses
import datetime
import os
import random
import subprocess
import sys
import time

HERE = os.path.dirname(os.path.abspath(__file__))
sys.path.insert(0, os.path.join(os.path.dirname(HERE), "make"))

from cases import bytes_shown, shown
from chapter7 import DAY, data_set, date, dates_of, day_of, plain_season
from messages import Stations, spelt, written

DESKS = (1, 2, 3)
STEPS = 40
REFERENCES = 96

# The flight of the data set, and one that it does not have.
FLIGHTS = ["LX544", "LX600"]
SEASON = [datetime.date(2025, 3, 30) + place * DAY for place in range(210)]

# The first day that a message can name; they name 70.
FIRST = datetime.date(2025, 10, 1)

# No row has the station JFK.
STATIONS = ["ZRH 30MAR25 25OCT25 +0200", "LHR 30MAR25 25OCT25 +0100", "ZRH 26OCT25 28MAR26 +0100", "LHR 26OCT25 28MAR26 +0000"]
ROWS = Stations(STATIONS)
LEG_LINES = [["ZRH0545 LHR0700"], ["ZRH0600 LHR0715"], ["ZRH0800 LHR0930", "LHR1030 ZRH1245"], ["ZRH0545 JFK1200"]]
CLASSES = ["acted", "absent", "present", "leg", "station"]

# Texts that each desk refuses, and why.
REFUSED = [
    ("SSN\n", "20 BadKind line 1"),
    ("SSM\n01JUN00001E001\nCNL NEW\n", "22 BadAction line 3"),
    ("SSM\n01JUN00001E001\nCNL\nLX544\n30FEB 25OCT25 1\n", "24 BadPeriod line 5"),
    ("SSM\nLT\n01JUN00001E001\nCNL\nLX544\n01JUL25 07JUL25 2\n", "40 TimeMode sub 0"),
    ("SSM\n01JUN00001E001\nCNL\nBA544\n01JUL25 07JUL25 2\n", "41 Airline sub 1"),
    ("SSM\n01JUN00001E001\nCNL\nLX544\n02JUL25 01JUL25 2\n", "43 Period sub 1"),
]


# ---- messages, and what they do to a date

Leg = collections.namedtuple("Leg", "board departure board_variation off arrival off_variation aircraft")


@dataclasses.dataclass(frozen=True)
class Sub:
    """A sub-message."""
    action: str
    flight: str
    first: datetime.date
    last: datetime.date
    days: str
    aircraft: str
    legs: tuple

    def lines(self, kind):
        period = [self.flight, f"{date(self.first)} {date(self.last)} {self.days}"]
        return [self.action, *([f"{self.flight}/{date(self.first)}"] if kind == "ASM" else period),
                *([f"J {self.aircraft} CY"] if self.action in ("NEW", "RPL", "EQT") else []),
                *(self.legs if self.action in ("NEW", "RPL", "TIM") else [])]

    def ends(self):
        """The stations and times of the leg lines."""
        return [(line[:3], line[3:7], line[8:11], line[11:]) for line in self.legs]


def random_sub(rng, kind):
    first = FIRST + rng.randrange(50) * DAY
    last, days = first + rng.randrange(20) * DAY, rng.choice(["1234567", "135", "67", "2"])
    if kind == "ASM":
        last, days = first, "1234567"
    return Sub(rng.choice(["NEW", "CNL", "RPL", "EQT", "TIM"]), rng.choice(FLIGHTS), first, last, days,
               rng.choice(["319", "320", "77W"]), tuple(rng.choice(LEG_LINES)))


class Message:
    """A message under the reference with this place in their order: of four neighbours three have the same numbers, of which one is an
    ASM and one has an originator."""

    def __init__(self, rng, place):
        self.kind = "ASM" if place % 4 == 3 else "SSM"
        # 15JAN without a year is in 2026, since the data set was created in February 2025.
        day = datetime.date(2025, 6, 1) if place < REFERENCES // 2 else datetime.date(2026, 1, 15)
        group, serial, originator = place // 4 + 10, 1 if place % 4 == 0 else 2, "ZRHRMLX" if place % 4 == 2 else ""
        self.subs = [random_sub(rng, self.kind) for _ in range(rng.choice([1, 1, 2]))]
        self.reference = f"{self.kind} {date(day)} {group:05} {serial:03} {originator}".strip()
        self.lines = (["." + originator] if originator else []) + [self.kind, "UTC", f"{date(day)[:5]}{group:05}E{serial:03}"]
        for number, sub in enumerate(self.subs):
            self.lines += (["//"] if number else []) + sub.lines(self.kind)


def new_legs(sub, day):
    """The legs of the lines, or none if a station has no row on the day."""
    found = [Leg(board, departure, ROWS.at(board, day), off, arrival, ROWS.at(off, day), sub.aircraft)
             for board, departure, off, arrival in sub.ends()]
    return None if any(None in leg for leg in found) else tuple(found)


def with_times(sub, legs):
    """The legs with the times of the lines, or none if a line names a leg that is not there."""
    found = list(legs)
    for board, departure, off, arrival in sub.ends():
        places = [place for place, leg in enumerate(found) if (leg.board, leg.off) == (board, off)]
        if not places:
            return None
        found[places[0]] = found[places[0]]._replace(departure=departure, arrival=arrival)
    return tuple(found)


def effect(sub, day, legs):
    """The legs of the date after the sub-message, and the class of the date."""
    if sub.action == "NEW" and legs:
        return legs, "present"
    if sub.action != "NEW" and not legs:
        return legs, "absent"
    if sub.action == "CNL":
        return (), "acted"
    if sub.action == "EQT":
        return tuple(leg._replace(aircraft=sub.aircraft) for leg in legs), "acted"
    found, fault = (with_times(sub, legs), "leg") if sub.action == "TIM" else (new_legs(sub, day), "station")
    return (legs, fault) if found is None else (found, "acted")


# ---- plain desks

class PlainDesk:
    """The messages that a desk holds, by their places, and the least and the greatest number of messages applied again."""

    def __init__(self):
        self.held, self.applied = {}, (0, 0)

    def applied_from(self, place):
        """The messages from this place on are applied, and perhaps up to 31 before them."""
        count = sum(other >= place for other in self.held)
        self.applied = (count, min(count + 31, len(self.held)))

    def take(self, place, message):
        if place in self.held:
            return "repeated" if self.held[place].lines == message.lines else f"refused 60 Conflict {message.reference}"
        self.held[place] = message
        self.applied_from(place)
        return "taken"

    def merge(self, other):
        for place, message in sorted(other.held.items()):
            if self.held.get(place, message).lines != message.lines:
                return f"refused 60 Conflict {message.reference}"
        new = other.held.keys() - self.held.keys()
        self.held.update(other.held)
        self.applied = (0, 0)
        if new:
            self.applied_from(min(new))
        return "merged"

    def replayed(self):
        """The legs of each flight by date, and the lines of findings."""
        summer = Leg("ZRH", "0545", "+0200", "LHR", "0700", "+0100", "320")
        legs, findings = {("LX544", day): (summer,) for day in SEASON}, []
        for _, message in sorted(self.held.items()):
            for number, sub in enumerate(message.subs, 1):
                counts = dict.fromkeys(CLASSES, 0)
                for day in dates_of(sub.first, sub.last, sub.days):
                    legs[sub.flight, day], found = effect(sub, day, legs.get((sub.flight, day), ()))
                    counts[found] += 1
                counted = " ".join(f"{word} {counts[word]}" for word in CLASSES)
                findings.append(f"{message.reference} {number} {sub.action} {sub.flight} {counted}")
        return {key: found for key, found in legs.items() if found}, findings


# ---- a run

def file_lines(name, data):
    return [*shown("", data)[1:], f"file {name}"]


class Trial:
    """A run: the lines that ask, those of them that are answered, each with the answer that is expected, and the plain desks."""

    def __init__(self, rng, number):
        self.title, self.rng = f"case {number}", rng
        season, stations = data_set(plain_season()), written(STATIONS)
        self.lines = [self.title, *file_lines("season", season), *file_lines("stations", stations), "desks 3 season stations"]
        self.asked = []
        self.desks = {desk: PlainDesk() for desk in DESKS}
        pool = [(Message(rng, place), Message(rng, place)) for place in range(REFERENCES)]
        # Every other run begins with messages in order of reference, so that more than one checkpoint is there.
        for place in range(rng.choice([0, rng.randrange(90)])):
            self.take(1, place, pool[place][0])
        for _ in range(STEPS):
            self.step(pool)
        self.exports = {desk: self.ask_desk(desk) for desk in DESKS}

    def ask(self, line, *expected):
        self.lines.append(line)
        self.asked.append((line, list(expected)))

    def take(self, desk, place, message):
        self.lines += file_lines("text", spelt(self.rng, message.lines))
        self.ask(f"take {desk} text", self.desks[desk].take(place, message))

    def step(self, pool):
        """Mostly a text, sometimes one that is refused, sometimes a merge."""
        desk, other = self.rng.sample(DESKS, 2)
        kind = self.rng.randrange(12)
        if kind == 0:
            text, fault = self.rng.choice(REFUSED)
            self.lines += file_lines("text", text.encode())
            self.ask(f"take {desk} text", f"refused {fault}")
        elif kind < 3:
            self.ask(f"merge {desk} {other}", self.desks[desk].merge(self.desks[other]))
        else:
            place = self.rng.randrange(REFERENCES)
            self.take(desk, place, pool[place][self.rng.randrange(8) // 7])

    def ask_desk(self, desk):
        """Asks all that a desk shows. Returns the place of its export among the answers, and the legs that it has to have."""
        plain = self.desks[desk]
        legs, findings = plain.replayed()
        self.ask("applied {} {} {}".format(desk, *plain.applied), "within")
        self.ask(f"held {desk}", *(message.reference for _, message in sorted(plain.held.items())))
        self.ask(f"findings {desk}", *findings)
        self.ask(f"again {desk}", "same")
        self.ask(f"save {desk} saved")
        for _ in range(4):
            flight, day = self.rng.choice(FLIGHTS), FIRST + self.rng.randrange(-2, 72) * DAY
            self.ask(f"run show saved {flight} {date(day)}", "status 0", *shown("out", shown_flight(flight, day, legs)))
        self.ask("run export saved")
        return len(self.asked) - 1, legs

    def faults(self, answers):
        """What is wrong with the lines that were printed for each line that asks."""
        exports = {desk: bytes_of(answers[place]) for desk, (place, _) in self.exports.items()}
        found = [f"{line}: {answer}, expected {expected}" for (line, expected), answer in zip(self.asked, answers)
                 if line != "run export saved" and answer != expected]
        found += [f"export of desk {desk}: other legs" for desk, (_, legs) in self.exports.items() if legs_of(exports[desk]) != legs]
        return found + [f"exports of desks {one} and {other}: different" for one in DESKS for other in DESKS
                        if self.desks[one].held == self.desks[other].held and exports[one] != exports[other]]


def shown_flight(flight, day, legs):
    """What `show` prints."""
    lines = [f"{place:02} {leg.board} {leg.departure} {leg.departure} {leg.board_variation} "
             f"{leg.off} {leg.arrival} {leg.arrival} {leg.off_variation} 00 J {leg.aircraft}"
             for place, leg in enumerate(legs.get((flight, day), ()), 1)]
    return written([f"{flight} {date(day)}", *(lines or ["no flight"])])


def bytes_of(answer):
    """The bytes of an output of whole lines."""
    return b"".join(bytes_shown(line[2:]) + b"\n" for line in answer if line.startswith("| "))


def legs_of(export):
    """The legs of each flight by date, as the leg records of a data set give them; nothing if two give one leg of a date."""
    found = {}
    for record in export.decode("latin-1").splitlines():
        if record.startswith("3"):
            leg = Leg(record[36:39], record[43:47], record[47:52], record[54:57], record[57:61], record[65:70], record[72:75])
            flight, sequence = record[2:4] + record[5:9].lstrip("0"), int(record[11:13])
            for day in dates_of(day_of(record[14:21]), day_of(record[21:28]), record[28:35]):
                legs = found.setdefault((flight, day), {})
                if sequence in legs:
                    return None
                legs[sequence] = leg
    return {key: tuple(legs.get(place) for place in range(1, len(legs) + 1)) for key, legs in found.items()}


def answers_of(trials, transcript):
    """The lines that were printed for each line that asks, run by run."""
    asked = [line for trial in trials for line in [trial.title, *(line for line, _ in trial.asked)]]
    found = []
    for line in transcript:
        if len(found) < len(asked) and line == asked[len(found)]:
            found.append([])
        elif line and found:
            found[-1].append(line)
    found += [["nothing"]] * (len(asked) - len(found))
    for trial in trials:
        yield found[1 : len(trial.asked) + 1]
        del found[: len(trial.asked) + 1]


def main():
    if not 2 <= len(sys.argv) <= 4:
        sys.exit(__doc__)
    begun = time.monotonic()
    runs, seed = (int(word) for word in (sys.argv[2:] + ["300", "1"][len(sys.argv[2:]) :]))
    trials = [Trial(random.Random(seed * 1_000_003 + number), number) for number in range(1, runs + 1)]
    cases = "".join(line + "\n" for trial in trials for line in trial.lines)
    done = subprocess.run([os.path.abspath(sys.argv[1])], input=cases.encode("latin-1"), capture_output=True, timeout=120, check=False)
    failed = 0 if done.returncode == 0 else 1
    for trial, answers in zip(trials, answers_of(trials, done.stdout.decode("latin-1").split("\n"))):
        faults = trial.faults(answers)
        failed += bool(faults)
        for fault in faults[:3] if failed <= 5 else []:
            print(f"trials: {trial.title}: {fault}")
    words = collections.Counter(answer.split()[0] for trial in trials for _, expected in trial.asked for answer in expected[:1])
    print(f"trials: {words['taken']} taken, {words['repeated']} repeated, {words['merged']} merged, {words['refused']} refused")
    print(f"trials: {time.monotonic() - begun:.0f} s")
    print(f"{max(runs - failed, 0)} passed, {failed} failed")
    sys.exit(1 if failed or not runs else 0)


if __name__ == "__main__":
    main()
