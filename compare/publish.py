"""`publish` beside a plain list of flight dates.

Each case has a desk FROM and a desk or data set TO. publishing.py computes from the dates of the two what messages can say, in which texts,
and which dates are left. `publish` has to print and to keep exactly that, or the refusal that comes first. Then a copy of FROM receives
OUT: each text has to be taken and each of its sub-messages to act on all its dates, `diff` of the copy with TO has to have the unsaid dates
and no others, the export has to have the dates that the model has, and `publish` from the copy has to say no more and to leave the same
unsaid. If TO holds all that FROM holds (KIND `more`, `directed more` and `equal`), nothing may be unsaid.
"""
import collections
import re

import messages
import publishing
import small
from chapter7 import DAY, date, dates_of, day_of, with_column
from flight_dates import Timetable
from plain_flights import Plain
from publishing import Reference
from room import Answer, said

KINDS = ["more", "more", "other", "other", "another", "columns", "columns", "filled", "plain", "plain", "plain", "plain desk",
         "directed", "directed", "directed more", "many", "equal"]


# ---- the files of a case

def bring(rng, room, season, name, most):
    """Brings some messages to a desk."""
    texts = [messages.written(messages.message(rng, season)) for _ in range(rng.randrange(most + 1))]
    room.write("mail", b"".join(text + b"NNNN\n" for text in texts))
    room("receive", name, name, "mail")


def start(room, season, rows, name):
    room.write("stations", messages.written(rows))
    room("start", season, "stations", name)


def with_terminals(rng, records):
    """The records with terminals in each leg."""
    return [with_column(with_column(line, 53, rng.choice(["1 ", "2E"])), 71, "3 ") if line[:1] == b"3" else line for line in records]


def as_airline(records, other):
    """The other records, for the airline and the time mode of the first ones."""
    name = records[1][2:5]
    found = [with_column(line, 3, name) if line[:1] in b"2345" else line for line in other]
    return [with_column(line, 2, records[1][1:2]) if line[:1] == b"2" else line for line in found]


def make_plain(rng, room, kind):
    plain = Plain(rng)
    pieces = {"many": plain.many, "directed": plain.long_pieces, "directed more": plain.long_pieces}.get(kind, plain.pieces)()
    records = plain.records(pieces)
    room.write("season", small.file_bytes(rng, records))
    start(room, "season", plain.rows, "FROM")
    season = messages.Season(records)
    if kind == "directed more":
        room.copy("FROM", "TO")
        bring(rng, room, season, "TO", 9)
        return kind, season, plain.rows
    if kind == "many" and rng.random() < 0.5:
        new = plain.records(plain.many())
    else:
        new = plain.records(plain.all_directed(pieces) if kind == "directed" else plain.changed(pieces))
    wanted = small.file_bytes(rng, new)
    if kind == "plain desk":
        bring(rng, room, season, "FROM", 4)
        room.write("wanted", wanted)
        start(room, "wanted", messages.station_rows(rng, season), "TO")
        bring(rng, room, season, "TO", 4)
    else:
        room.write("TO", wanted)
    return kind, season, plain.rows


def make(rng, room, kind):
    """Writes the files FROM and TO; the kind, the season of FROM, and its station rows."""
    if kind in ("plain", "plain desk", "directed", "directed more", "many"):
        return make_plain(rng, room, kind)
    records = small.data_set(rng)
    if kind == "filled":
        records = with_terminals(rng, records)
    season, rows = room.write_base(rng, "season", records)
    room("start", "season", "stations", "FROM")
    room.copy("FROM", "TO")
    if kind == "more":
        bring(rng, room, season, "FROM", 4)
        room.copy("FROM", "TO")
        bring(rng, room, season, "TO", 4)
    elif kind == "equal":
        bring(rng, room, season, "FROM", 4)
        room.copy("FROM", "TO")
        if rng.random() < 0.5:
            room.write("TO", room("export", "FROM").out)
    else:
        bring(rng, room, season, "FROM", rng.choice([0, 4]))
        make_other(rng, room, kind, records, season)
    return kind, season, rows


def make_other(rng, room, kind, records, season):
    """Writes a TO that does not begin from FROM, which is a data set or a desk that some messages came to."""
    if kind == "another":
        room.write("wanted", small.file_bytes(rng, as_airline(records, small.data_set(rng))))
        start(room, "wanted", messages.station_rows(rng, season), "TO")
    elif kind == "columns" or kind == "filled" and rng.random() < 0.5:
        room.write("TO", small.file_bytes(rng, small.changed(rng, records)))
    if kind in ("other", "another") or kind == "filled" and room.is_desk("TO"):
        bring(rng, room, season, "TO", 4)


# ---- what is printed

def reference_word(rng, season, day):
    """REFERENCE."""
    group = rng.choice([1, 1, 2, 500, 99_998, 99_999])
    origin = rng.choice(["", "", ".ZRHRMLX/", ".HAM0PZ7/"])
    return f"{origin}{date(day)[:5]}{group:05}{rng.choice('EEC')}{rng.randrange(1, 4):03}{rng.choice(['', '', '/REF 1', '/ A/B'])}"


PARTS = re.compile(r"(SSM|ASM) (\w{7}) (\d{5}) (\d{3})(?: (\w{7}))? \d+ ")


def greatest_held(room, name):
    """The greatest reference that a desk holds, as it is printed, and what it is ordered by."""
    lines = room("findings", name).out.decode("ascii").splitlines()
    if not lines:
        return None
    parts = PARTS.match(lines[-1])
    kind, day, group, serial, origin = parts.groups()
    order = day_of(day), int(group), int(serial), kind == "ASM", origin or ""
    return order, parts.group(0).rsplit(" ", 2)[0]


class Publication:
    """What the model makes of the timetables of FROM and TO under a reference word."""

    def __init__(self, old, new, rows, word, created):
        self.old, self.new, self.stations, self.reference = old, new, messages.Stations(rows), Reference(word)
        self.subs, self.unsaid = publishing.planned(old, new, self.stations)
        self.texts = publishing.texts_of(old, self.subs, self.reference)
        self.day = next(at for at in (created + place * DAY for place in range(366)) if date(at)[:5] == self.reference.day)
        self.dates = sum(len(days) for days in self.unsaid.values())
        self.left = {old.designator(flight): sorted(days) for flight, days in self.unsaid.items()}
        self.unsaid_lines = publishing.unsaid_lines(old, self.unsaid, self.stations)

    def refusal(self, held):
        """The line of the refusal, if there is one. `held` is the greatest reference that FROM holds."""
        reference = self.reference
        order = self.day, reference.group, int(reference.end[1:4]), False, reference.originator[1:]
        if held is not None and order <= held[0]:
            return f"refused 64 Order {held[1]}\n"
        return "refused 65 References\n" if self.texts is None else None

    def shown(self):
        """The references of the texts, as they are printed."""
        return [self.reference.shown(self.reference.group + place, self.day.year % 100) for place in range(len(self.texts))]

    def printed(self):
        lines = [f"text {name} subs {count}" for name, (_, count) in zip(self.shown(), self.texts)]
        return lines + self.unsaid_lines + [f"texts {len(self.texts)} subs {len(self.subs)} unsaid dates {self.dates}"]

    def out(self):
        """The bytes of OUT."""
        return b"".join(text + b"NNNN\n" for text, _ in self.texts)

    def received(self):
        """What `receive` prints of OUT."""
        place, lines = 1, []
        for name, (text, _) in zip(self.shown(), self.texts):
            lines.append(f"OUT:{place} taken {name}")
            place += text.count(b"\n") + 1
        return lines + [f"taken {len(self.texts)} repeated 0 refused 0"]

    def findings(self):
        """What `findings` prints of the sub-messages: each acts on all its dates."""
        lines, subs = [], iter(self.subs)
        for name, (_, count) in zip(self.shown(), self.texts):
            for number in range(1, count + 1):
                flight, period, action, _ = next(subs)
                flight = self.old.designator(flight)
                lines.append(f"{name} {number} {action} {flight} acted {count_of(period)} absent 0 present 0 leg 0 station 0")
        return lines

    def itinerary(self, flight, day):
        """The itinerary of a flight on a date after all texts."""
        side = self.old if day in self.unsaid.get(flight, {}) else self.new
        return side.flights.get(flight, {}).get(day, ())

    def count(self, counts):
        counts["texts"] += len(self.texts)
        counts["sub-messages"] += len(self.subs)
        counts["unsaid dates"] += self.dates
        counts["said dates"] += sum(count_of(period) for _, period, _, _ in self.subs)


def expanded(lines, first_word):
    """The dates of the lines of periods: {flight: [dates]}."""
    found = collections.defaultdict(list)
    for words in (line.split() for line in lines):
        flight, first, last, weekdays = words[first_word : first_word + 4]
        found[flight] += dates_of(day_of(first), day_of(last), weekdays)
    return {flight: sorted(dates) for flight, dates in found.items()}


def count_of(period):
    first, last, weekdays = period
    return len(dates_of(first, last, {str(weekday + 1) for weekday in weekdays}))


def compared(rng, room, case):
    kind, season, rows = case
    exports = [room.exported(name) for name in ("FROM", "TO")]
    if None in exports:
        room.counts["not exported"] += 1
        return
    word = reference_word(rng, season, season.created + rng.choice([4, 5, 9, 9, 9, 2, 0]) * DAY)
    wanted = Publication(*map(Timetable, exports), rows, word, season.created)
    answer, refused = room("publish", "FROM", "TO", word, "OUT"), wanted.refusal(greatest_held(room, "FROM"))
    if refused is not None:
        room.counts[refused[:10]] += 1
        yield f"publish {word}", answer, Answer(1, b"", refused)
        yield "OUT", room.read("OUT"), None
        return
    wanted.count(room.counts)
    yield f"publish {word}", answer, said(wanted.printed())
    lines = [line for line in answer.out.decode("latin-1").splitlines() if line.startswith("unsaid ")]
    yield "unsaid dates", expanded(lines, 1), wanted.left
    yield "OUT", room.read("OUT"), wanted.out()
    if kind in ("more", "directed more", "equal"):
        yield "unsaid dates although TO holds all that FROM holds", wanted.left, {}
    yield from after_it(room, wanted)


def after_it(room, wanted):
    """What is compared of a copy of FROM that receives OUT."""
    yield "receive", room("receive", "FROM", "AFTER", "OUT"), said(wanted.received())
    lines = room("diff", "AFTER", "TO").out.decode("latin-1").splitlines()
    yield "diff of what was received", expanded([line for line in lines[:-1] if line[:1] not in "+- "], 0), wanted.left
    yield "last line of it", lines[-1] == "same", not wanted.left
    findings = room("findings", "AFTER").out.decode("latin-1").splitlines()
    yield "findings", findings[len(findings) - len(wanted.subs) :], wanted.findings()
    export = room.exported("AFTER")
    if export is not None:
        yield from dates_after_it(wanted, Timetable(export))
    again = said(wanted.unsaid_lines + [f"texts 0 subs 0 unsaid dates {wanted.dates}"])
    yield "published again", room("publish", "AFTER", "TO", f"{date(wanted.day + DAY)[:5]}00001E001", "OUT2"), again
    yield "OUT2", room.read("OUT2"), b""


def dates_after_it(wanted, after):
    """What is compared of the dates in the export of that copy."""
    tables = wanted.old, wanted.new, after
    for flight in sorted({flight for table in tables for flight in table.flights}):
        for day in sorted({day for table in tables for day in table.flights.get(flight, {})}):
            what = f"after: {wanted.old.designator(flight)} {date(day)}"
            yield what, after.flights.get(flight, {}).get(day, ()), wanted.itinerary(flight, day)
