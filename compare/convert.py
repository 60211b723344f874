"""`convert` beside a plain list of flight dates, and what holds there and back.

Each case has a data set or a desk, which is converted to the other time mode. Each flight date of what `tidy` or `export` writes
(flight_dates.py) is moved by itself, or is left for a reason; what has moved is divided and written anew. `convert` has to keep these bytes
and to print the periods that are left and the numbers of all, or to refuse, and then no file changes. In a case of `back` nothing is left,
and the data set comes back as `tidy` writes it; on each `board` the lines are the same but for the dates of origin. In a case of `own` the
mode is that of the file: what is kept is what `tidy` or `export` prints. In a case of `parts` flights and stations of a data set are chosen
before or after: that is the same, if no date is left by `date`, and else there are more dates if they are chosen before. In a case of `edge` dates are at the ends of the calendar. In a case
of `refused` a file or a word is invalid.
"""
import collections
import copy
import datetime

import chapter7
import messages
import small
from chapter7 import DAY, date, day_of, with_column
from flight_dates import Leg, Timetable, divided, period_line
from messages import Stations, written
from parts import choice, frame_of, part, selected
from room import Answer

KINDS = ["any"] * 4 + ["back"] * 3 + ["own", "parts", "edge", "refused"]
OTHER = {"U": "local", "L": "utc"}
SAME = {"U": "utc", "L": "local"}
LETTER = {"utc": "U", "local": "L"}
FIRST, LAST = datetime.date(2000, 1, 1), datetime.date(2099, 12, 31)
End = collections.namedtuple("End", "station time passenger variation shift")
ENDS = [End(37, 44, 40, 48, 193), End(55, 58, 62, 66, 194)]
Moved = collections.namedtuple("Moved", "day legs")


# ---- a flight date

def minutes(variation):
    """Local time minus UTC."""
    found = int(variation[1:3]) * 60 + int(variation[3:])
    return -found if variation[0] == "-" else found


def moved_time(time, by):
    """How many days a time moves to, and the time of that day."""
    if not by:
        return 0, time
    days, minute = divmod(int(time[:2]) * 60 + int(time[2:]) + by, 1440)
    return days, f"{minute // 60:02}{minute % 60:02}"


def ends_of(legs):
    """The ends of an itinerary, in order: the sequence, the columns, and where they are."""
    return [(leg.sequence, leg, end) for leg in legs for end in ENDS]


def moved(legs, day, mode, stations):
    """The flight date in a time mode, or the word for why it is left."""
    variations = []
    for sequence, leg, end in ends_of(legs):
        variation = leg.at(end.variation, end.variation + 4)
        variation = variation if variation.strip() else stations.at(leg.at(end.station, end.station + 2), day)
        if variation is None:
            return f"station {sequence}"
        if leg.at(end.shift, end.shift) not in " 0123456789":
            return f"letter {sequence}"
        variations.append(variation)
    by = [minutes(variation) * (1 if mode == "local" else -1) for variation in variations]
    times = [moved_time(leg.at(end.time, end.time + 3), minute) for (_, leg, end), minute in zip(ends_of(legs), by)]
    origin = times[0][0]
    if not FIRST.toordinal() <= day.toordinal() + origin <= LAST.toordinal():
        return "calendar"
    shifts = [int(leg.at(end.shift, end.shift).strip() or 0) + days - origin for (_, leg, end), (days, _) in zip(ends_of(legs), times)]
    for (sequence, _, _), shift in zip(ends_of(legs), shifts):
        if not 0 <= shift <= 9:
            return f"days {sequence}"
    found = list(zip(times, by, variations, shifts))
    new = [converted(leg, found[2 * place : 2 * place + 2]) for place, leg in enumerate(legs)]
    return Moved(day + origin * DAY, tuple(new))


def converted(leg, ends):
    """The leg with the times and the date variations of its ends."""
    columns = leg.columns
    for end, ((_, time), by, variation, shift) in zip(ENDS, ends):
        passenger = leg.at(end.passenger, end.passenger + 3)
        passenger = moved_time(passenger, by)[1] if passenger.strip() else passenger
        for column, text in (end.time, time), (end.passenger, passenger), (end.variation, variation), (end.shift, str(shift)):
            columns = with_text(columns, column, text)
    return Leg(columns, leg.tails)


def with_text(columns, column, text):
    return columns[: column - 1] + text + columns[column - 1 + len(text) :]


# ---- a timetable

class Conversion:
    """The timetable in another time mode, the reason of each date that is left, and how many dates have moved."""

    def __init__(self, table, mode, stations):
        self.table, self.left, self.moved = copy.copy(table), {}, 0
        self.table.flights = {}
        for flight, days in table.flights.items():
            self.table.flights[flight], self.left[flight] = {}, {}
            for day in sorted(days):
                self.bring(flight, day, moved(days[day], day, mode, stations))

    def bring(self, flight, day, found):
        """A flight date comes to its new date, if there is none."""
        days = self.table.flights[flight]
        if isinstance(found, str):
            self.left[flight][day] = found
        elif found.day in days:
            self.left[flight][day] = "date"
        else:
            days[found.day] = found.legs
            self.moved += found.day != day

    def lines(self):
        """What is printed."""
        lines, name = [], self.table.designator
        for flight, left in self.left.items():
            lines += [f"left {period_line(name(flight), period)} {left[day]}" for period, day in divided(left)]
        return lines + [self.last_line()]

    def last_line(self):
        dates = sum(map(len, self.table.flights.values()))
        return f"dates {dates} moved {self.moved} left {sum(map(len, self.left.values()))}"


def in_mode(frame, mode):
    """The frame with this time mode in its carrier record."""
    header, carrier, trailer = frame
    return header, with_column(carrier, 2, LETTER[mode]), trailer


def of_other_mode(whole, mode, stations):
    """The conversion of a data set, what is answered, and the bytes that are kept."""
    found = Conversion(Timetable(whole), mode, stations)
    made = part(found.table, in_mode(frame_of(whole), mode), lambda *date: True)
    if made.status:
        return found, made, None
    return found, Answer(0, written(found.lines()), ""), made.out


def stations_of(data):
    """The station table in a desk file; a data set has none."""
    if not data.startswith(b"SSIMDESK "):
        return Stations([])
    lines = data.split(b"\n")
    place = next(place for place, line in enumerate(lines) if line.startswith(b"STATIONS "))
    rows = int(lines[place].split()[1])
    return Stations([line.decode("ascii") for line in lines[place + 1 : place + 1 + rows]])


# ---- cases

def full_zone(rng):
    return rng.choice(["+0200", "-0530", "+0000", "+1300", "-1100", "+0100"])


def whole_clock(rng):
    return f"{rng.randrange(24):02}{rng.randrange(60):02}"


def plain(rng, records):
    """The records without blank UTC variations, 2400 and blank date variations. All legs of a flight depart at one time, so all of its
    dates move by as many days, and nothing is left."""
    departures, found = {}, []
    for line in records:
        if line[:1] == b"3":
            key = line[1:2] + line[5:9].strip().rjust(4, b"0")
            time, zone = departures.setdefault(key, (whole_clock(rng), full_zone(rng)))
            columns = [(44, time), (48, zone), (58, whole_clock(rng)), (66, full_zone(rng)), (193, rng.choice("1234")), (194, rng.choice("2345"))]
            columns += [(40, rng.choice(["    ", time])), (62, rng.choice(["    ", whole_clock(rng)]))]
            for column, text in columns:
                line = with_column(line, column, text)
        found.append(line)
    return found


def at_the_ends(rng):
    """The records of flights on the first and the last days of the calendar, and on days when clocks change."""
    first, last = rng.choice([(FIRST, FIRST + 99 * DAY), (LAST - 99 * DAY, LAST)])
    found = [chapter7.header(), chapter7.carrier("LX ", date(first), date(last), date(first), rng.choice("UL"))]
    for number in range(rng.choice([1, 3])):
        middle = first + rng.randrange(20, 80) * DAY
        for begin, end, zone in (first, middle, "+0200"), (middle + DAY, last, rng.choice(["+0100", "+0300"])):
            departure = rng.choice(["0015", "2230", "2315", "0145", "2400"])
            columns = [(37, "ZRH"), (44, departure), (48, zone), (55, rng.choice(["LHR", "HNL", "AKL"])), (58, whole_clock(rng)),
                       (66, rng.choice(["+0000", "-1000", "+1300"])), (73, "320"), (193, "0"), (194, rng.choice("01"))]
            flight = (" ", "LX ", f"{number + 1:04}")
            found.append(chapter7.leg(flight, "01", "01", date(begin), date(end), chapter7.days(rng.randrange(1, 128)), columns))
    return found + [chapter7.trailer("LX ", date(first), 0)]


def records_of(rng, kind):
    if kind == "edge":
        return at_the_ends(rng)
    records = small.data_set(rng)
    return plain(rng, records) if kind == "back" else [nearly_plain(rng, line) for line in records]


def nearly_plain(rng, line):
    """The record, often with columns by which its dates are not left."""
    if line[:1] != b"3" or rng.random() < 0.2:
        return line
    for column, texts in (193, "0001"), (194, "0112"), (48, None), (66, None):
        if rng.random() < 0.9:
            line = with_column(line, column, rng.choice(texts) if texts else rng.choice(["+0200", "+0100", "-0500", "     "]))
    return line


def make(rng, room, kind):
    """Writes the file FILE, a data set or a desk."""
    season, _ = room.write_base(rng, "FILE", records_of(rng, kind))
    if kind not in ("back", "parts") and rng.random() < 0.6:
        room("start", "FILE", "stations", "desk")
        for _ in range(rng.choice([0, 1, 3])):
            room.write("text", messages.written(messages.message(rng, season)))
            room("take", "desk", "desk", "text")
        room.copy("desk", "FILE")
    return kind


def kept(room, words, wanted, bytes_kept, out="OUT"):
    """What is compared of a `convert`: its answer, and all files after it."""
    files = room.files()
    answer = room("convert", *words)
    yield " ".join(words), answer, wanted
    yield "files", room.files(), files if bytes_kept is None else {**files, out: bytes_kept}
    room.counts[" ".join(answer.err.split()[:2]) or "kept"] += 1
    room.counts.update(f"left: {line.split()[5]}" for line in answer.out.decode("ascii").splitlines() if line.startswith("left"))


def of_own_mode(room, mode, whole):
    """The mode of the file: its `tidy` or `export`, and so again."""
    dates = sum(map(len, Timetable(whole).flights.values()))
    wanted = Answer(0, written([f"dates {dates} moved 0 left 0"]), "")
    yield from kept(room, [mode, "FILE", "OUT"], wanted, whole)
    yield from kept(room, [mode, "OUT", "OUT"], wanted, whole)


def without_origins(answer):
    """The lines of a board without the dates of origin."""
    lines = [line for line in answer.out.decode("ascii").splitlines() if line != "no flight"]
    return sorted(line[:18] + line[26:] for line in lines)


def of_back(rng, room, mode, own, whole):
    """There and back: the bytes of `tidy`. And the boards between."""
    found, answer, there = of_other_mode(whole, mode, Stations([]))
    assert not any(found.left.values()), "a date is left"
    yield from kept(room, [mode, "FILE", "OUT"], answer, there)
    yield "tidy", room("tidy", "OUT"), Answer(0, there, "")
    yield from kept(room, [own, "OUT", "BACK"], Answer(0, written([found.last_line()]), ""), whole, "BACK")
    flown = [(day, leg) for days in found.table.flights.values() for day, legs in days.items() for leg in legs]
    for day, leg in rng.choices(flown, k=3) if flown else []:
        station, near = leg.at(37, 39), date(max(FIRST, min(LAST, day + rng.randrange(-1, 6) * DAY)))
        boards = [room("board", name, station, near) for name in ("FILE", "OUT")]
        yield f"board {station} {near}", *map(without_origins, boards)


def of_parts(rng, room, mode, table):
    """Flights and stations are chosen before or after."""
    chosen = choice(rng, table)
    chosen.first = chosen.last = None
    chosen.aircraft = []
    room.write("part", selected(rng, room, table, chosen).out)
    after, before = room("convert", mode, "FILE", "whole"), room("convert", mode, "part", "BEFORE")
    if after.status or before.status:
        room.counts["a part or a whole that is not converted"] += 1
        return
    room.write("AFTER", selected(rng, room, table, chosen, "whole").out)
    if any(line.split()[5] == b"date" for line in after.out.splitlines() if line.startswith(b"left")):
        early, late = (Timetable(room.read(name)).flights for name in ("BEFORE", "AFTER"))
        missing = {flight: set(days) - set(early.get(flight, {})) for flight, days in late.items()}
        room.counts["dates chosen before or after, some left by date"] += sum(map(len, late.values()))
        yield "dates that are not there if chosen before", {flight: days for flight, days in missing.items() if days}, {}
    else:
        room.counts["chosen before or after"] += 1
        yield "chosen before or after", room.read("BEFORE"), room.read("AFTER")


def of_refused(rng, room, mode):
    """A file or a word that is refused."""
    what = rng.choice(["no file", "cut", "occupied", "text", "mode", "words"])
    room.write("OUT", b"")
    if what == "occupied":
        name = rng.choice(["desk", "stations"])
        room("start", "FILE", "stations", "desk")
        if room.read(name):
            yield from kept(room, [mode, "FILE", name], Answer(1, b"", f"refused 93 Occupied {name}\n"), None)
    elif what == "no file":
        yield from kept(room, [mode, "missing", "OUT"], Answer(1, b"", "refused 91 File missing\n"), None)
    elif what == "cut":
        data = room.read("FILE")
        room.write("FILE", data[: rng.randrange(len(data))])
        yield from kept(room, [mode, "FILE", "OUT"], room("select", "FILE"), None)
    elif what == "text":
        room.write("FILE", b"SSM\nUTC\n01JUN00001E001\nCNL\nLX544\n01JUL25 07JUL25 2\n")
        yield from kept(room, [mode, "FILE", "OUT"], room("select", "FILE"), None)
    else:
        words = [rng.choice(["UTC", "Local", "lt", "", "utcs"]), "FILE", "OUT"] if what == "mode" else [mode, "FILE", "OUT"][: rng.randrange(3)]
        files, answer = room.files(), room("convert", *words)
        yield f"status of {words}", (answer.status, answer.out, answer.err[:6]), (2, b"", "error:")
        yield "files", room.files(), files


def compared(rng, room, kind):
    whole = room.exported("FILE")
    data = room.read("FILE")
    if whole is None:
        room.counts["not exported"] += 1
        letter = data[data.index(b"\n2") + 2 : data.index(b"\n2") + 3].decode("ascii") if b"\n2" in data else None
        if letter in SAME:
            yield from kept(room, [SAME[letter], "FILE", "OUT"], room("select", "FILE"), None)
        return
    letter = Timetable(whole).mode
    mode, own = OTHER[letter], SAME[letter]
    if kind == "refused":
        yield from of_refused(rng, room, mode)
    elif kind == "own":
        yield from of_own_mode(room, own, whole)
    elif kind == "back":
        yield from of_back(rng, room, mode, own, whole)
    elif kind == "parts":
        yield from of_parts(rng, room, mode, Timetable(whole))
    else:
        out = rng.choice(["OUT", "OUT", "FILE"]) if not room.is_desk("FILE") else "OUT"
        _, answer, there = of_other_mode(whole, mode, stations_of(data))
        yield from kept(room, [mode, "FILE", out], answer, there, out)
        if there is not None:
            yield "tidy", room("tidy", out), Answer(0, there, "")
