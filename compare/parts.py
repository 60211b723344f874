"""`select` beside a plain list of flight dates, and what holds of any choices.

Each case has a data set or a desk, and choices of its flights, dates, stations and aircraft types. Of the dates that `tidy` or `export`
writes (flight_dates.py) each is taken or left by itself, and what is taken is divided and written anew: `select` has to print these bytes,
or the refusal of their export. In a case of `laws` no choice is the whole, `tidy` leaves a part as it is, a part of a part has the dates of
both choices in either order, no flight has more periods than in the whole, and two spans that meet have together all dates. In a case of
`messages` flights and dates of a data set are chosen, and then a desk that begins from the part takes messages: each message is answered as
by a desk of the whole, and the chosen dates are as they are there. In a case of `words` some words are invalid, and the refusal is that of the first of them by kind.
"""
import messages
import small
from chapter7 import DAY, FILL, date, with_column, with_serial
from flight_dates import Timetable, cover, divided
from room import Answer

KINDS = ["choice", "choice", "choice", "laws", "messages", "words"]
AIRCRAFT = ["320", "77W", "32 ", " 32", "E9 ", " E9", "3 2", "  7", "7  "]
FIRST, LAST = small.datetime.date(2000, 1, 1), small.datetime.date(2099, 12, 31)
ORDER = ["flight", "station", "aircraft", "from", "to", "airline", "turned"]
REFUSALS = {"flight": "6 BadDesignator", "station": "3 BadStation", "aircraft": "25 BadEquipment", "from": "1 BadDate", "to": "1 BadDate",
            "airline": "41 Airline sub 0", "turned": "43 Period sub 0"}


# ---- a choice

class Choice:
    """Flights, a first and a last date, stations and aircraft types; where none is named, all are chosen."""

    def __init__(self, flights=(), first=None, last=None, stations=(), aircraft=()):
        self.flights, self.first, self.last = list(flights), first, last
        self.stations, self.aircraft = list(stations), list(aircraft)

    def takes(self, flight, day, legs):
        """Whether a flight date is chosen."""
        if self.flights and flight not in self.flights:
            return False
        if not (self.first or FIRST) <= day <= (self.last or LAST):
            return False
        touched = {leg.at(*columns) for leg in legs for columns in ((37, 39), (55, 57))}
        flown = {leg.at(73, 75).strip(" ") for leg in legs}
        return (not self.stations or touched & set(self.stations)) and (not self.aircraft or flown & set(self.aircraft))

    def words(self, rng, table):
        """The words of the command before and after FILE."""
        options = [[name, date(day)] for name, day in (("--from", self.first), ("--to", self.last)) if day]
        options += [["--station", name] for name in self.stations] + [["--aircraft", name] for name in self.aircraft]
        rng.shuffle(options)
        cut = rng.randrange(len(options) + 1)
        before, after = ([word for option in part for word in option] for part in (options[:cut], options[cut:]))
        return before, [table.designator(flight) for flight in self.flights] + after


def choice(rng, table):
    """A choice of what the timetable has, and of a few things that it has not."""
    legs = [leg for days in table.flights.values() for legs in days.values() for leg in legs]
    days = sorted({day for days in table.flights.values() for day in days}) or [small.datetime.date(2025, 7, 1)]
    made = Choice()
    if rng.random() < 0.4:
        made.flights = [rng.choice([*table.flights, (1, " ")]) for _ in range(rng.choice([1, 2, 3]))]
    span = sorted(rng.choice(days) + rng.randrange(-3, 4) * DAY for _ in range(2))
    made.first, made.last = (day if rng.random() < 0.5 else None for day in span)
    if rng.random() < 0.4:
        made.stations = [rng.choice([leg.at(37, 39), leg.at(55, 57)]) if legs else "ZRH" for leg in rng.choices(legs or [None], k=rng.choice([1, 2, 4]))]
    if rng.random() < 0.3:
        made.aircraft = rng.choices(["320", "77W", "32", "E9", "7"], k=rng.choice([1, 2]))
    return made


# ---- the data set of some flight dates

def section(lines):
    """Records, and fill up to a multiple of five."""
    return lines + [FILL] * (-len(lines) % 5)


def flight_records(table, flight, days):
    """The records of a flight, without serials."""
    number, suffix = flight
    head = f"{suffix}{table.airline:3}{number:04}"
    for variation, ((first, last, weekdays), day) in enumerate(divided(days), 1):
        period = date(first) + date(last) + "".join(str(place + 1) if place in weekdays else " " for place in range(7))
        for leg in days[day]:
            name = f"{head}{variation:02}{leg.at(12, 14)}"
            yield f"3{name}{period} {leg.columns[36:]}"
            for tail in leg.tails:
                yield f"4{name}{tail[:13]} {tail[13:]}"


def part(table, frame, takes):
    """The answer of a command that exports the flight dates that are taken, in the frame of a data set."""
    body = []
    for flight in table.flights:
        days = {day: legs for day, legs in table.flights[flight].items() if takes(flight, day, legs)}
        if len(divided(days)) > 99:
            return Answer(1, b"", f"refused 50 Variations flight {table.designator(flight)}\n")
        body += [line.encode("latin-1") for line in flight_records(table, flight, days)]
    header, carrier, trailer = frame
    trailer = with_column(trailer, 188, f"{len(body) + 2:06}")
    lines = section([with_serial(header, 1)]) + section([with_serial(carrier, 2)])
    lines += section([with_serial(line + b" " * 6, serial) for serial, line in enumerate(body, 3)])
    lines += section([with_serial(trailer, len(body) + 3)])
    return Answer(0, b"".join(line + b"\n" for line in lines), "")


def frame_of(data):
    """The header, the carrier record and the trailer of a data set."""
    lines = [line for line in data.split(b"\n") if line and line != FILL]
    return lines[0], lines[1], lines[-1]


def periods(data):
    """How many periods each flight has in a data set."""
    table = Timetable(data)
    return {flight: len(divided(days)) for flight, days in table.flights.items()}


# ---- cases

def make(rng, room, kind):
    """Writes the file FILE, a data set or a desk."""
    records = [with_column(line, 73, rng.choice(AIRCRAFT)) if line[:1] == b"3" and rng.random() < 0.5 else line
               for line in small.data_set(rng)]
    season, _ = room.write_base(rng, "FILE", records)
    room.texts = [messages.written(messages.message(rng, season)) for _ in range(rng.choice([0, 1, 3]))]
    if kind != "messages" and rng.random() < 0.5:
        room("start", "FILE", "stations", "desk")
        for text in room.texts:
            room.write("text", text)
            room("take", "desk", "desk", "text")
        room.copy("desk", "FILE")
    return kind


def selected(rng, room, table, chosen, name="FILE"):
    """What `select` prints of a file."""
    before, after = chosen.words(rng, table)
    return room("select", *before, name, *after)


def of_words(rng, room, *command):
    """What is compared of the words of a command that takes choices, some of which are invalid."""
    wrong = {kind for kind in ORDER if rng.random() < 0.3} or {"flight"}
    flights = ["Z7A"] * ("flight" in wrong) + ["XX123"] * ("airline" in wrong) + ["101"]
    rng.shuffle(flights)
    stations = ["Z1"] * ("station" in wrong) + ["zrh"]
    aircraft = ["3-0"] * ("aircraft" in wrong) + ["e90"]
    first = "32JAN27" if "from" in wrong else "2jan27"
    last = "2027-02-30" if "to" in wrong else "2027-01-01" if "turned" in wrong else "03JAN27"
    rng.shuffle(stations)
    rng.shuffle(aircraft)
    words = [word for name in stations for word in ("--station", name)] + [word for name in aircraft for word in ("--aircraft", name)]
    words += ["--from", first, "--to", last]
    if {"from", "to"} & wrong:
        wrong.discard("turned")
    fault = next((REFUSALS[kind] for kind in ORDER if kind in wrong), None)
    room.counts[f"words: {fault}"] += 1
    yield " ".join([*command, *words]), room(*command, *words, "FILE", *flights), Answer(1, b"", f"refused {fault}\n")


def of_laws(rng, room, table, whole):
    """What is compared of several choices."""
    yield "no choice", room("select", "FILE"), Answer(0, whole, "")
    one, two = choice(rng, table), choice(rng, table)
    parts = {}
    for name, chosen in ("one", one), ("two", two):
        parts[name] = selected(rng, room, table, chosen).out
        room.write(name, parts[name])
        yield "tidy of a part", room("tidy", name), Answer(0, parts[name], "")
    both = part(table, frame_of(whole), lambda *date: one.takes(*date) and two.takes(*date))
    yield "two of one", selected(rng, room, table, two, "one"), both
    yield "one of two", selected(rng, room, table, one, "two"), both
    counts = periods(whole)
    more = {flight: count for flight, count in periods(parts["one"]).items() if count > counts[flight]}
    yield "flights with more periods", more, {}
    days = sorted({day for days in table.flights.values() for day in days}) or [small.datetime.date(2025, 7, 1)]
    day = min(rng.choice(days), LAST - DAY)
    halves = [Timetable(room("select", *words, "FILE").out).flights for words in (["--to", date(day)], ["--from", date(day + DAY)])]
    together = {flight: {} for flight in table.flights}
    for half in halves:
        for flight, dates in half.items():
            yield "a date twice", set(together[flight]) & set(dates), set()
            together[flight].update(dates)
    yield "all dates", {flight: dates for flight, dates in together.items() if dates}, table.flights


def of_messages(rng, room, table):
    """What is compared of a part that takes messages, beside the whole that takes them."""
    chosen = choice(rng, table)
    chosen.stations, chosen.aircraft = [], []
    room.write("part", selected(rng, room, table, chosen).out)
    found = {}
    for name in "FILE", "part":
        answers = [room("start", name, "stations", f"{name}.desk")]
        for text in room.texts:
            room.write("text", text)
            answers.append(room("take", f"{name}.desk", f"{name}.desk", "text"))
        dates = Timetable(room.exported(f"{name}.desk") or b"").flights
        found[name] = {(flight, day): legs for flight, days in dates.items() for day, legs in days.items()
                       if chosen.takes(flight, day, legs)}, answers
    if room.exported("FILE.desk") is None:
        room.counts["a desk that is not exported"] += 1
        return
    room.counts["chosen dates after messages"] += len(found["part"][0])
    yield "answers", found["part"][1], found["FILE"][1]
    yield "dates", found["part"][0], found["FILE"][0]


def compared(rng, room, kind):
    if kind == "words":
        yield from of_words(rng, room, "select")
        return
    whole = room.exported("FILE")
    if whole is None:
        room.counts["not exported"] += 1
        return
    table = Timetable(whole)
    if kind == "laws":
        yield from of_laws(rng, room, table, whole)
        return
    if kind == "messages":
        yield from of_messages(rng, room, table)
        return
    for _ in range(6):
        chosen = choice(rng, table)
        wanted = part(table, frame_of(whole), chosen.takes)
        room.counts["a part without flights" if len(wanted.out) == 15 * 201 else "a part"] += 1
        yield f"select {chosen.words(rng, table)}", selected(rng, room, table, chosen), wanted
