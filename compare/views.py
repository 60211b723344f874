"""`list`, `calendar` and `diff` with a choice of flight dates, beside a plain list of flight dates and beside `select`; several flights of a
command; boards of several dates; and what commands print as CSV.

Each case has a data set or a desk, as in `parts`, and choices of its flights, dates, stations and aircraft types. Of the dates that `tidy` or
`export` writes (flight_dates.py) each is taken or left by itself. `list`, in each of its forms, and `calendar` have to print what follows from
those that are taken; and what they print of the data set that `select` writes with the same choice, byte for byte. In a case of `words` some
words are invalid, and the refusal is that of the first of them by kind. In a case of `several` `show` of several flights has to print what
follows from their dates, and `show`, `history` and `calendar` what they print of each flight alone. Of a desk `findings` of some flights, and
of what did not act, has to print those lines of all findings. In a case of `boards` `board --days N`, `--departures` and `--arrivals` have to
print what follows from the flight dates; each date what `board` prints of it alone; and departures and arrivals together each line of the
board, in its order.

A case of `spans` has a desk with some messages, whose dates the model of `carry` finds in the desk file. With a span `findings` has to count what
`history` says of each of these dates, and `texts` has to print the messages, or as CSV the sub-messages, that follow from them. `history --csv` has
a row for each leg that `history` prints. `findings` to a date and from the next one
on have together the numbers of all. In a case of `span words` some words of the two commands are invalid.

In a case of `info` the file is a data set or a desk with some messages. What `info` prints has to follow from its carrier record, its lines
and its flight dates; and where it is refused, `list` is refused for the same. A case of `notes` is one of `start --notes` (notes.py), and one
of `changes` one of `diff` (changes.py).
"""
import collections
import copy
import csv
import datetime
import re

import carry
import changes
import days
import messages
import notes
import parts
import small
from chapter7 import DAY, FILL, OPEN_END, date, dates_of
from flight_dates import (BOARD_NAMES, LEG_NAMES, Timetable, board, calendar, cells, clock, leg_fields, listed,
                          listed_dates, movements, rows)
from room import Answer, lines_of, said

KINDS = ["choice", "choice", "choice", "several", "boards", "words", "spans", "spans", "span words", "info", "stations", "notes", "changes", "changes",
         "changes", "change words"]
REASONS = ["acted", "absent", "present", "leg", "station"]
# The most dates that are looked at one by one.
MANY = 60
FORMS = {(): listed, ("--dates",): listed_dates, ("--csv",): rows,
         ("--csv", "--dates"): lambda table, flights=None: rows(table, flights, True)}
COMMANDS = [("list",), ("list", "--csv"), ("list", "--dates"), ("calendar",)]
FINDING_NAMES = "reference,sub,action,flight,acted,absent,present,no_leg,no_station"
TEXT_NAMES = "reference,sub,action,flight,first,last,days"
HISTORY_NAMES = "flight,date,reference,sub,action,result," + LEG_NAMES


def make(rng, room, kind):
    """Writes the file FILE, a data set or a desk, or the files FROM and TO."""
    if kind == "changes":
        days.make(rng, room, rng.choice(days.KINDS))
        return kind
    if kind == "notes":
        notes.make(rng, room)
        return kind
    if kind not in ("spans", "span words"):
        return parts.make(rng, room, kind)
    season, _ = room.write_base(rng, "data", small.data_set(rng))
    room("start", "data", "stations", "FILE")
    for _ in range(rng.choice([1, 4, 8])):
        room.write("text", messages.written(messages.message(rng, season)))
        room("take", "FILE", "FILE", "text")
    return kind


# ---- what follows from flight dates

def taken(table, chosen):
    """The timetable without the flight dates that are not chosen."""
    left = copy.copy(table)
    dates = {flight: {day: legs for day, legs in days.items() if chosen.takes(flight, day, legs)} for flight, days in table.flights.items()}
    left.flights = {flight: days for flight, days in dates.items() if days}
    return left


def blocks(found):
    """The lines of several blocks, with an empty line between two."""
    return [line for place, lines in enumerate(found) for line in [""] * (place > 0) + lines]


def calendars(table, flights):
    """The lines of `calendar` of several flights."""
    return blocks([calendar(table, flight) for flight in sorted(set(flights))])


# ---- cases

def of_choice(rng, room, table, chosen):
    """What is compared of a choice."""
    left, named = taken(table, chosen), chosen.flights or None
    room.counts["a choice of dates" if left.flights else "a choice without dates"] += 1
    before, after = chosen.words(rng, table)
    part = room("select", *before, "FILE", *after)
    if part.status == 0:
        room.write("PART", part.out)
    names = [table.designator(flight) for flight in chosen.flights]
    for form, lines in FORMS.items():
        answer = room("list", *form, *before, "FILE", *after)
        yield f"list {form} {before} {after}", answer, said(lines(left, named))
        if part.status == 0:
            yield f"list of select {form} {before} {after}", answer, room("list", *form, "PART", *names)
    flights = chosen.flights or rng.choices([*table.flights, (1, " ")], k=rng.choice([1, 2, 3]))
    names = [table.designator(flight) for flight in flights]
    words = after if chosen.flights else names + after
    answer = room("calendar", *before, "FILE", *words)
    yield f"calendar {before} {words}", answer, said(calendars(left, flights))
    if part.status == 0:
        yield f"calendar of select {before} {words}", answer, room("calendar", "PART", *names)


def shown(table, flights, day):
    """The lines of `show` of several flights."""
    return blocks([[f"{table.designator(flight)} {date(day)}"] + ([leg.line for leg in table.flights.get(flight, {}).get(day, ())] or ["no flight"])
                   for flight in sorted(set(flights))])


def together(answers):
    """The answer of several blocks."""
    return Answer(0, b"\n".join(answer.out for answer in answers), "")


def of_several(rng, room, table):
    """What is compared of several flights."""
    flights = rng.choices([*table.flights, (1, " ")], k=rng.choice([1, 2, 3, 5]))
    days = sorted({day for days in table.flights.values() for day in days}) or [datetime.date(2025, 7, 1)]
    day = rng.choice(days) + rng.choice([0, 0, 0, -1, 1]) * DAY
    names, in_order = [table.designator(flight) for flight in flights], [table.designator(flight) for flight in sorted(set(flights))]
    room.counts["several flights" if len(in_order) > 1 else "one flight"] += 1
    answer = room("show", "FILE", *names, date(day))
    yield f"show {names} {day}", answer, said(shown(table, flights, day))
    for command in "show", "history":
        wanted = together([room(command, "FILE", name, date(day)) for name in in_order])
        yield f"{command} {names} {day}", room(command, "FILE", *names, date(day)), wanted
    yield f"calendar {names}", room("calendar", "FILE", *names), together([room("calendar", "FILE", name) for name in in_order])
    yield from of_findings(room, names)
    wrong = {"Z7A": "6 BadDesignator", "XX123": "41 Airline sub 0"}
    for command in "show", "history":
        words = rng.sample([*wrong, *names], k=2)
        fault = next((wrong[word] for word in wrong if word in words), None)
        last = rng.choice([date(day), "32JAN27"])
        if fault != "6 BadDesignator" and last == "32JAN27":
            fault = "1 BadDate"
        if fault:
            yield f"{command} {words} {last}", room(command, "FILE", *words, last), Answer(1, b"", f"refused {fault}\n")


def did_not_act(line):
    """Whether a line of findings has no date, or one on which the sub-message did not act."""
    acted, *others = (int(word) for word in line.split()[-9::2])
    return acted == 0 or any(others)


def as_row(line):
    """A line of findings as a row of CSV: the reference has blanks."""
    words = line.split(" ")
    return ",".join([" ".join(words[:-13]), *words[-13:-10], *words[-9::2]])


def of_findings(room, names):
    """What is compared of the findings of a desk; of a data set nothing."""
    whole = room("findings", "FILE")
    if whole.status:
        return
    lines = whole.out.decode("ascii").splitlines()
    room.counts["findings of which some did not act" if any(map(did_not_act, lines)) else "findings"] += bool(lines)
    for words in [], names:
        of_flights = [line for line in lines if not words or line.split()[-11] in words]
        yield f"findings {words}", room("findings", "FILE", *words), said(of_flights)
        wanted = said([line for line in of_flights if did_not_act(line)])
        yield f"findings --not-acted {words}", room("findings", "FILE", *words, "--not-acted"), wanted
        wanted = said([FINDING_NAMES, *map(as_row, of_flights)])
        yield f"findings --csv {words}", room("findings", "--csv", "FILE", *words), wanted


# ---- spans

class Sub:
    """A sub-message of a desk: what `findings` prints of it before its numbers, its flight, and its dates."""

    def __init__(self, airline, line, flight, first, last, days):
        self.name, _, numbers = line.partition(" acted ")
        self.flight, self.dates, self.period = airline + flight, dates_of(first, last, days), (first, last, days)
        self.whole = [int(word) for word in numbers.split()[::2]]

    def row(self):
        """The row of `texts --csv`."""
        (*reference, number, action, flight), (first, last, days) = self.name.split(" "), self.period
        return cells([" ".join(reference), number, action, flight, first.isoformat(), last.isoformat(), days])

    def line(self, counts):
        return self.name + "".join(f" {word} {count}" for word, count in zip(REASONS, counts))


def subs_of(desk, lines):
    """The sub-messages of each message, in order: a text and its sub-messages."""
    lines = iter(lines)
    return [(text, [Sub(desk.base.airline, next(lines), *sub) for sub in carry.meant(desk.base, text).subs])
            for _, text in sorted(desk.held.items())]


def happened(room, subs, days):
    """What `history` says of each date on which one of the sub-messages is: a word for each sub-message, flight and date."""
    words = {}
    for day in days:
        flights = sorted({sub.flight for sub in subs if day in sub.dates})
        flight = None
        for line in room("history", "FILE", *flights, date(day)).out.decode("ascii").splitlines() if flights else []:
            if re.fullmatch(r"\S+ \d\d[A-Z]{3}\d\d", line):
                flight = line.split()[0]
            elif line.startswith(("SSM ", "ASM ")):
                name, _, word = line.rpartition(" ")
                words[f"{name} {flight}", day] = word
    return words


def numbers(answer):
    """The numbers of each line of `findings`, by what is before them."""
    lines = (line.partition(" acted ") for line in answer.out.decode("ascii").splitlines())
    return {name: [int(word) for word in rest.split()[::2]] for name, _, rest in lines}


def of_span(rng, room, texts, names, span):
    """What is compared of a span, of which an end may be missing."""
    first, last = (end or limit for end, limit in zip(span, (parts.FIRST, parts.LAST)))
    ends = [[word, date(end)] for word, end in zip(("--from", "--to"), span) if end]
    rng.shuffle(ends)
    words = [word for end in ends for word in end]
    cut = rng.choice([0, len(words)])
    words = [*words[:cut], "FILE", *names, *words[cut:]]
    chosen = {sub: [day for day in sub.dates if first <= day <= last] for _, subs in texts for sub in subs if not names or sub.flight in names}
    wanted = [text for text, subs in texts if not ends and not names or any(sub in chosen and (not ends or chosen[sub]) for sub in subs)]
    room.counts["texts of a span" if 0 < len(wanted) < len(texts) else "all or no texts of a span"] += 1
    yield f"texts {words}", room("texts", *words), Answer(0, b"\n".join(wanted), "")
    lines = [TEXT_NAMES, *(sub.row() for sub, dates in chosen.items() if dates or not ends)]
    yield f"texts --csv {words}", room("texts", *words, "--csv"), said(lines)
    days = sorted({day for dates in chosen.values() for day in dates})
    if len(days) > MANY:
        return
    said_of = happened(room, chosen, days)
    lines = []
    for sub, dates in chosen.items():
        counts = [sum(said_of.get((sub.name, day)) == word for day in dates) for word in REASONS]
        yield f"history has each date of {sub.name}", sum(counts), len(dates)
        if dates or not ends:
            lines.append((counts, sub.line(counts)))
    room.counts["findings of a span" if 0 < len(lines) < len(chosen) else "all or no findings of a span"] += 1
    yield f"findings {words}", room("findings", *words), said([line for _, line in lines])
    for day in days[:1] + days[len(days) // 2 :][:1]:
        yield from of_history(room, chosen, day)
    left = [line for counts, line in lines if counts[0] == 0 or any(counts[1:])]
    yield f"findings --not-acted {words}", room("findings", "--not-acted", *words), said(left)


def steps_of(lines):
    """What `history` says: of each step its flight, its fields, and its legs as they are shown."""
    for line in lines:
        if re.fullmatch(r"\S+ \d\d[A-Z]{3}\d\d", line):
            flight = line.split(" ")[0]
        elif line.startswith("  "):
            legs += [] if line == "  no flight" else [line.removesuffix(" *").split()]
        elif line:
            words, legs = line.split(" "), []
            head = ["data set", "", "", ""] if line == "data set" else [" ".join(words[:-3]), *words[-3:]]
            yield flight, head, legs


def bare(field):
    """A field, of which a blank may be shown as a point."""
    return field.replace(".", " ").strip(" ")


def shown_fields(leg):
    """The first fields of the row of a leg, by its line; or of no leg."""
    if leg is None:
        return [""] * 13
    sequence, start, *times, later, service, aircraft = leg
    times = [clock(bare(word)) if len(word) == 4 else word for word in times]
    return [bare(field) for field in [sequence, start, *times, later[0], later[1], service, aircraft]]


def of_history(room, subs, day):
    """What is compared of the rows of a date: each leg with what its line shows; and where it is in the data set or, at last, in the desk,
    all of it."""
    words = ["FILE", *sorted({sub.flight for sub in subs if day in sub.dates}), date(day)]
    answer = room("history", "--csv", *words)
    found, lines = (shown.out.decode("latin-1").split("\n")[:-1] for shown in (answer, room("history", *words)))
    found, steps = list(csv.reader(found)), list(steps_of(lines))
    wanted = [[flight, day.isoformat(), *head, *leg] for flight, head, legs in steps for leg in map(shown_fields, legs or [None])]
    yield f"names of history --csv {words}", ",".join(found[0]), HISTORY_NAMES
    yield f"history --csv {words}", [row[:6] + [bare(field) for field in row[6:19]] for row in found[1:]], wanted
    room.counts["rows of history"] += len(wanted)
    for name, result, data in ("data set", "", room("tidy", "data").out), ("desk", "acted", room.exported("FILE")):
        table = Timetable(data) if data else None
        for flight in {flight for flight, _, _ in steps} if table else ():
            last = [row[2:4] for row in found if row[0] == flight and row[5] in ("", result)][-1:] if result else [["data set", ""]]
            legs = [row[6:] for row in found if row[0] == flight and row[2:4] in last]
            there = next((days for key, days in table.flights.items() if table.designator(key) == flight), {}).get(day, ())
            fields = [[field.strip(" ") for field in leg_fields(leg)] for leg in there] or [[""] * 17]
            yield f"legs of history --csv {words} in the {name}", legs, fields


def of_halves(room, subs, names, day):
    """What is compared of the dates up to a day, and of those after it."""
    whole, ends = room("findings", "FILE", *names), (["--to", date(day)], ["--from", date(day + DAY)])
    before, after = (numbers(room("findings", *end, "FILE", *names)) for end in ends)
    none = [0] * len(REASONS)
    both = {sub.name: [x + y for x, y in zip(before.get(sub.name, none), after.get(sub.name, none))] for sub in subs
            if not names or sub.flight in names}
    yield f"findings of both sides of {day}", both, numbers(whole)


def of_spans(rng, room):
    """What is compared of spans of dates."""
    desk = carry.Desk(room.read("FILE"))
    lines = room("findings", "FILE").out.decode("ascii").splitlines()
    texts = subs_of(desk, lines)
    subs = [sub for _, found in texts for sub in found]
    yield "a line for each sub-message", [sub.line(sub.whole) for sub in subs], lines
    days = sorted({day for sub in subs for day in sub.dates}) or [desk.base.first]
    for _ in range(6):
        flights = sorted({sub.flight for sub in subs}) + [desk.base.airline + "001"]
        names = rng.choices(flights, k=rng.choice([1, 2])) if rng.random() < 0.5 else []
        first = rng.choice(days) + rng.choice([-1, 0, 0, 1]) * DAY
        last = min(first + rng.choice([0, 0, 1, 6, 30, 90]) * DAY, parts.LAST)
        yield from of_span(rng, room, texts, names, rng.choice([(first, last), (first, last), (None, first), (first, None), (None, None)]))
        yield from of_halves(room, subs, names, min(rng.choice(days) + rng.choice([-1, 0, 1]) * DAY, parts.LAST - DAY))


def of_span_words(rng, room):
    """What is compared of the words of the two commands, some of which are invalid."""
    kinds = [kind for kind in parts.ORDER if kind not in ("station", "aircraft")]
    wrong = {kind for kind in kinds if rng.random() < 0.4} or {"to"}
    flights = ["Z7A"] * ("flight" in wrong) + ["XX123"] * ("airline" in wrong) + ["101"]
    rng.shuffle(flights)
    first = "32JAN27" if "from" in wrong else "2jan27"
    last = "2027-02-30" if "to" in wrong else "2027-01-01" if "turned" in wrong else "2 jan 27"
    if {"from", "to"} & wrong:
        wrong.discard("turned")
    fault = next(parts.REFUSALS[kind] for kind in kinds if kind in wrong)
    room.counts[f"span words: {fault}"] += 1
    for command in ["texts"], ["texts", "--csv"], ["findings"], ["findings", "--not-acted"]:
        words = [*command, "--from", first, "--to", last, "FILE", *flights]
        yield " ".join(words), room(*words), Answer(1, b"", f"refused {fault}\n")


# ---- boards

FIRST, LAST = datetime.date(2000, 1, 1), datetime.date(2099, 12, 31)
DIRECTIONS = {(): ("dep", "arr"), ("--departures",): ("dep",), ("--arrivals",): ("arr",)}
NO_NUMBERS = ["0", "000", "367", "999", "1000", "0007", "", "+7", " 7", "7 ", "-1", "seven", "7.0", "1e2"]


def of_kinds(lines, kinds):
    """The lines of a board that are of these kinds, or `no flight`."""
    return [line for line in lines if line.split()[1] in kinds] or ["no flight"]


def dates_from(day, count):
    """As many dates from one on, but none after the last of the calendar."""
    return [day + place * DAY for place in range(min(count, (LAST - day).days + 1))]


def boards(table, station, day, count, kinds):
    """The lines of `board`: of one date, or with a number of dates of each under a heading."""
    if count is None:
        return of_kinds(board(table, station, day), kinds)
    return blocks([[f"{station} {date(on)}", *of_kinds(board(table, station, on), kinds)] for on in dates_from(day, count)])


def mixed(rng, options, values):
    """The words of a command whose options are anywhere among the values, which keep their order."""
    found = [[value] for value in values]
    for option in options:
        found.insert(rng.randrange(len(found) + 1), option)
    return [word for words in found for word in words]


def a_place(rng, table):
    """A station and a local date: mostly of a flight or near it, or near an end of the calendar."""
    legs = [(day, leg) for days in table.flights.values() for day, found in days.items() for leg in found]
    if not legs:
        return "ZRH", datetime.date(2025, 7, 1)
    day, leg = rng.choice(legs)
    day = rng.choice([day, day, day, day, LAST - 3 * DAY, FIRST]) + rng.choice([0, 0, 1, -1, 3]) * DAY
    column = rng.choice([37, 55])
    return leg.at(column, column + 2), min(max(day, FIRST), LAST)


def of_board(rng, room, table):
    """What is compared of a station and a date."""
    (station, day), count = a_place(rng, table), rng.choice([None, 1, 2, 3, 7, 30, 366])
    spelled = [["--days", rng.choice([str(count), f"{count:03}"])]] if count else []
    answers = {}
    for option, kinds in DIRECTIONS.items():
        words = mixed(rng, [*spelled, *([word] for word in option)], ["FILE", station, date(day)])
        answers[option], wanted = room("board", *words), boards(table, station, day, count, kinds)
        room.counts["a board without lines" if set(wanted[-1:]) == {"no flight"} else "a board with lines"] += 1
        yield f"board {words}", answers[option], said(wanted)
        rows_of_kinds = [row for on in dates_from(day, count or 1) for line, row in movements(table, station, on) if line.split()[1] in kinds]
        wanted = said([BOARD_NAMES, *rows_of_kinds])
        yield f"board --csv {words}", room("board", *rng.choice([["--csv", *words], [*words, "--csv"]])), wanted
    for option in DIRECTIONS if count and count <= 7 else ():
        alone = [[f"{station} {date(on)}", *lines_of(room("board", *option, "FILE", station, date(on)))] for on in dates_from(day, count)]
        yield f"{count} dates of {station} {day} {option}", answers[option], said(blocks(alone))
    if not count:
        whole, departures, arrivals = ([line for line in lines_of(answer) if line != "no flight"] for answer in answers.values())
        yield f"directions of {station} {day}", sorted(departures + arrivals), sorted(whole)
        for lines, kind in (departures, "dep"), (arrivals, "arr"):
            yield f"order of {kind} {station} {day}", lines, [line for line in whole if line.split()[1] == kind]


def of_board_words(rng, room, table):
    """What is compared of words that are no number of dates, no station or no date, or of both directions."""
    station, day = a_place(rng, table)
    for count in rng.sample(NO_NUMBERS, k=4):
        yield f"board --days={count}", room("board", f"--days={count}", "FILE", station, date(day)).status, 2
    both = rng.sample(["--departures", "--arrivals"], k=2)
    for name in "FILE", "MISSING":
        yield f"board {both} {name}", room("board", *both, name, station, date(day)), changes.NO_COMMAND
    for option in ["--departures"], ["--arrivals"], ["--days", "7"], ["--csv"]:
        yield f"board {option} twice", room("board", *option, *option, "FILE", station, date(day)).status, 2
        words = [rng.choice([station, "ZR", "ZRHX"]), rng.choice([date(day), "32JAN27", "29FEB27"])]
        fault = "3 BadStation" if words[0] != station else "1 BadDate" if words[1] != date(day) else None
        if fault:
            yield f"board {option} {words}", room("board", *option, "FILE", *words), Answer(1, b"", f"refused {fault}\n")


# ---- info

def file_lines(data):
    """The records of a data set or a desk file, and for a desk its station rows and the model of what it holds."""
    if not data.startswith(b"SSIMDESK "):
        data = re.sub(rb"[\r\n]", b"", data)
        return [block for block in (data[at : at + 200] for at in range(0, len(data), 200)) if block != FILL], None, None
    lines = data.split(b"\n")
    count = int(lines[1].split()[1])
    return lines[2 : count + 2], int(lines[count + 2].split()[1]), carry.Desk(data)


def carrier_lines(carrier):
    """What `info` prints of a carrier record."""
    base, text = carry.base_of(carrier), carrier.decode("latin-1")
    opened = " open" * (text[21:28] == OPEN_END)
    return [f"airline {base.airline}", f"season {text[10:13].replace(' ', '.')}", f"validity {date(base.first)} {date(base.last)}{opened}",
            f"mode {'utc' if base.mode == 'UTC' else 'local'}", f"created {date(base.created)}"]


def total_lines(table):
    """What `info` prints of a timetable."""
    flown = sorted(day for days in table.flights.values() for day in days)
    stations = {leg.at(*end) for days in table.flights.values() for legs in days.values() for leg in legs for end in ((37, 39), (55, 57))}
    ends = [f"first {date(flown[0])}", f"last {date(flown[-1])}"] if flown else []
    return [f"flights {len(table.flights)}", f"stations {len(stations)}", f"dates {len(flown)}", *ends]


def of_info(room):
    """What is compared of a file."""
    answer, whole = room("info", "FILE"), room.exported("FILE")
    if whole is None:
        refusal = room("list", "FILE")
        room.counts["info of a refused file" if refusal.status else "info of a file that cannot be exported"] += 1
        yield "status as of list", (answer.status, answer.err), (refusal.status, refusal.err)
        return
    records, rows, desk = file_lines(room.read("FILE"))
    held = [f"rows {rows}", f"messages {len(desk.held)}"] if desk else []
    held += [f"latest {carry.printed(max(desk.held))}"] if desk and desk.held else []
    table = Timetable(whole)
    room.counts["info of a desk" if desk else "info of a data set"] += 1
    room.counts["info of no date"] += not table.flights
    wanted = [f"kind {'desk' if desk else 'data set'}", *carrier_lines(records[1]), f"records {len(records)}", *total_lines(table), *held]
    yield "info FILE", answer, said(wanted)


# ---- stations

GAP = 28 * DAY


def heard(table):
    """What the ends of legs say of each station on each date of origin: the UTC variations, with repetition, of the ends on that date, or else
    of all ends."""
    own, every = collections.defaultdict(list), collections.defaultdict(list)
    for days in table.flights.values():
        for day, legs in days.items():
            for leg in legs:
                for station, variation, shift in ((37, 48, 193), (55, 66, 194)):
                    said_here = leg.at(variation, variation + 4)
                    if said_here.strip():
                        place = leg.at(station, station + 2), day
                        every[place].append(said_here)
                        if leg.at(shift, shift) in "0 ":
                            own[place].append(said_here)
    return {place: own.get(place) or found for place, found in every.items()}


def station_rows(table):
    """The lines of `stations`."""
    said_by = collections.defaultdict(dict)
    for (station, day), found in heard(table).items():
        said_by[station][day] = min(set(found), key=lambda variation: (-found.count(variation), variation))
    lines = []
    for station, days in sorted(said_by.items()):
        parts = []
        for day in sorted(days):
            if parts and parts[-1][2] == days[day] and day - parts[-1][1] <= GAP:
                parts[-1][1] = day
            else:
                parts.append([day, day, days[day]])
        lines += [f"{station} {date(first)} {date(last)} {variation}" for first, last, variation in parts]
    return lines


def of_stations(room):
    """What is compared of the station table that the legs say; and `start` takes it."""
    whole = room.exported("FILE")
    if whole is None:
        room.counts["not exported"] += 1
        return
    answer, wanted = room("stations", "FILE"), station_rows(Timetable(whole))
    room.counts["stations with rows" if wanted else "stations without a row"] += 1
    yield "stations FILE", answer, said(wanted)
    room.write("mine", answer.out)
    room.write("part", whole)
    yield "start with what stations prints", room("start", "part", "mine", "new"), said(["held 0"])


def compared(rng, room, kind):
    if kind == "stations":
        yield from of_stations(room)
        return
    if kind == "notes":
        yield from notes.compared(rng, room)
        return
    if kind == "info":
        yield from of_info(room)
        return
    if kind == "spans":
        yield from of_spans(rng, room)
        return
    if kind == "span words":
        yield from of_span_words(rng, room)
        return
    if kind == "changes":
        yield from changes.of_changes(rng, room)
        return
    whole = room.exported("FILE")
    if whole is None:
        room.counts["not exported"] += 1
        return
    if kind == "words":
        yield from parts.of_words(rng, room, *rng.choice(COMMANDS))
        return
    if kind == "change words":
        yield from parts.of_words(rng, room, "diff", "FILE")
        return
    table = Timetable(whole)
    if kind == "several":
        yield from of_several(rng, room, table)
        return
    if kind == "boards":
        for _ in range(3):
            yield from of_board(rng, room, table)
        yield from of_board_words(rng, room, table)
        return
    for _ in range(3):
        yield from of_choice(rng, room, table, parts.choice(rng, table))
