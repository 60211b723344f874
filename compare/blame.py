"""`blame` beside a plain model of which sub-message acted last on each date.

A case has a data set and a desk of it with some messages. For each flight and date by itself the model goes through the sub-messages in order
of reference, and finds whether each acts: by the stations of the legs that the flight then has, and by the rows of the station table. What
`blame` prints, as lines and as CSV, has to follow from the last that acted; and it has to agree with `history` on some dates, and with the
flight dates of `export`, where a flight flies exactly if the last one that acted was no `CNL`. In a case of `data set` FILE is the data set,
and in a case of `words` some words are invalid.
"""
import re

import carry
import messages
import parts
import small
from chapter7 import DAY, date, dates_of, day_of
from flight_dates import Timetable, cells, divided, period_fields, period_line
from room import Answer, said

KINDS = ["desk", "desk", "desk", "data set", "words"]
NAMES = "flight,first,last,days,reference,sub,action"
LEG = re.compile(r"([A-Z]{3})\d{4}\S* ([A-Z]{3})\d{4}")
# The most dates of a case on which `history` is asked.
ASKED = 12


def make(rng, room, kind):
    """Writes the data set `data`, and FILE: a desk of it with some messages, or the data set."""
    season, _ = room.write_base(rng, "data", small.data_set(rng))
    if kind == "data set":
        room.copy("data", "FILE")
        return kind
    room("start", "data", "stations", "FILE")
    for _ in range(rng.choice([1, 4, 8, 16])):
        room.write("text", messages.written(messages.message(rng, season)))
        room("take", "FILE", "FILE", "text")
    return kind


# ---- the plain model

def has_variation(rows, station, day):
    return any(row[0] == station and day_of(row[1]) <= day <= day_of(row[2]) for row in rows)


def effect(rows, action, pairs, legs, day):
    """The stations of the legs after a sub-message on a date, or None if it does not act. `pairs` are those of its leg lines."""
    known = all(has_variation(rows, station, day) for pair in pairs for station in pair)
    if action == "NEW":
        return pairs if not legs and known else None
    if not legs:
        return None
    if action == "RPL":
        return pairs if known else None
    if action == "TIM":
        return legs if all(pair in legs for pair in pairs) else None
    return [] if action == "CNL" else legs


def subs_of(desk):
    """The sub-messages of a desk in order: flight, dates, the fields that name it, its action, and the stations of its leg lines."""
    for reference, text in sorted(desk.held.items()):
        body = text.decode("ascii").split("\n")[:-1]
        body = body[4:] if body[0].startswith(".") else body[3:]
        written = [part.split("\n") for part in "\n".join(body).split("\n//\n")]
        written = [part for part in written if not part[0].startswith("SI")]
        for place, (lines, sub) in enumerate(zip(written, carry.meant(desk.base, text).subs)):
            flight, first, last, days = sub
            name = (carry.printed(reference), str(place + 1), lines[0])
            pairs = [found.groups() for found in map(LEG.match, lines[2:]) if found]
            yield flight, set(dates_of(first, last, days)), name, lines[0], pairs


def makers(rows, table, subs):
    """For each flight, by its designator without the airline, the last sub-message that acted on each date, or `data set`; and whether
    it flies."""
    flights = {table.designator(key)[len(table.airline):]: days for key, days in table.flights.items()}
    flights.update({sub[0]: {} for sub in subs if sub[0] not in flights})
    found = {}
    for flight, days in flights.items():
        own = [sub for sub in subs if sub[0] == flight]
        found[flight] = {}
        for day in sorted(set(days).union(*(sub[1] for sub in own))):
            legs = [(leg.at(37, 39), leg.at(55, 57)) for leg in days.get(day, ())]
            by = ("data set", "", "") if legs else None
            for _, dates, name, action, pairs in own:
                after = effect(rows, action, pairs, legs, day) if day in dates else None
                if after is not None:
                    legs, by = after, name
            if by:
                found[flight][day] = by, bool(legs)
    return found


# ---- what is compared

def by_number(flight):
    """The place of a flight in order: its number, then its suffix."""
    number, suffix = re.fullmatch(r"(\d+)([A-Z]?)", flight).groups()
    return int(number), suffix


def printed(airline, found, flights):
    """The lines of `blame` and of `blame --csv`."""
    lines, rows = [], [NAMES]
    for flight in sorted(set(flights), key=by_number):
        name, days = airline + flight, {day: by for day, (by, _) in found.get(flight, {}).items()}
        lines += [] if days else [f"{name} no flight"]
        for period, day in divided(days):
            lines.append(f"{period_line(name, period)} {' '.join(days[day]).strip()}")
            rows.append(cells([*period_fields(name, period), *days[day]]))
    return lines, rows


def last_acted(lines):
    """The maker of a date by the lines of `history`, or None."""
    acted = [tuple(line.rsplit(" ", 3)[:3]) for line in lines if line.startswith(("SSM ", "ASM ")) and line.endswith(" acted")]
    if acted:
        return acted[-1]
    return None if lines[2:3] == ["  no flight"] else ("data set", "", "")


def compared(rng, room, kind):
    if kind == "words":
        yield from of_words(rng, room)
        return
    data = room("tidy", "data")
    if data.status or room.read("FILE") is None:
        room.counts["refused data sets"] += 1
        return
    table = Timetable(data.out)
    subs = list(subs_of(carry.Desk(room.read("FILE")))) if kind == "desk" else []
    rows = [line.split() for line in room.read("stations").decode("ascii").splitlines()]
    found = makers(rows, table, subs)
    flights = rng.sample([*found, "001"], k=rng.randrange(1, len(found) + 2))
    names = [table.airline + flight for flight in flights]
    lines, csv = printed(table.airline, found, flights)
    room.counts["lines of sub-messages"] += sum(not line.endswith(("data set", "no flight")) for line in lines)
    room.counts["lines of the data set"] += sum(line.endswith("data set") for line in lines)
    yield f"blame {names}", room("blame", "FILE", *names), said(lines)
    yield f"blame --csv {names}", room("blame", *rng.choice([["--csv", "FILE", *names], ["FILE", *names, "--csv"]])), said(csv)
    left = room.exported("FILE")
    if left is not None:
        there = {key: days for key, days in Timetable(left).flights.items() if days}
        there = {table.designator(key)[len(table.airline):]: set(days) for key, days in there.items()}
        for flight in flights:
            flown = {day for day, (by, _) in found.get(flight, {}).items() if by[2] != "CNL"}
            yield f"dates of {flight} without CNL", sorted(flown), sorted(there.get(flight, ()))
            room.counts["dates beside export"] += len(flown)
    dates = [(flight, day) for flight in flights for day in found.get(flight, {})]
    dates += [(flight, day + rng.choice([-1, 1]) * DAY) for flight, day in dates[:2]]
    dates = [pair for pair in dates if parts.FIRST <= pair[1] <= parts.LAST]
    for flight, day in rng.sample(dates, k=min(ASKED, len(dates))):
        answer = room("history", "FILE", table.airline + flight, date(day)).out.decode("ascii").splitlines()
        by = found.get(flight, {}).get(day, (None,))[0]
        yield f"history of {flight} {day}", last_acted(answer), by
        room.counts["dates beside history"] += 1


def of_words(rng, room):
    """What is compared of words of which some are invalid: the file comes first, then a word that is no flight, then the airline."""
    room.write("text", b"ZRH 01JAN27 31DEC27 +0100\n")
    wrong = {kind for kind in ("file", "flight", "airline") if rng.random() < 0.5} or {"flight"}
    flights = ["Z7A"] * ("flight" in wrong) + ["XX123"] * ("airline" in wrong) + ["101"]
    rng.shuffle(flights)
    fault = "62 DeskFile offset 0" if "file" in wrong else "6 BadDesignator" if "flight" in wrong else "41 Airline sub 0"
    room.counts[f"words: {fault}"] += 1
    words = ["blame", *rng.choice([[], ["--csv"]]), "text" if "file" in wrong else "FILE", *flights]
    yield " ".join(words), room(*words), Answer(1, b"", f"refused {fault}\n")
