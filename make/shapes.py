#!/usr/bin/env python3
"""Writes data sets of shapes that real files have beside that of large.py: shapes.py SHAPE FILE [COUNT]

- `dates`: one record a date: 180,000 leg records, 180 of them a flight, of two aircraft types in turn.
- `weeks`: weekly strips: 180,000 leg records of 15,000 flights in no order, a record for each of four weekdays and of three parts of the
  season, weekday after weekday. Some weekdays have other times.
- `legs`: long itineraries: 891,000 leg records, of 9,000 flights of leg sequences 1 to 99 over one period.
- `sequence`: one flight with 238,000 legs of one day: seven leg sequences, each on 34,000 dates, the last date first.
- `itineraries`: one flight on 4,500 dates, with other times on each.
- `hubs`: 5,000 flights, most of them to or from one of three hubs, each with some 19 periods of other days and times.

COUNT is another number of flights, or of the dates of one flight.
"""
import datetime
import random
import sys

from chapter7 import DAY, carrier, clock, date, days, header, trailer, weekday_bit, with_column, write

FIRST, LAST, CREATED = datetime.date(2025, 3, 30), datetime.date(2025, 10, 25), datetime.date(2025, 2, 1)
SEASON, CENTURY = (FIRST, LAST), (datetime.date(2000, 1, 1), datetime.date(2099, 12, 31))


def leg_line(flight, sequence, first, last, operates, aircraft="320", variation=1, start=0):
    """A leg record without its serial. It flies from the station of its leg sequence to the next one, at `start` minutes after the time
    of its leg sequence."""
    suffix, number = divmod(flight, 9999)
    stations = [f"{chr(65 + place // 26)}{chr(65 + place % 26)}X" for place in (sequence, sequence + 1)]
    time = clock(sequence * 13 + start)
    line = (f"3{' ABCDEFGHIJKLMNOPQRSTUVWXYZ'[suffix]}LX {number + 1:04}{variation:02}{sequence:02}J{first}{last}{operates} "
            f"{stations[0]}{time}{time}+0200  {stations[1]}{time}{time}+0200  {aircraft}CY")
    return f"{line:<172}{'C12Y138':<20}00".encode("ascii")


def dates(flights=1_000):
    """One record a date."""
    names = [(date(FIRST + place * DAY), days(weekday_bit(FIRST + place * DAY))) for place in range(180)]
    for flight in range(flights):
        for place, (name, operates) in enumerate(names):
            yield leg_line(flight, 1, name, name, operates, "319" if (place + flight) // 45 % 2 else "320")


def weeks(flights=15_000):
    """Weekly strips."""
    rng = random.Random(1)
    parts = [(FIRST + place * 70 * DAY, FIRST + (place * 70 + 69) * DAY) for place in range(3)]
    for flight in rng.sample(range(flights), flights):
        for place, weekday in enumerate(sorted(rng.sample(range(7), 4))):
            start, aircraft = rng.choice([0, 0, 0, 25]), rng.choice(["320", "320", "320", "321"])
            for part, (first, last) in enumerate(parts):
                operates = [first + day * DAY for day in range(70) if (first + day * DAY).weekday() == weekday]
                yield leg_line(flight, 1, date(operates[0]), date(operates[-1]), days(1 << weekday), aircraft, place * 3 + part + 1,
                               start + 60 * (part == 1))


def legs(flights=9_000):
    """Itineraries of 99 legs."""
    for flight in range(flights):
        operates = days(1 + flight * 37 % 127)
        for sequence in range(1, 100):
            yield leg_line(flight, sequence, date(FIRST), date(LAST), operates)


def sequence(count=34_000):
    """One flight with many dates."""
    first = datetime.date(2000, 1, 3)
    names = [(date(first + place * DAY), days(weekday_bit(first + place * DAY))) for place in reversed(range(count))]
    for number in range(1, 8):
        for name, operates in names:
            yield leg_line(0, number, name, name, operates)


def itineraries(count=4_500, later=0):
    """One flight with another itinerary on each date: no two dates have the same times."""
    for place in range(count):
        day = CENTURY[0] + place * DAY
        line = leg_line(0, 1, date(day), date(day), days(weekday_bit(day))).decode("ascii")
        start, end = clock(place % 1_440), clock((place // 1_440 * 17 + place + 60 + later) % 1_440)
        yield f"{line[:39]}{start}{start}{line[47:57]}{end}{end}{line[65:]}".encode("ascii")


def hubs(flights=5_000):
    """Flights to and from hubs, each with many periods."""
    rng = random.Random(2)
    stations = [f"{chr(65 + place // 26)}{chr(65 + place % 26)}Q" for place in range(60)]
    for flight in range(flights):
        hub = rng.choice(stations[:3] if rng.random() < 0.7 else stations)
        ends = rng.sample([hub, rng.choice([name for name in stations if name != hub])], 2)
        begin, flown = 5 * rng.randrange(66, 262), 5 * rng.randrange(12, 120)
        edges = [0, *sorted(rng.sample(range(7, 203), 19)), 210]
        for place, (first, end) in enumerate(zip(edges, edges[1:])):
            mask = rng.randrange(1, 128)
            operates = [FIRST + day * DAY for day in range(first, end) if mask & weekday_bit(FIRST + day * DAY)]
            if not operates:
                continue
            start = begin + rng.choice([0, 0, 0, 10, -15, 40])
            line = leg_line(flight, 1, date(operates[0]), date(operates[-1]), days(mask), rng.choice(["320", "320", "321", "738"]), place + 1)
            times = [clock(start), clock(start + flown)]
            for column, text in ((37, ends[0]), (40, times[0] * 2), (55, ends[1]), (58, times[1] * 2)):
                line = with_column(line, column, text)
            yield line


# The leg records of each shape, and the season of its carrier.
SHAPES = {"dates": (dates, SEASON), "weeks": (weeks, SEASON), "legs": (legs, SEASON), "sequence": (sequence, CENTURY),
          "itineraries": (itineraries, CENTURY), "hubs": (hubs, SEASON)}


def records(shape, *counts, change=iter):
    """The records of a data set of this shape, with its leg records changed."""
    lines, (first, last) = SHAPES[shape]
    yield header()
    yield carrier("LX ", date(first), date(last), date(CREATED))
    yield from change(lines(*counts))
    yield trailer("LX ", date(CREATED), 0)


def main():
    if len(sys.argv) not in (3, 4) or sys.argv[1] not in SHAPES:
        sys.exit(__doc__)
    print(f"{sys.argv[2]}: {write(sys.argv[2], records(sys.argv[1], *map(int, sys.argv[3:])))} records")


if __name__ == "__main__":
    main()
