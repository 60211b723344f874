#!/usr/bin/env python3
"""Writes a large data set of realistic shape: large.py RECORDS FILE [SEED]

Flights of two legs with twelve itinerary variations over a summer season, four segment records for five leg records,
in order, LF after each record, each serial and the check reference right.
"""
import datetime
import random
import sys

from chapter7 import blocks_of_season, carrier, clock, date, days, header, trailer, write

FIRST = datetime.date(2025, 3, 30)
LAST = datetime.date(2025, 10, 25)
CREATED = datetime.date(2025, 2, 1)
VARIATIONS = 12
LEGS = 2
AIRCRAFT = ["319", "320", "321", "32N", "333", "343", "359", "77W", "AT7", "E90", "CR9", "223"]
BOOKING = ["CY", "FCY", "Y", "JCY", "CDZPIJYBMUHQVWSTELK"]
CONFIGURATION = ["C12Y138", "C20Y160", "F8C40Y180", "Y78", "C28Y240", ""]


def variation_text(minutes):
    return f"{'-' if minutes < 0 else '+'}{abs(minutes) // 60:02}{abs(minutes) % 60:02}"


def stations(rng, count):
    names = set()
    while len(names) < count:
        names.add("".join(rng.choice("ABCDEFGHIJKLMNOPRSTUVWXYZ") for _ in range(3)))
    return [(name, rng.choice([0, 60, 60, 120, 180, 330, -300, -480])) for name in sorted(names)]


def leg_columns(rng, route, start):
    """Columns 37 to 194 of the legs of one itinerary."""
    aircraft, booking, configuration = rng.choice(AIRCRAFT), rng.choice(BOOKING), rng.choice(CONFIGURATION)
    found, at = [], start
    for (board, board_zone), (off, off_zone) in zip(route, route[1:]):
        arrival = at + 45 + 5 * rng.randrange(20)
        found.append(
            f"{board}{clock(at)}{clock(at)}{variation_text(board_zone + 60)}1 "
            f"{off}{clock(arrival)}{clock(arrival)}{variation_text(off_zone + 60)}2 "
            f"{aircraft}{booking:<20}{'':<33}LX{'':<7}{rng.choice(['', 'OS', 'LH']):<35}"
            f"{configuration:<20}{at // 1440}{arrival // 1440}"
        )
        at = arrival + 50
    return found


def flight_records(rng, number, suffix, places):
    """The records of a flight, as text without their serials."""
    route = rng.sample(places, LEGS + 1)
    if rng.random() < 0.6:
        route[2] = route[0]
    legs, found, begins = None, [], rng.randrange(300, 1200)
    total = (LAST - FIRST).days + 1
    for variation, (first, last, mask) in enumerate(blocks_of_season(rng, FIRST, total, VARIATIONS), 1):
        if legs is None or rng.random() < 0.7:
            legs = leg_columns(rng, route, begins + 5 * rng.randrange(-6, 7))
        name = f"{suffix}LX {number:04}{variation:02}"
        when = f"{date(first)}{date(last)}{days(mask)}"
        for sequence, columns in enumerate(legs, 1):
            found.append(f"3{name}{sequence:02}J{when} {columns}")
            ends = "ABCD"[sequence - 1 : sequence + 1]
            pair = route[sequence - 1][0] + route[sequence][0]
            for identifier in rng.choice([(), (), (10,), (10,), (10, 50)]):
                data = f"LH {4000 + number % 1000:04} /OPERATED AS {identifier}"
                found.append(f"4{name}{sequence:02}J{'':13} {ends}{identifier:03}{pair}{data:<155}")
    return found


def records(wanted, seed=1):
    """The records of whole flights, some more than are wanted."""
    rng = random.Random(seed)
    places, flight, count = stations(rng, 150), 0, 2
    yield header()
    yield carrier("LX ", date(FIRST), date(LAST), date(CREATED))
    while count < wanted - 1:
        turn, number = divmod(flight, 9999)
        lines = flight_records(rng, number + 1, " ABCDEFGHIJKLMNOPQRSTUVWXYZ"[turn], places)
        yield from (line.encode("ascii").ljust(200) for line in lines)
        flight, count = flight + 1, count + len(lines)
    yield trailer("LX ", date(CREATED), 0)


def main():
    if len(sys.argv) not in (3, 4):
        sys.exit(__doc__)
    print(f"{sys.argv[2]}: {write(sys.argv[2], records(*map(int, sys.argv[1:2] + sys.argv[3:])))} records")


if __name__ == "__main__":
    main()
