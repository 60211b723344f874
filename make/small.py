#!/usr/bin/env python3
"""Writes small data sets, half of them with one thing broken: small.py COUNT FOLDER [SEED]

They have several legs, itinerary variations, gaps in leg sequences, open ends, fill, LF and CR LF, odd spellings,
segment records and high bytes. FOLDER/001, 002, .. are the data sets; FOLDER/kinds says of each what is broken.
"""
import datetime
import os
import random
import sys

from chapter7 import DAY, FILL, OPEN_END, blocks_of_season, carrier, date, days, header, leg, segment, trailer, with_column, with_serial

LETTERS = "ABCDEFGHIJKLMNOPQRSTUVWXYZ"


def number_spelt(rng, number, width):
    """A number in so many columns, with blanks or zeros before it, or blanks after it."""
    text = str(number)
    room = width - len(text)
    before = rng.randrange(room + 1)
    return rng.choice([text.rjust(width, "0"), " " * before + text + " " * (room - before)])


def days_spelt(rng, mask):
    """The digits in their places, or with blanks anywhere."""
    digits = [c for c in days(mask) if c != " "]
    if rng.random() < 0.7:
        return days(mask)
    spots = sorted(rng.sample(range(7), len(digits)))
    text = [" "] * 7
    for spot, digit in zip(spots, digits):
        text[spot] = digit
    return "".join(text)


def carried(rng, count):
    """Carried bytes: mostly blank or letters, now and then high."""
    kinds = rng.random()
    if kinds < 0.5:
        return b" " * count
    if kinds < 0.9:
        return bytes(rng.choice(b"ABC XYZ0189/-.") for _ in range(count))
    return bytes(rng.choice([rng.randrange(32, 127), rng.randrange(128, 256)]) for _ in range(count))


def clock(rng):
    return "2400" if rng.random() < 0.05 else f"{rng.randrange(24):02}{rng.randrange(60):02}"


def zone(rng):
    return rng.choice(["     ", "+0200", "-0530", "+0000", "-0000", "+1500"])


def leg_columns(rng):
    board, off = ("".join(rng.choice(LETTERS) for _ in range(3)) for _ in range(2))
    return [(36, rng.choice(" 1")), (37, board), (40, rng.choice(["    ", clock(rng)])), (44, clock(rng)),
            (48, zone(rng)), (53, carried(rng, 2)), (55, off), (58, clock(rng)), (62, rng.choice(["    ", clock(rng)])),
            (66, zone(rng)), (71, carried(rng, 2)), (73, rng.choice(["320", "77W", "   "])), (76, carried(rng, 20)),
            (96, carried(rng, 32)), (128, rng.choice(" 0")), (129, carried(rng, 44)), (173, carried(rng, 20)),
            (193, rng.choice(["00", "01", "  ", "A1"]))]


def segment_columns(rng):
    return [(14, carried(rng, 1)), (15, carried(rng, 13)), (28, rng.choice(" 0")), (29, rng.choice(["AB", "BC"])),
            (31, f"{rng.randrange(1, 999):03}"), (40, carried(rng, 155))]


def flight_records(rng, airline, number, suffix, season, carrier_end):
    """The leg and segment records of a flight. Each leg sequence has periods of its own, none with a common day."""
    flight = (suffix, airline, number_spelt(rng, number, 4))
    first, total = season
    if total > 100 and rng.random() < 0.05:
        return single_dates(rng, flight, first)
    if rng.random() < 0.03:
        return many_dates(rng, flight, first)
    if rng.random() < 0.05:
        return repeated_legs(rng, flight, first)
    found = []
    for sequence in rng.choice([[1], [1], [1, 2], [1, 2, 3], [2, 5], [3, 1], [99, 1, 7]]):
        found += sequence_records(rng, flight, sequence, first, total, carrier_end)
    return found


def single_dates(rng, flight, first):
    """A date each with a leg of its own: as many itinerary variations as may be, or one more."""
    found = []
    for place in range(rng.choice([99, 100])):
        day = date(first + place * DAY)
        columns = leg_columns(rng) + [(40, f"{place // 60:02}{place % 60:02}")]
        found.append(leg(flight, "01", "01", day, day, "1234567", columns))
    return found


def many_dates(rng, flight, first):
    """A date each, of a few legs in turn: fewer dates than a list of periods may have, or more; rising, falling or in any order."""
    legs = [leg_columns(rng) for _ in range(rng.choice([1, 2, 3]))]
    run = rng.choice([1, 7, 45])
    places = list(range(rng.choice([47, 49, 120, 511, 513, 560])))
    rng.choice([lambda: None, places.reverse, lambda: rng.shuffle(places)])()
    found = []
    for place in places:
        day = date(first + place * DAY)
        found.append(leg(flight, "01", "01", day, day, "1234567", legs[place // run % len(legs)]))
    return found


def repeated_legs(rng, flight, first):
    """A date each, of legs that mostly repeat those of the date before: else with a leg fewer, a leg of other columns or another segment."""
    legs = [(sequence, leg_columns(rng), [segment_columns(rng) for _ in range(rng.choice([0, 1, 2]))]) for sequence in (1, 2, 5)]
    found = []
    for place in range(rng.choice([3, 20, 70])):
        day = date(first + place * DAY)
        change, changed = rng.choice(["none"] * 6 + ["fewer", "columns", "segment"]), rng.randrange(3)
        for index, (sequence, columns, segments) in enumerate(legs):
            if (change, index) == ("fewer", changed):
                continue
            here = leg_columns(rng) if (change, index) == ("columns", changed) else columns
            found.append(leg(flight, "01", f"{sequence:02}", day, day, "1234567", here))
            more = [segment_columns(rng)] if (change, index) == ("segment", changed) else []
            found += [segment(flight, "01", f"{sequence:02}", one) for one in segments + more]
    return found


def sequence_records(rng, flight, sequence, first, total, carrier_end):
    found = []
    columns = leg_columns(rng)
    for begin, end, mask in blocks_of_season(rng, first, total, rng.randrange(1, 7)):
        if rng.random() < 0.15:
            continue
        if rng.random() < 0.6:
            columns = leg_columns(rng)
        variation = number_spelt(rng, rng.choice([0, 1, 1, 2, 3, 99]), 2)
        place = number_spelt(rng, sequence, 2)
        last = OPEN_END if end == carrier_end and rng.random() < 0.4 else date(end)
        found.append(leg(flight, variation, place, date(begin), last, days_spelt(rng, mask), columns))
        for _ in range(rng.choice([0, 0, 1, 2])):
            found.append(segment(flight, variation, place, segment_columns(rng)))
    return found


def data_set(rng):
    """The records of a data set that stands, without serials."""
    first = datetime.date(2024, 1, 1) + rng.randrange(900) * DAY
    total = rng.randrange(20, 400)
    airline = rng.choice(["LX ", "U2 ", "9W ", "SWR"])
    open_ended = rng.random() < 0.3
    last = first + (730 if open_ended else total - 1) * DAY
    created = first - rng.randrange(200) * DAY
    start = last - (total - 1) * DAY
    found = [header(), carrier(airline, date(first), OPEN_END if open_ended else date(last), date(created), rng.choice("UL"))]
    names = {(rng.choice([0, 7, 44, 544, 9999]), rng.choice("   AZ")) for _ in range(rng.randrange(0, 5))}
    flights = [flight_records(rng, airline, number, suffix, (start, total), last) for number, suffix in sorted(names)]
    if rng.random() < 0.3:
        rng.shuffle(flights)
    for records in flights:
        found += records
    found.append(trailer(airline, date(created), 0, "E"))
    return found


def numbered(rng, records):
    """Serials and check reference, a few of them wrong, which is a note."""
    found, serial = [], 0
    for line in records:
        serial = serial + 1 if rng.random() < 0.97 else rng.randrange(1_000_000)
        if line[:1] == b"5":
            check = serial - 1 if rng.random() < 0.9 else rng.randrange(1_000_000)
            line = line[:187] + f"{max(check, 0):06}".encode("ascii") + line[193:]
        found.append(with_serial(line, serial))
    return found


def laid_out(rng, records):
    """The records with line ends and fill."""
    end = rng.choice([b"", b"\n", b"\n", b"\r\n", b"\n\n", None])
    filled = rng.random() < 0.4
    found = bytearray()
    for line in records:
        found += line + (rng.choice([b"", b"\n", b"\r\n", b"\n\r\n"]) if end is None else end)
        while filled and rng.random() < 0.4:
            found += FILL + (b"\n" if end is None else end)
    return bytes(found)


def file_bytes(rng, records):
    """The bytes of a data set, numbered and laid out."""
    return laid_out(rng, numbered(rng, records))


# ---- one thing broken

FIELDS = [("airline", 3, ["BA ", "12 ", "L  ", "lx "]), ("number", 6, ["12A4", "    ", "1 2 "]),
          ("sequence", 12, ["00", "  ", "1A"]), ("variation", 10, ["  ", "A1"]), ("days", 29, ["       ", "7654321", "11     "]),
          ("start", 15, ["31FEB25", "01JAN2A", OPEN_END, "31DEC99"]), ("end", 22, ["01JAN00", "30FEB25", OPEN_END]),
          ("rate", 36, ["2", "7"]), ("station", 37, ["Z1H", "   "]), ("time", 44, ["2401", "    ", "0060"]),
          ("zone", 48, ["+1501", "+00 0", "+0160"]), ("overflow", 128, ["1", "A"]), ("control", 140, [b"\x07", b"\x7f", b"\n"]),
          ("suffix", 2, ["a", "1"]), ("type", 1, ["0", "6", "2", "1", "5", "4", "3"]), ("serial", 195, ["00000A", "      "]),
          ("code", 194, ["C", "X"]), ("check", 188, ["00000 "])]


def break_record(rng, records):
    name, column, texts = rng.choice(FIELDS)
    fitting = [i for i, line in enumerate(records) if name not in ("code", "check") or line[:1] == b"5"]
    place = rng.choice(fitting)
    records = list(records)
    records[place] = with_column(records[place], column, rng.choice(texts))
    return f"{name} of record {place + 1}", records


def break_order(rng, records):
    records = list(records)
    place = rng.randrange(len(records))
    kind = rng.choice(["missing", "twice", "moved", "after the end"])
    if kind == "missing":
        del records[place]
    elif kind == "twice":
        records.insert(place, records[place])
    elif kind == "moved":
        line = records.pop(place)
        records.insert(rng.randrange(len(records) + 1), line)
    else:
        records.append(records[place])
    return f"record {place + 1} {kind}", records


def break_bytes(rng, data):
    kind = rng.choice(["cut", "cut", "byte", "line end before", "carriage return", "empty"])
    if kind == "cut":
        return kind, data[: rng.randrange(max(len(data), 1))]
    if kind == "byte":
        place = rng.randrange(len(data))
        return kind, data[:place] + bytes([rng.randrange(256)]) + data[place + 1 :]
    if kind == "line end before":
        return kind, rng.choice([b"\n", b"\r\n"]) + data
    if kind == "carriage return":
        place = min(len(data), 201 * rng.randrange(1, 4))
        return kind, data[:place] + b"\r" + data[place:]
    return kind, b""


def changed(rng, records):
    """The records with some legs changed or gone."""
    found, gone = [], set()
    share = rng.choice([0.02, 0.2, 0.7])
    for line in records:
        if line[:1] in b"34" and line[1:13] in gone:
            continue
        if line[:1] == b"3" and rng.random() < share:
            if rng.random() < 0.3:
                gone.add(line[1:13])
                continue
            for column, text in rng.sample(leg_columns(rng), rng.choice([1, 1, 3])):
                line = with_column(line, column, text)
        elif line[:1] == b"4" and rng.random() < share:
            line = with_column(line, 40, carried(rng, 155))
        found.append(line)
    return found


def made(rng, broken):
    """What is broken, and the bytes of a data set."""
    records = data_set(rng)
    choice = rng.random() if broken else None
    if choice is None:
        return "nothing", file_bytes(rng, records)
    if choice < 0.5:
        kind, records = break_record(rng, numbered(rng, records))
        return kind, laid_out(rng, records)
    if choice < 0.85:
        kind, records = break_order(rng, records)
        return kind, file_bytes(rng, records)
    return break_bytes(rng, file_bytes(rng, records))


def main():
    if len(sys.argv) not in (3, 4):
        sys.exit(__doc__)
    rng = random.Random(int(sys.argv[3]) if len(sys.argv) == 4 else 1)
    os.makedirs(sys.argv[2], exist_ok=True)
    with open(os.path.join(sys.argv[2], "kinds"), "w", encoding="ascii") as kinds:
        for number in range(1, int(sys.argv[1]) + 1):
            kind, data = made(rng, number % 2 == 0)
            with open(os.path.join(sys.argv[2], f"{number:03}"), "wb") as out:
                out.write(data)
            kinds.write(f"{number:03} {kind}\n")


if __name__ == "__main__":
    main()
