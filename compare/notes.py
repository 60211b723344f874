"""The notes of `start --notes`, beside the leg records of a data set and the rows of a station table.

On a date of origin a station has the ends of the leg records whose period holds the date. Nothing here knows of itineraries. A case has a data
set of few stations, so that several legs meet at each, and a station table: rows of any dates, some over the same ones, of which the first
counts; or the table that the legs say, with rows left out, changed, cut or put twice. In a case of `start` without the option `held 0` is all
that is printed, and the desk file is the same.
"""
import collections

import messages
import small
from chapter7 import DAY, OPEN_END, date, dates_of, day_of, with_column
from room import said

NAMES = ["AMS", "ATH", "BER", "LHR", "ZRH"]
ZONES = ["     ", "+0000", "-0000", "+0100", "+0100", "+0200", "-0530"]
# Mostly the date of origin; J is the day before it.
SHIFTS = "0000  1J2A"
# How many days after its first one the validity ends that is written as open.
OPEN_DAYS = 730


# ---- what the records say

def ends(records):
    """The ends of legs at each station on each date of origin, each as its UTC variation and its date variation."""
    texts, found = [record.decode("latin-1") for record in records], collections.defaultdict(list)
    carrier = next(text for text in texts if text[0] == "2")
    close = day_of(carrier[14:21]) + OPEN_DAYS * DAY if carrier[21:28] == OPEN_END else day_of(carrier[21:28])
    for text in texts:
        if text[0] == "3":
            last = close if text[21:28] == OPEN_END else day_of(text[21:28])
            for day in dates_of(day_of(text[14:21]), last, text[28:35]):
                found[text[36:39], day].append((text[47:52], text[192]))
                found[text[54:57], day].append((text[65:70], text[193]))
    return found


def own(found):
    """The UTC variations, not blank, of the ends that are on the date of origin."""
    return [variation for variation, shift in found if variation.strip() and shift in "0 "]


def noted(records, rows):
    """The dates of each station that the table lacks, and those that it contradicts."""
    table, lacking, against = messages.Stations(rows), collections.defaultdict(list), collections.defaultdict(list)
    for (station, day), found in ends(records).items():
        known = table.at(station, day)
        if known is None:
            lacking[station].append(day)
        elif any(variation != known for variation in own(found)):
            against[station].append(day)
    return lacking, against


def notes(records, rows):
    """The lines of the notes."""
    lacking, against = noted(records, rows)
    return [f"note Station {station} {kind} {len(dates)} {date(min(dates))} {date(max(dates))}"
            for station in sorted({*lacking, *against})
            for kind, dates in (("missing", lacking.get(station)), ("other", against.get(station))) if dates]


# ---- the files of a case

def leg_of(rng, record):
    """A leg record between two of the stations, with any variations."""
    for column in (37, 55):
        record = with_column(record, column, rng.choice(NAMES))
    for column in (48, 66):
        record = with_column(record, column, rng.choice(ZONES))
    return with_column(record, 193, rng.choice(SHIFTS) + rng.choice(SHIFTS))


def any_rows(rng, season):
    """Rows of some stations; those of one station may have dates in common."""
    rows = []
    for _ in range(rng.randrange(12)):
        first = season.begin + rng.randrange(-40, 300) * DAY
        last = first + rng.choice([0, 1, 30, 200, 400]) * DAY
        rows.append(f"{rng.choice(NAMES + ['XXX'])} {date(first)} {date(last)} {rng.choice(ZONES[1:])}")
    return rows


def changed_row(rng, row):
    """A row that is left out, has another variation, is cut, is there twice, or is as it was."""
    station, first, last, variation = row.split()
    first, last = day_of(first), day_of(last)
    middle = first + (last - first) // 2
    return rng.choice([
        [row], [row], [row], [], [f"{row[:20]}{rng.choice(ZONES[1:])}"],
        [f"{station} {date(first)} {date(middle)} {variation}"],
        [f"{station} {date(first)} {date(middle)} {rng.choice(ZONES[1:])}", row],
    ])


def make(rng, room):
    """Writes the data set FILE and the station table `table`."""
    records = [leg_of(rng, record) if record[:1] == b"3" else record for record in small.data_set(rng)]
    season, _ = room.write_base(rng, "FILE", records)
    answer = room("stations", "FILE")
    room.records, room.said = records, answer.out.decode("ascii").splitlines() if answer.status == 0 else []
    if room.said and rng.random() < 0.7:
        room.rows = [changed for row in room.said for changed in changed_row(rng, row)]
    else:
        room.rows = any_rows(rng, season)
    room.write("table", messages.written(room.rows))


# ---- what is compared

def started(rng, room, table, rows):
    """`start` without and with notes, which are there before the last line."""
    wanted = notes(room.records, rows)
    for kind in ("missing", "other"):
        room.counts[f"notes: {kind}"] += sum(f" {kind} " in line for line in wanted)
    room.counts["start without a note"] += not wanted
    yield f"start {table}", room("start", "FILE", table, "plain"), said(["held 0"])
    words = ["FILE", table, "desk"]
    words.insert(rng.randrange(4), "--notes")
    yield f"start --notes {table}", room("start", *words), said([*wanted, "held 0"])
    yield f"desk of {table}", room.read("desk"), room.read("plain")


def of_law(records, rows):
    """With the table that the legs say: the dates that it lacks although they say something, and those that it contradicts alone."""
    lacking, against = noted(records, rows)
    found = ends(records)
    spoken = [(station, day) for station, days in lacking.items() for day in days if any(v.strip() for v, _ in found[station, day])]
    alone = [(station, day) for station, days in against.items() for day in days if len(set(own(found[station, day]))) < 2]
    return spoken, alone


def compared(rng, room):
    yield from started(rng, room, "table", room.rows)
    if room.said:
        room.write("said", messages.written(room.said))
        yield from started(rng, room, "said", room.said)
        yield "a table that the legs say", of_law(room.records, room.said), ([], [])
