"""`problems` beside what `check` of another program refuses, one record after another.

Each data set is broken in up to eight places. What `problems` has to print is found with the peer's `check` alone: the record that it
refuses is replaced by fill, which is counted and skipped, until it refuses none. After an invalid header or carrier record each later
record is checked in a data set of its own, behind a header and a carrier record of its airline.
"""
import re

import small
from chapter7 import FILL, carrier, header, with_serial
from room import said

KINDS = ["broken"]
REFUSED = re.compile(r"refused (\d+ \w+ record (\d+)(?: column \d+)?)\n")

# Refusals of a record's own columns; 33, 34 and 35 are those of records before it.
OWN = {"11", "12", "36", "37", "38"}


def refusal(peer, data):
    """The line of the peer's refusal without its first word, and its record; or None."""
    peer.write("checked", data)
    answer = peer("check", "checked")
    found = REFUSED.fullmatch(answer.err)
    if (answer.status == 1) != bool(found):
        raise ValueError(f"check ended with {answer}")
    return (found.group(1), int(found.group(2))) if found else None


def places_of(data):
    """Where the blocks of 200 bytes begin, and whether bytes are left."""
    places, at = [], 0
    while len(data) - at >= 200:
        places.append(at)
        at += 200
        while data[at : at + 1] == b"\n" or data[at : at + 2] == b"\r\n":
            at += 1 if data[at : at + 1] == b"\n" else 2
    return places, at < len(data)


def refused_alone(peer, block):
    """The refusal of a record by its own columns, behind records of its airline; or None."""
    airline = block[2:5] if block[:1] in b"345" else b"LX "
    one = with_serial(header(), 1)
    two = with_serial(carrier(airline, "01JAN00", "31DEC99", "01JAN00"), 2)
    if refusal(peer, one + two)[1] == 2:
        two = with_serial(carrier("LX ", "01JAN00", "31DEC99", "01JAN00"), 2)
    data = {b"1": block, b"2": one + block}.get(block[:1], one + two + block)
    found = refusal(peer, data)
    if not found or found[1] != len(data) // 200 or found[0].split()[0] not in OWN:
        return None
    is_open_end = block[:1] == b"3" and found[0].endswith("column 22") and block[21:28] == b"00XXX00"
    return None if is_open_end else found[0].partition(" record")[0] + found[0].partition(f" record {found[1]}")[2]


def numbered(line, number):
    """The line of a refusal of a record by its own columns, with the record's number."""
    fault, name, *column = line.split(" ", 2)
    return " ".join([fault, name, "record", str(number), *column])


def expected(peer, data):
    """The lines that `problems` has to print."""
    places, cut = places_of(data)
    blocks = [data[at : at + 200] for at in places]
    count, lines, left = sum(block != FILL for block in blocks), [], bytearray(data)
    while found := refusal(peer, bytes(left)):
        line, number = found
        if number > len(places):
            is_end = line.startswith("32 ") and any(block[:1] == b"5" for block in blocks)
            lines += [] if is_end else [line]
            break
        lines.append(line)
        valid = [at for at in places[: number - 1] if left[at : at + 200] != FILL]
        left[places[number - 1] : places[number - 1] + 200] = FILL
        if len(valid) < 2:
            later = [(k + 1, blocks[k]) for k in range(number, len(blocks)) if blocks[k] != FILL]
            alone = [(k, refused_alone(peer, block)) for k, block in later]
            lines += [numbered(found, k) for k, found in alone if found]
            lines += [f"10 Short record {len(blocks) + 1}"] if cut else []
            break
    return [*lines, f"records {count} problems {len(lines)}"]


def broken(rng):
    """A data set that is broken in some places."""
    records = small.data_set(rng)
    for _ in range(rng.choice([0, 1, 1, 2, 3, 8])):
        if not records:
            break
        has_trailer = any(line[:1] == b"5" for line in records)
        choose = small.break_record if has_trailer and rng.random() < 0.7 else small.break_order
        _, records = choose(rng, records)
    data = small.file_bytes(rng, records)
    if rng.random() < 0.15:
        _, data = small.break_bytes(rng, data)
    return data


def make(rng, room, _):
    data = broken(rng)
    room.write("data", data)
    return data


def as_row(line):
    """A line of `problems` as a row of CSV."""
    number, name, *place = line.split(" ")
    return ",".join([number, name, *place[1::2], *[""] * (2 - len(place) // 2)])


def compared(_, room, data):
    wanted = expected(room.peer, data)
    room.counts["problems"] += len(wanted) - 1
    yield "problems", room("problems", "data"), said(wanted)
    yield "problems --status", room("problems", "data", "--status"), said(wanted)._replace(status=3 if wanted[:-1] else 0)
    yield "problems --csv", room("problems", "--csv", "data"), said(["number,name,record,column", *map(as_row, wanted[:-1])])
