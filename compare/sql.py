"""`sql` beside a plain list of flight dates: the whole script, byte for byte, and what SQLite reads of it.

Each case is a data set, or one of its desks, whose carried columns and free texts are full of what SQL and its shells may take for
something else. The legs are read from what `tidy` and `export` write, date by date (flight_dates.py), those that a desk changes from both, the
messages from what `texts` and `findings` print. The script that follows from these has to be printed. Each script is loaded twice into
SQLite, which has to give back each carried byte as the character of its number.
"""
import datetime
import os
import re
import sqlite3

import messages
import small
from chapter7 import DAY, OPEN_END, date, day_of, with_column
from flight_dates import FINDING, WEEKDAYS, Timetable, changed_dates, clock, divided, movement, on_or_after, period_fields
from room import Answer

KINDS = ["data set", "desk", "desk", "hostile", "hostile", "hostile"]
SCHEMA = os.path.join(os.path.dirname(os.path.dirname(os.path.abspath(__file__))), "crates", "ssim_sql", "schema")
TABLES = ["timetable", "leg", "segment", "station_row", "message", "sub_message", "change"]
ROWS = 500
ZERO = datetime.date(2000, 1, 1)
WORDS = [b"'", b"''", b"\\'", b'"', b"--", b"/*", b"$$", b";", b":a", b"\\q", b"%s", b"\xe9\xff\x80", b"\xc3(", b"?1", b"{}", b"a'b''c", b" '",
         b"\x80'", b"~", b"'; DROP TABLE leg; --"]
LINES = ["IT'S", ".QUIT", "\\q", "/", "go", ";", "COMMIT;", "--", "\\! false", "'", ":x", "' '' '''", "$$"]


# ---- the files of a case

def hostile(rng, records):
    """The records with such bytes in carried columns."""
    changed = []
    for line in records:
        spots = {b"2": [(11, 3)], b"3": [(76, 20), (96, 32), (129, 44), (173, 20), (53, 2), (71, 2), (14, 1), (73, 3)],
                 b"4": [(29, 2), (31, 3), (34, 6), (40, 155)]}.get(line[:1], [])
        for column, width in spots:
            if rng.random() < 0.4:
                text = b"".join(rng.choice(WORDS) + b" " * rng.randrange(3) for _ in range(rng.randrange(1, 5)))
                line = with_column(line, column, text[:width].ljust(width))
        changed.append(line)
    return changed


def text_of(rng, season, hostile_too):
    """The bytes of a message, with lines for people after it."""
    lines = messages.message(rng, season)
    if hostile_too and rng.random() < 0.6:
        lines = [*lines, "//", "SI " + rng.choice(LINES), *rng.sample(LINES, rng.randrange(4))]
    return messages.written(lines)


def make(rng, room, kind):
    """Writes the file FILE, and returns the season."""
    records = small.data_set(rng)
    if kind == "hostile":
        records = hostile(rng, records)
    season, _ = room.write_base(rng, "base", records)
    if kind == "data set" or kind == "hostile" and rng.random() < 0.2:
        room.copy("base", "FILE")
        return season
    room("start", "base", "stations", "FILE")
    for _ in range(rng.choice([0, 1, 2, 4])):
        room.write("text", text_of(rng, season, kind == "hostile"))
        room("take", "FILE", "FILE", "text")
    return season


# ---- the rows

def value(it):
    """A value as it is written."""
    if it is None:
        return "NULL"
    return str(it) if isinstance(it, int) else "'" + str(it).replace("'", "''") + "'"


def time_of(minutes):
    return f"{minutes // 60:02}:{minutes % 60:02}"


def end_values(table, leg, arrives):
    """The station, the local time and day, the UTC time and day, the passenger time and the terminal of an end of a leg."""
    station, day, local, _ = movement(table, leg, ZERO + 100 * DAY, arrives)
    time, zone, shift, passenger, terminal = (58, 66, 194, 62, 71) if arrives else (44, 48, 193, 40, 53)
    written, later = leg.at(time, time + 3), leg.at(shift, shift)
    utc, utc_day = clock(written), int(later) if later in "0123456789" else 0
    sign = leg.at(zone, zone)
    apart = int(leg.at(zone + 1, zone + 2)) * 60 + int(leg.at(zone + 3, zone + 4)) if leg.at(zone, zone + 4).strip() else 0
    if table.mode == "L" and apart:
        more, minute = divmod(int(written[:2]) * 60 + int(written[2:]) + (apart if sign == "-" else -apart), 1440)
        utc, utc_day = time_of(minute), utc_day + more
    return [station, clock(local), (day - ZERO).days - 100, utc, utc_day, clock(leg.at(passenger, passenger + 3)) or None,
            leg.at(terminal, terminal + 1).strip(" ")]


def is_doubtful(table, leg):
    return any(movement(table, leg, ZERO, arrives)[3] for arrives in (False, True))


def leg_row(table, name, period, leg, *side):
    """The row of a leg on a period of a flight; of one that differs with the side that has it."""
    return [*period_fields(name, period), *side, int(leg.sequence), *end_values(table, leg, False), *end_values(table, leg, True),
            *(leg.at(*field).strip(" ") for field in ((14, 14), (73, 75), (76, 95), (173, 192))),
            leg.at(96, 127).rstrip(" "), leg.at(129, 172).rstrip(" "), int(is_doubtful(table, leg))]


def change_rows(old, new):
    """The legs of each period on which a flight differs: those of the old side, and then those of the new one."""
    for flight, _, _, values in changed_dates(old, new):
        for period, day in divided(values):
            for side, legs in zip(("old", "new"), values[day]):
                yield from (leg_row(new, new.designator(flight), period, leg, side) for leg in legs)


def segment_row(name, period, leg, place, tail):
    """The tail has columns 15 to 27, and 29 to 194."""
    columns = " " * 14 + tail[:13] + " " + tail[13:]
    fields = [columns[first - 1 : last].strip(" ") for first, last in ((29, 30), (31, 33), (34, 39))]
    return [name, period[0].isoformat(), int(leg.sequence), place, *fields, columns[39:194].rstrip(" ")]


def station_rows(data):
    """The rows of the station table in a desk file."""
    at = data.index(b"\n", data.index(b"RECORDS ")) + 1 + 201 * int(re.search(rb"RECORDS (\d+)\n", data)[1])
    lines = data[at:].split(b"\n")
    return [line.decode("ascii").split() for line in lines[1 : int(lines[0].split()[1]) + 1]]


def message_rows(room, season):
    """The rows of messages and of sub-messages, and the periods of the latter."""
    texts = room("texts", "FILE").out.decode("latin-1")
    findings = [FINDING.fullmatch(line).groups() for line in room("findings", "FILE").out.decode("ascii").split("\n")[:-1]]
    held, subs, periods = [], [], []
    for place, text in enumerate(texts.rstrip("\n").split("\n\n") if findings else [], 1):
        head, *later = text.split("\n//\n")
        parts = ["\n".join(head.split("\n")[3 + text.startswith("."):]), *(part for part in later if not part.startswith("SI"))]
        reference = findings[0][0]
        kind, day, _, _, *originator = reference.split(" ")
        held.append([reference, place, kind, day_of(day), *(originator or [""]), text + "\n"])
        for number, part in enumerate(parts, 1):
            _, action, flight, counts = findings.pop(0)
            period = period_of(season, part.split("\n"))
            periods.append(period[:2])
            subs.append([reference, number, action, flight, *period, *map(int, counts.split(" ")[1::2])])
    return held, subs, periods


def period_of(season, lines):
    """The first and the last date and the days of a sub-message. An ASM has its date twice, and all days of operation."""
    words = lines[1].split("/")[1:] * 2 + [WEEKDAYS] if "/" in lines[1] else lines[2].split()
    first = on_or_after(words[0], season.first)
    last = season.last if words[1] == OPEN_END else on_or_after(words[1], first)
    return first, last, words[2]


# ---- the script

def file_of(name):
    with open(os.path.join(SCHEMA, name), encoding="ascii") as file:
        return file.read()


def columns_of(table):
    line = re.search(rf"^CREATE TABLE IF NOT EXISTS {table} \((.*)\);$", file_of("tables.sql"), re.MULTILINE)[1]
    return re.findall(r"(?:^|, )([a-z_0-9]+) [A-Z]", line)


def statements(name, table, rows):
    """The statements of rows, of at most 500 each."""
    head = f"INSERT INTO {table} ({', '.join(columns_of(table))}) VALUES\n"
    for at in range(0, len(rows), ROWS):
        yield head + ",\n".join("(" + ",".join(map(value, [name, *row])) + ")" for row in rows[at : at + ROWS]) + ";\n"


def day_statement(first, last):
    """Each day from one before the first to ten after the last."""
    days = [first + (place - 1) * DAY for place in range((last - first).days + 12)]
    rows = ",\n".join(f"({(day - ZERO).days},'{day}','{day.isoweekday()}')" for day in days)
    return f"INSERT INTO day (number, date, weekday) VALUES\n{rows}\nON CONFLICT DO NOTHING;\n"


def script(room, season, exported, base):
    """The script of FILE, whose timetable is exported so, and that of its data set."""
    table = Timetable(exported)
    carrier = exported[201:401].decode("latin-1") if exported[201:202] == b"2" else next(
        line for line in exported.split(b"\n") if line[:1] == b"2").decode("latin-1")
    code = carrier[10:13].strip(" ")
    name = f"{table.airline} {code}".strip(" ")
    rows = {it: [] for it in TABLES}
    dates = [(season.first, season.last)]
    for flight, days in table.flights.items():
        for period, day in divided(days):
            dates.append(period[:2])
            for leg in days[day]:
                own = table.designator(flight)
                rows["leg"].append(leg_row(table, own, period, leg))
                rows["segment"] += [segment_row(own, period, leg, place, tail) for place, tail in enumerate(leg.tails, 1)]
    held = None
    if room.is_desk("FILE"):
        stations = station_rows(room.read("FILE"))
        rows["station_row"] = [[place, row[0], day_of(row[1]), day_of(row[2]), row[3]] for place, row in enumerate(stations, 1)]
        rows["message"], rows["sub_message"], periods = message_rows(room, season)
        dates += periods
        held = len(rows["message"])
        rows["change"] = list(change_rows(Timetable(base), table))
    rows["timetable"] = [[table.airline, code, table.mode, season.first, season.last, day_of(carrier[28:35]), held]]
    parts = ["BEGIN;\n", file_of("tables.sql"), *(f"DELETE FROM {it} WHERE timetable = {value(name)};\n" for it in TABLES),
             day_statement(min(first for first, _ in dates), max(last for _, last in dates)),
             *(part for it in TABLES for part in statements(name, it, rows[it])), file_of("views.sql"), "COMMIT;\n"]
    return name, rows, "".join(parts).encode("utf-8")


def loaded(data):
    """The rows of all tables after the script has run twice."""
    base = sqlite3.connect(":memory:")
    for _ in range(2):
        base.executescript(data.decode("utf-8"))
    found = {it: base.execute(f"SELECT * FROM {it}").fetchall() for it in TABLES}
    base.close()
    return found


def compared(rng, room, season):
    exported, base = room.exported("FILE"), room.exported("base")
    if exported is None or base is None:
        room.counts["not exported"] += 1
        return
    name, rows, wanted = script(room, season, exported, base)
    answer = room("sql", "FILE")
    yield "sql", answer, Answer(0, wanted, "")
    room.counts["rows"] += sum(map(len, rows.values()))
    room.counts["changes"] += len(rows["change"])
    if answer.status == 0:
        found = loaded(answer.out)
        for table in TABLES:
            held = [[name, *map(plain, row)] for row in rows[table]]
            yield f"rows of {table}", sorted(map(list, found[table]), key=repr), sorted(held, key=repr)


def plain(it):
    """A value as SQLite gives it back."""
    return it.isoformat() if isinstance(it, datetime.date) else it
