"""`list`, `board`, `calendar`, `page` and `diff` beside a plain list of flight dates.

Each case has two files FROM and TO: a data set and the same with changed records, or one of its desks, two of its desks, the data set as
`tidy` writes it, or another data set. Their timetables are read from what `tidy` and `export` write, date by date (flight_dates.py). `diff`
of the two, and `list`, with and without its options, `board`, `calendar` and `page` of TO have to print what follows from these dates, and so
does `page` of the two. On the page of a desk are its changes from its data set, and its messages as `texts` and `findings` print them.
"""
import messages
import small
from chapter7 import carrier, date, with_column
from flight_dates import Timetable, board, calendar, changes, differing, listed, listed_dates, messages as message_articles
from flight_dates import page_lines, rows, section_lines
from room import Answer, said

KINDS = ["changed", "changed", "desk", "desk", "desks", "tidied", "other", "other carrier"]
OPTIONS = {(): listed, ("--dates",): listed_dates, ("--csv",): rows,
           ("--csv", "--dates"): lambda table, flights=None: rows(table, flights, True)}


# ---- the files of a case

def desk(rng, room, season, name):
    """A desk of the data set FROM and of the table, with a few messages."""
    room("start", "FROM", "stations", name)
    for _ in range(rng.choice([1, 2, 4])):
        room.write("text", messages.written(messages.message(rng, season)))
        room("take", name, name, "text")


def make(rng, room, kind):
    """Writes the files FROM and TO, and returns the season of FROM."""
    records = small.data_set(rng)
    season, _ = room.write_base(rng, "FROM", records)
    room.copy("FROM", "base")
    if kind == "changed":
        room.write("TO", small.file_bytes(rng, small.changed(rng, records)))
    elif kind == "tidied":
        room.write("TO", room("tidy", "FROM").out)
    elif kind.startswith("other"):
        other = small.data_set(rng)
        if kind == "other":
            other[1] = carrier(records[1][2:5].decode("ascii"), "01JAN20", "31DEC30", "01JAN20", records[1][1:2].decode("ascii"))
            other = [with_column(line, 3, records[1][2:5]) if line[:1] in b"345" else line for line in other]
        room.write("TO", small.file_bytes(rng, other))
    else:
        desk(rng, room, season, "TO")
        if kind == "desks":
            desk(rng, room, season, "desk")
            room.copy("desk", "FROM")
    return season


# ---- what is printed

def of_lines(room, words, lines):
    """What is compared of a command that has to print these lines."""
    return " ".join(words), room(*words), said(lines)


def of_page(room, files, lines):
    """What is compared of a page: all but how it looks and what it does, which is its title and its sections."""
    answer = room("page", *files)
    printed = answer.out.decode("latin-1")
    title = [line for line in printed.split("\n") if line.startswith("<header><h1>")]
    begin = printed.find('<section id="timetable">')
    sections = printed[begin : printed.find("<script>\n", begin)].split("\n")[:-1] if begin >= 0 else []
    return " ".join(["page", *files]), [answer.status, answer.err, *title, *sections], [0, "", *lines]


def pages(room, season, old, new):
    """The pages of TO, and of FROM and TO."""
    timetable, held = page_lines(new), []
    if room.is_desk("TO"):
        texts = room("texts", "TO").out.decode("latin-1").rstrip("\n").split("\n\n")
        findings = room("findings", "TO").out.decode("latin-1").split("\n")[:-1]
        held = section_lines("Messages", message_articles(texts if findings else [], findings, season))
    base = room.exported("base") if room.is_desk("TO") else room.exported("TO")
    if base is not None:
        yield of_page(room, ["TO"], timetable + section_lines("Changes", changes(Timetable(base), new)) + held)
    yield of_page(room, ["FROM", "TO"], timetable + section_lines("Changes", changes(old, new)) + held)


def compared(rng, room, season):
    exports = [room.exported(name) for name in ("FROM", "TO")]
    if None in exports:
        room.counts["not exported"] += 1
        return
    old, new = map(Timetable, exports)
    if (old.airline, old.mode) != (new.airline, new.mode):
        fault = "41 Airline" if old.airline != new.airline else "40 TimeMode"
        for command in "diff", "page":
            yield command, room(command, "FROM", "TO"), Answer(1, b"", f"refused {fault} sub 0\n")
        return
    yield of_lines(room, ["diff", "FROM", "TO"], differing(old, new))
    flights = sorted(set(old.flights) | set(new.flights) | {(1, " ")})
    for options, lines in OPTIONS.items():
        yield of_lines(room, ["list", *options, "TO"], lines(new))
        some = [rng.choice(flights) for _ in range(rng.choice([1, 2, 5]))]
        yield of_lines(room, ["list", *options, "TO", *map(new.designator, some)], lines(new, some))
    stations = {leg.at(column, column + 2) for days in new.flights.values() for legs in days.values() for leg in legs for column in (37, 55)}
    for _ in range(3):
        station, day = rng.choice(sorted(stations) or ["ZRH"]), season.day(rng)
        yield of_lines(room, ["board", "TO", station, date(day)], board(new, station, day))
    for flight in rng.sample(flights, min(2, len(flights))):
        yield of_lines(room, ["calendar", "TO", new.designator(flight)], calendar(new, flight))
    yield from pages(room, season, old, new)
