"""`carry` beside a plain model of the messages that two desks hold.

The data sets of the two desks are of one airline, and were made on days that are near each other or a year apart; their validities are near
each other, too. Each desk is brought up to eight messages with dates around those days, with years, without and with an open end; some come
to both, and some have a reference twice. The model reads the two desk files and finds what each message of OTHER means for each of the two
carrier records, by going through the calendar day by day. `carry` has to print and to keep exactly what follows, or the refusal that comes
first, and then no file may change. `receive` of the texts that were carried, in any order, has to make the same desk. On one base (KIND `one
base`) OUT has to be what `merge` keeps.
"""
import collections
import datetime
import re

import chapter7
from chapter7 import DAY, MONTHS, OPEN_END, date, day_of
from messages import written
from room import Answer

KINDS = ["dates"] * 6 + ["one base", "one base", "other airline", "other mode", "broken", "occupied"]
END = datetime.date(2099, 12, 31)
EVERY_DAY = "1234567"
Base = collections.namedtuple("Base", "mode airline first last created")
Message = collections.namedtuple("Message", "reference subs")


# ---- what a message means

def base_of(record):
    """What a carrier record says."""
    text = record.decode("latin-1")
    first = day_of(text[14:21])
    last = min(first + 730 * DAY, END) if text[21:28] == OPEN_END else day_of(text[21:28])
    return Base({"U": "UTC", "L": "LT"}[text[1]], text[2:5].strip(), first, last, day_of(text[28:35]))


def day_meant(start, text):
    """The day of a date with its year, or the next day from `start` on that a date without a year names; or None."""
    if len(text) == 7:
        return day_of(text)
    day = start
    while (day.day, MONTHS[day.month - 1]) != (int(text[:2]), text[2:]):
        if day == END:
            return None
        day += DAY
    return day


def sub_meant(base, kind, lines):
    """The flight and the dates of a sub-message, or None."""
    named, _, one_date = lines[1].partition("/")
    airline, flight = re.fullmatch(r"([A-Z0-9]{2}[A-Z]?)(\d{3,4}[A-Z]?)", named).groups()
    if airline != base.airline:
        return None
    if kind == "ASM":
        day = day_meant(base.first, one_date)
        return day and (flight, day, day, EVERY_DAY)
    begin, end, days = lines[2].split()
    first = day_meant(base.first, begin)
    last = first and (base.last if end == OPEN_END else day_meant(first, end))
    return (flight, first, last, days) if last and first <= last else None


def meant(base, text):
    """What a canonical text means for a base, or None."""
    lines = text.decode("ascii").split("\n")[:-1]
    originator = lines.pop(0)[1:] if lines[0].startswith(".") else ""
    kind, mode, line = lines[:3]
    day = day_meant(base.created, line[:5])
    parts = [part.split("\n") for part in "\n".join(lines[3:]).split("\n//\n")]
    subs = [sub_meant(base, kind, part) for part in parts if not part[0].startswith("SI")]
    if mode != base.mode or day is None or None in subs:
        return None
    return Message((day, int(line[5:10]), int(line[11:14]), kind == "ASM", originator.ljust(7)), subs)


def printed(reference):
    """A reference as it is printed."""
    day, group, serial, is_asm, originator = reference
    return f"{'ASM' if is_asm else 'SSM'} {date(day)} {group:05} {serial:03} {originator}".strip()


# ---- desk files

class Desk:
    """The parts of a desk file: all that comes before its texts, its carrier record, and its texts by what they mean."""

    def __init__(self, data):
        head, _, rest = data.partition(b"\nTEXTS ")
        self.head = head[head.index(b"\n") + 1 :] + b"\n"
        self.base = base_of(self.head[self.head.index(b"\n") + 202 :][:200])
        count, _, rest = rest.partition(b"\n")
        self.held = {}
        for _ in range(int(count)):
            word, _, rest = rest.partition(b"\n")
            length = int(word.split()[1])
            self.held[meant(self.base, rest[:length]).reference] = rest[:length]
            rest = rest[length:]

    def bytes(self):
        """The desk file."""
        texts = [self.held[reference] for reference in sorted(self.held)]
        parts = [b"SSIMDESK 2\n", self.head, b"TEXTS %d\n" % len(texts), *(b"TEXT %d\n%s" % (len(text), text) for text in texts), b"END\n"]
        return b"".join(parts)


def carried(mine, theirs):
    """The answer and what is kept; the texts that are carried are added to the desk `mine`."""
    if (mine.base.airline, mine.base.mode) != (theirs.base.airline, theirs.base.mode):
        return refused("61 OtherBase"), None, []
    lines, added = [], {}
    for reference, text in sorted(theirs.held.items()):
        there, here = meant(theirs.base, text), meant(mine.base, text)
        if here != there:
            word = "left"
        elif mine.held.get(reference, text) != text:
            return refused(f"60 Conflict {printed(reference)}"), None, []
        else:
            word = "repeated" if reference in mine.held else "taken"
            added[reference] = text
        lines.append(f"{word} {printed(reference)}")
    mine.held.update(added)
    return Answer(0, written([*lines, f"held {len(mine.held)}"]), ""), mine.bytes(), list(added.values())


def refused(what):
    return Answer(1, b"", f"refused {what}\n")


# ---- the files of a case

def near(rng, *days):
    return rng.choice(days) + rng.choice([-2, -1, -1, 0, 0, 0, 1, 1, 2, 9]) * DAY


def records_of(base, flights):
    """The records of a data set with a few flights."""
    airline, first, last = base.airline.ljust(3), date(base.first), date(base.last)
    columns = [(37, "ZRH"), (40, "05450545"), (48, "+0200"), (55, "LHR"), (58, "07000700"), (66, "+0100"), (73, "320"), (193, "00")]
    legs = [chapter7.leg((" ", airline, f"{flight:04}"), "01", "01", first, last, EVERY_DAY, columns) for flight in flights]
    return [chapter7.header(), chapter7.carrier(airline, first, last, date(base.created), base.mode[:1]), *legs,
            chapter7.trailer(airline, date(base.created), 0)]


def with_open_end(rng, records):
    """The records, some of them with an open end of the validity. Their legs end before it."""
    return [chapter7.with_column(line, 22, OPEN_END) if line[:1] == b"2" and rng.random() < 0.2 else line for line in records]


def two_bases(rng, kind):
    """The bases of DESK and of OTHER."""
    first = datetime.date(rng.choice([2023, 2024, 2027, 2028]), rng.randrange(1, 13), rng.randrange(1, 29))
    one = Base(rng.choice(["UTC", "LT"]), rng.choice(["LX", "U2", "SWR"]), first, first + rng.randrange(100, 400) * DAY,
               first - rng.randrange(0, 200) * DAY)
    if kind == "one base":
        return one, one
    other = one._replace(created=one.created + rng.choice([0, 1, -1, 3, -3, 40, -40, 365, 366, -365]) * DAY,
                         first=one.first + rng.choice([0, 0, 0, 1, -1, 30, -30, 366]) * DAY,
                         last=one.last + rng.choice([0, 0, 0, 1, -1, 366]) * DAY)
    other = other._replace(last=max(other.last, other.first + DAY), created=min(other.created, other.first))
    if kind == "other airline":
        other = other._replace(airline=rng.choice(sorted({"LX", "U2", "SWR", "BAW"} - {one.airline})))
    if kind == "other mode":
        other = other._replace(mode={"UTC": "LT", "LT": "UTC"}[one.mode])
    return one, other


def date_text(rng, *days):
    day = date(near(rng, *days))
    return rng.choice([day, day, day[:5], day[:5], "29FEB" if rng.random() < 0.1 else day[:5]])


def sub_lines(rng, bases, kind):
    """A sub-message."""
    designator = bases[0].airline + rng.choice(["001", "002", "003"])
    firsts, lasts = [base.first for base in bases], [base.last for base in bases]
    if kind == "ASM":
        lines = [rng.choice(["CNL", "EQT"]), f"{designator}/{date_text(rng, *firsts, *lasts)}"]
    else:
        end = OPEN_END if rng.random() < 0.2 else date_text(rng, *firsts, *lasts, *lasts)
        days = "".join(digit for digit in EVERY_DAY if rng.random() < 0.6) or EVERY_DAY
        lines = [rng.choice(["CNL", "EQT"]), designator, f"{date_text(rng, *firsts)} {end} {days}"]
    return lines + (["J 77W"] if lines[0] == "EQT" else [])


def text_of(rng, bases):
    """A text whose dates are near those of the bases."""
    kind = rng.choice(["SSM", "SSM", "SSM", "ASM"])
    day = "29FEB" if rng.random() < 0.05 else date(near(rng, *(base.created for base in bases)))[:5]
    lines = [".HAMOPZ7"] * (rng.random() < 0.2) + [kind, bases[0].mode, f"{day}0000{rng.choice('12')}E00{rng.choice('12')}"]
    for place in range(rng.choice([1, 1, 2, 3])):
        lines += ["//"] * (place > 0) + sub_lines(rng, bases, kind)
    return written(lines + (["//", "SI FREE", "TEXT"] if rng.random() < 0.1 else []))


def start(rng, room, name, base, flights):
    room.write("season", chapter7.data_set(with_open_end(rng, records_of(base, flights))))
    room.write("stations", b"")
    answer = room("start", "season", "stations", name)
    assert not answer.status, answer.err


def bring(room, name, texts):
    """A desk receives texts, some of which it refuses."""
    room.write("mail", b"".join(text + b"NNNN\n" for text in texts))
    return room("receive", name, name, "mail") if texts else None


def make(rng, room, kind):
    bases = two_bases(rng, kind)
    start(rng, room, "DESK", bases[0], [1, 2])
    start(rng, room, "OTHER", bases[1], [1, 2] if kind == "one base" else rng.choice([[1, 2], [1, 3], []]))
    if kind == "one base":
        room.copy("DESK", "OTHER")
    texts = [text_of(rng, bases) for _ in range(rng.randrange(9))]
    bring(room, "DESK", [text for text in texts if rng.random() < 0.4])
    theirs = [text + b"//\nSI OTHER\n" * (rng.random() < 0.15 and b"\nSI" not in text) for text in texts if rng.random() < 0.8]
    bring(room, "OTHER", [text.replace(bases[0].airline.encode(), bases[1].airline.encode()) for text in theirs])
    return kind


# ---- what is compared

def broken(rng, room):
    """Cuts one of the desk files, or both. The refusal of the first that is cut."""
    cut = rng.choice([["DESK"], ["OTHER"], ["DESK", "OTHER"]])
    for name in cut:
        data = room.read(name)
        room.write(name, data[: rng.randrange(12, len(data))])
    return room("findings", cut[0])


def compared(rng, room, kind):
    name = rng.choice(["DESK", "OTHER", "OUT", "OUT"])
    if kind == "occupied":
        name = "season"
        wanted, kept, texts = refused("93 Occupied season"), None, []
    elif kind == "broken":
        wanted, kept, texts = broken(rng, room), None, []
    else:
        wanted, kept, texts = carried(Desk(room.read("DESK")), Desk(room.read("OTHER")))
    if kind == "one base":
        merged = room("merge", "DESK", "OTHER", "MERGED")
        yield "merge", (merged.status, merged.err), (wanted.status, wanted.err)
        yield "merged desk", room.read("MERGED"), kept
    before, start_file = room.files(), room.read("DESK")
    answer = room("carry", "DESK", "OTHER", name)
    room.counts.update(line.split()[0] for line in answer.out.decode("ascii").splitlines())
    room.counts[" ".join(answer.err.split()[:2]) or "kept"] += 1
    yield "carry", answer, wanted
    yield "files", room.files(), {**before, **({name: kept} if kept else {})}
    if kept:
        room.write("TOOK", start_file)
        bring(room, "TOOK", rng.sample(texts, len(texts)))
        yield "received", room.read("TOOK") if texts else kept, kept
