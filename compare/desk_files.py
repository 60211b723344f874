"""Desk files, beside another program.

Desk files are written here, by their format, over small data sets with high bytes in carried columns: with station rows, segment lines,
originators, free text, both time modes, versions 1 and 2. Half of them have one element broken. On each file `findings`, `export`, `show`,
`take` and `merge` of both programs have to agree in status, standard output, standard error and every file. A file that is not broken has
to be written again with the same bytes (the first line of a version 1 file aside); a broken one has to be refused as 62 at the offset of
its element, which is known here.
"""
import messages
import small
from chapter7 import DAY, FILL, OPEN_END, date, days, with_column
from commands import both

# What is broken, as often as it is named.
BROKEN = ["first line", "RECORDS", "record", "record", "STATIONS", "row", "TEXTS", "TEXT", "text", "text", "END", "cut",
          "after"]
KINDS = BROKEN + ["nothing"] * len(BROKEN)


# ---- a desk file, as the list of its elements

def saved(line, carrier_end):
    """A record as a desk file has it: in its written spelling, without serial and check reference."""
    kind = line[:1]
    if kind in b"34":
        for column, width in (6, 4), (10, 2), (12, 2):
            line = with_column(line, column, f"{int(line[column - 1 : column - 1 + width]):0{width}}")
        line = with_column(line, 36 if kind == b"3" else 28, " ")
    if kind == b"3":
        digits = line[28:35].replace(b" ", b"")
        line = with_column(line, 29, days(sum(1 << (digit - ord("1")) for digit in digits)))
        line = with_column(line, 128, " ")
        if line[21:28] == OPEN_END.encode("ascii"):
            line = with_column(line, 22, carrier_end)
    if kind == b"5":
        line = with_column(line, 188, "000000")
    return with_column(line, 195, "000000")


def with_high_bytes(rng, records):
    """Carried bytes above 126 in the header, the carrier record and the trailer."""
    found = []
    for line in records:
        if line[:1] in b"125" and rng.random() < 0.3:
            line = with_column(line, 40, bytes(rng.randrange(128, 256) for _ in range(4)))
        found.append(line)
    return found


def order_of(season, lines):
    """What a reference is ordered by. Its date is one of the first days from the creation date on."""
    place = messages.kind_place(lines)
    text = lines[place + 2]
    day = next(day for day in range(400) if date(season.created + day * DAY)[:5] == text[:5])
    return day, int(text[5:10]), int(text[11:14]), lines[place] == "ASM", lines[0][1:8] if place else " " * 7


class Desk:
    """The parts of a desk file."""

    def __init__(self, rng):
        records = with_high_bytes(rng, small.data_set(rng))
        self.season = messages.Season(records)
        self.version = rng.choice([1, 2, 2])
        self.records = [saved(line, date(self.season.last)) for line in records]
        self.rows = messages.station_rows(rng, self.season)
        held = {}
        for _ in range(rng.choice([0, 1, 3, 8, 40])):
            lines = messages.message(rng, self.season)
            if self.version == 2 or not lines[0].startswith("."):
                held.setdefault(order_of(self.season, lines), lines)
        self.texts = [held[order] for order in sorted(held)]

    def elements(self):
        """The elements as (name, bytes)."""
        found = [("first line", f"SSIMDESK {self.version}\n"), ("RECORDS", f"RECORDS {len(self.records)}\n")]
        found += [("record", line + b"\n") for line in self.records]
        found += [("STATIONS", f"STATIONS {len(self.rows)}\n")] + [("row", row + "\n") for row in self.rows]
        found += [("TEXTS", f"TEXTS {len(self.texts)}\n")]
        for lines in self.texts:
            text = messages.written(lines)
            found += [("TEXT", f"TEXT {len(text)}\n"), ("text", text)]
        found.append(("END", "END\n"))
        return [(name, data if isinstance(data, bytes) else data.encode("ascii")) for name, data in found]


# ---- one element broken

def joined(elements):
    return b"".join(data for _, data in elements)


def offset_of(elements, place):
    return sum(len(data) for _, data in elements[:place])


def places_of(elements, name):
    return [place for place, element in enumerate(elements) if element[0] == name]


def broken_count(rng, elements, place):
    """Another count in a line, and the place of the first element that is then invalid."""
    name, data = elements[place]
    word, number = data.split()
    wrong = rng.choice(["more", "fewer", "zero", "sign", "blank", "cut"])
    items = {"RECORDS": "record", "STATIONS": "row", "TEXTS": "TEXT", "TEXT": "text"}[name]
    if wrong == "more" or (wrong == "fewer" and number == b"0"):
        more = int(number) + rng.choice([1, 7, 10**40])
        after = {"RECORDS": "STATIONS", "STATIONS": "TEXTS", "TEXTS": "END"}
        return b"%s %d\n" % (word, more), places_of(elements, after[name])[0] if name in after else place + 1
    if wrong == "fewer":
        last = places_of(elements, items)[-1]
        return b"%s %d\n" % (word, int(number) - 1), last if name != "TEXT" else place + 1
    spelt = {"zero": b"%s 0%s\n", "sign": b"%s +%s\n", "blank": b"%s  %s\n", "cut": b"%s %s\r\n"}[wrong]
    return spelt % (word, number), place


def broken_record(rng, data, season):
    """A record that no desk file has at that place."""
    kind = data[:1]
    changes = [with_column(data, 195, "000001"), FILL + b"\n", data[:200] + b" ", data[:200], with_column(data, 1, "6"),
               with_column(data, 100, b"\x07"), data[:100] + data[101:]]
    if kind in b"345":
        changes += [with_column(data, 3, "BA ")] if season.airline != "BA" else []
    if kind in b"34":
        number = str(int(data[5:9]))
        changes += [with_column(data, 6, number.ljust(4))] if len(number) < 4 else []
        changes.append(with_column(data, 12, "A1"))
    if kind == b"3":
        changes += [with_column(data, 36, "1"), with_column(data, 128, "0"), with_column(data, 22, OPEN_END), data + data]
        digits = data[28:35].replace(b" ", b"")
        if len(digits) < 7 and data[28:35] != digits.ljust(7):
            changes.append(with_column(data, 29, digits.decode("ascii").ljust(7)))
    if kind == b"5":
        changes += [with_column(data, 188, "000001"), with_column(data, 194, "C")]
    return rng.choice(changes)


def broken_row(rng, data):
    first, last = data[4:11], data[12:19]
    changes = [data[:3] + b"  " + data[4:], data[:-1] + b" \n", data[:-1] + b"\r\n", data.lower(), data[:-2] + b"x\n", b"\n"]
    if first != last:
        changes.append(data[:4] + last + b" " + first + data[19:])
    return rng.choice(changes)


def broken_text(rng, desk, lines):
    """The bytes of a text that is not valid there, with a length of its own."""
    kind = rng.choice(["spelling", "broken", "order"] + ["originator"] * (desk.version == 1) * 3)
    text = messages.written(lines)
    if kind == "spelling":
        return rng.choice([text.replace(b"\n", b"\r\n"), text + b"\n", text.replace(b"\n", b" \n", 1), text[:-1]])
    if kind == "originator":
        return b".AAAAAAA\n" + text
    if kind == "order" and lines != desk.texts[0]:
        return messages.written(desk.texts[desk.texts.index(lines) - 1])
    place = messages.kind_place(lines)
    other = "LT" if desk.season.mode == "UTC" else "UTC"
    changes = [messages.replaced(lines, place + 1, other), messages.replaced(lines, place, "SSN"),
               messages.replaced(lines, place + 4, "BA5444"), [] if free(lines) else lines + ["X"], []]
    return messages.written(rng.choice(changes))


def free(lines):
    return any(line.startswith("SI") for line in lines)


def broken(rng, desk, kind):
    """The bytes of a file of which this is broken, and the offset that is to be named."""
    elements = desk.elements()
    places = places_of(elements, kind)
    if kind == "after":
        data = joined(elements)
        return data + rng.choice([b"\n", b"END\n", b"\x00"]), len(data)
    if kind == "cut" or not places:
        data = joined(elements)
        length = rng.randrange(len(data))
        offsets = [offset_of(elements, place) for place in range(len(elements))]
        return data[:length], max(offset for offset in offsets if offset <= length)
    place = rng.choice(places)
    offset, data = offset_of(elements, place), elements[place][1]
    if kind in ("RECORDS", "STATIONS", "TEXTS", "TEXT"):
        changed, wrong = broken_count(rng, elements, place)
        offset = offset_of(elements, wrong) + (len(changed) - len(data) if wrong > place else 0)
    elif kind == "text":
        lines = desk.texts[(place - places_of(elements, "text")[0]) // 2]
        changed = broken_text(rng, desk, lines)
        count = b"TEXT %d\n" % len(changed)
        offset += len(count) - len(elements[place - 1][1])
        elements[place - 1] = ("TEXT", count)
    elif kind == "first line":
        changed = rng.choice([b"SSIMDESK 3\n", b"SSIMDESK 2 \n", b"ssimdesk 2\n", b"SSIMDESK 02\n", b"SSIMDESK 2\r\n"])
    elif kind == "END":
        changed = rng.choice([b"END", b"end\n", b"END \n", b"END\r\n", b"TEXT 0\n"])
    elif kind == "record":
        changed = broken_record(rng, data, desk.season)
        offset += len(data) if changed == data + data else 0
    else:
        changed = broken_row(rng, data)
    elements[place] = (kind, changed)
    return joined(elements), offset


# ---- running

def make(rng, room, kind):
    """The desk, the bytes of its file, and the offset of what is broken."""
    desk = Desk(rng)
    data, offset = (joined(desk.elements()), None) if kind == "nothing" else broken(rng, desk, kind)
    old = rng.choice(desk.texts or [messages.message(rng, desk.season)])
    other = messages.replaced(old, messages.kind_place(old) + 3, "CNL")[: messages.kind_place(old) + 6]
    files = {"desk": data, "old": messages.spelt(rng, old), "other": messages.written(other),
             "new": messages.written(messages.message(rng, desk.season))}
    for name, written in files.items():
        room.write(name, written)
    return desk, data, offset


def commands_for(rng, desk):
    dates = [(desk.season.airline + desk.season.flight(rng), date(desk.season.day(rng))) for _ in range(4)]
    lines = ["findings desk", "merge desk desk copy", "export desk", *(f"show desk {flight} {day}" for flight, day in dates),
             "take desk held old", "take desk held new", "take held held new old other", "merge held desk merged",
             "merge desk held merged", "export held", "findings held"]
    return [line.split() for line in lines]


def compared(rng, room, case):
    desk, data, offset = case
    for words in commands_for(rng, desk):
        values = both(room, words)
        yield from values
        if words == ["findings", "desk"]:
            yield "refusal of the file", values[0][1].err, "" if offset is None else f"refused 62 DeskFile offset {offset}\n"
        if words[-1] == "copy" and offset is None:
            yield "the file that is written again", room.read("copy"), b"SSIMDESK 2" + data[10:]
