"""`split` beside each section by itself, and what holds of a file that was joined.

Each case has a file of several carriers, of which some records are changed, lost, doubled or cut. It is cut before each block that begins
with `2`. Each section with the header before it, `E` in its trailer, and fill in place of all other blocks is a file by itself, whose
records have their numbers: what `check` and `tidy` say of it is what has to become of the section. The notes are counted here by the serials
of the whole file and by what follows a trailer. In a case of `join` the file was joined from data sets: each comes back as `tidy` writes it
under the first header, without a note, and is canonical and of the airline in its name. In a case of `alone` the file is a data set: `split`
keeps its `tidy`, and has the notes of `check`. In a case of `occupied` a file of another kind has the name of a section.
"""
import small
from chapter7 import FILL, with_column, with_serial
from room import Answer

KINDS = ["world"] * 4 + ["join", "join", "alone", "bytes", "occupied"]
AIRLINES = ["LX ", "U2 ", "9W ", "SWR", "LX "]
NOTE = {True: "note", False: "no note"}


# ---- a file

def blocks_of(data):
    """The blocks of a file, and the bytes after them."""
    found, at = [], 0
    while len(data) - at >= 200:
        found.append(data[at : at + 200])
        at += 200
        while data[at : at + 1] == b"\n" or data[at : at + 2] == b"\r\n":
            at += 1 if data[at : at + 1] == b"\n" else 2
    return found, data[at:]


class Section:
    """The blocks of a section with their numbers, how the file goes on, and what it is by itself."""

    def __init__(self, header, blocks, follows, rest):
        self.blocks, self.follows = blocks, follows
        self.whole = self.by_itself(header, rest)

    def by_itself(self, header, rest):
        """The bytes of a file with the header and this section. All blocks have their numbers."""
        last = self.blocks[-1][0]
        lines = [FILL] * (self.follows[0] - 1 if self.follows else self.ends)
        number, block = header
        lines[number - 1] = block
        for number, block in self.blocks:
            lines[number - 1] = as_last(block)
        assert last <= len(lines)
        return b"".join(lines) + (b"" if self.follows else rest)


def as_last(block):
    """The trailer of a file of one carrier."""
    return with_column(block, 194, "E") if block[:1] == b"5" and block[193:194] == b"C" else block


def sections_of(data):
    """The header, and the sections after it; or none, if the file does not begin so."""
    blocks, rest = blocks_of(data)
    others = [(number, block) for number, block in enumerate(blocks, 1) if block != FILL]
    if len(others) < 2 or others[0][1][:1] != b"1" or others[1][1][:1] != b"2":
        return None, []
    starts = [place for place, (_, block) in enumerate(others) if place and block[:1] == b"2"]
    found = []
    for start, end in zip(starts, starts[1:] + [len(others)]):
        section = Section.__new__(Section)
        section.ends = len(blocks)
        section.__init__(others[0], others[start:end], others[end] if end < len(others) else None, rest)
        found.append(section)
    return others[0], found


# ---- what becomes of it

def serial_of(block):
    return int(block[194:])


def notes_on(header, section, is_first, before):
    """The lines of the notes on a valid section, whose record before has this serial."""
    found = []
    records = ([header] if is_first else []) + section.blocks
    before = 0 if is_first else before
    for number, block in records:
        if serial_of(block) != before + 1:
            found.append(f"note Serial record {number}")
        if block[:1] == b"5" and int(block[187:193]) != before:
            found.append(f"note CheckReference record {number}")
        before = serial_of(block)
    number, block = section.blocks[-1]
    if (block[193:194] == b"C") != bool(section.follows):
        found.append(f"note Continuation record {number}")
    return found


def valid_blocks(room, section):
    """The blocks of a section that spell records: after an invalid header `problems` reads each by itself."""
    room.write("each", b"9" * 200 + b"".join(as_last(block) for _, block in section.blocks))
    lines = room("problems", "each").out.decode("ascii").splitlines()
    bad = {int(line.split()[3]) - 2 for line in lines if line.split()[0] in ("11", "12")}
    return [block for place, (_, block) in enumerate(section.blocks) if place not in bad]


class Splitting:
    """What `split` has to do with the sections of a file, one after another."""

    def __init__(self, room, data, prefix):
        self.room, self.prefix, self.lines, self.kept, self.stop = room, prefix, [], {}, None
        self.header, sections = sections_of(data)
        self.serial, self.times, self.refused = None, {}, 0
        for place, section in enumerate(sections):
            if self.stop is None:
                self.become(section, place == 0)
        if self.stop is None:
            count = len(sections)
            self.lines.append(f"carriers {count} kept {count - self.refused} refused {self.refused}")

    def airline(self, section):
        """The airline of a section, or none: the carrier record is by itself a file without a trailer, or it is invalid."""
        self.room.write("each", self.header[1] + section.blocks[0][1])
        return section.blocks[0][1][2:5].decode("latin-1").strip() if " 32 " in self.room("check", "each").err else None

    def become(self, section, is_first):
        self.room.write("each", section.whole)
        checked, tidied = self.room("check", "each"), self.room("tidy", "each")
        airline = self.airline(section)
        times = self.times[airline] = self.times.get(airline, 0) + 1
        if tidied.status:
            self.refused += 1
            self.lines.append(f"{airline or '?'} {tidied.err.strip()}")
            self.room.counts[" ".join(tidied.err.split()[:2])] += 1
        else:
            name = f"{self.prefix}{airline}{f'-{times}' if times > 1 else ''}.ssim"
            notes = notes_on(self.header, section, is_first, self.serial)
            if self.room.before.get(name, b"1AIRLINE STANDARD SCHEDULE DATA SET")[:35] not in (b"", b"1AIRLINE STANDARD SCHEDULE DATA SET"):
                self.stop = f"refused 93 Occupied {name}\n"
                return
            flights = checked.out.decode("ascii").splitlines()[-1].split()[4]
            self.kept[name] = tidied.out
            self.lines += notes + [f"{airline} kept {name} records {len(section.blocks)} flights {flights} notes {len(notes)}"]
            self.room.counts[f"kept, {NOTE[bool(notes)]}"] += 1
        valid = [block for _, block in section.blocks] if not tidied.status else valid_blocks(self.room, section)
        found = [self.header[1]] if is_first else []
        self.serial = serial_of((found + valid)[-1]) if found + valid else self.serial

    def answer(self):
        out = "".join(line + "\n" for line in self.lines).encode("ascii")
        return Answer(1, out, self.stop) if self.stop else Answer(0, out, "")


# ---- cases

def of_airline(lines, airline):
    """The records of a data set, of this airline."""
    return [line if line[:1] == b"1" else with_column(line, 3, airline) for line in lines]


def joined(rng, sets, wrong_codes=0.0):
    """The records of data sets joined: the first header, and `C` in all trailers but the last. Some codes may be wrong."""
    found = sets[0][:1]
    for place, records in enumerate(sets):
        code = "E" if place + 1 == len(sets) else "C"
        code = rng.choice("CE") if rng.random() < wrong_codes else code
        found += [with_column(line, 194, code) if line[:1] == b"5" else line for line in records[1:]]
    return found


def with_serials(records):
    found = []
    for serial, line in enumerate(records, 1):
        line = with_column(line, 188, f"{serial - 1:06}") if line[:1] == b"5" else line
        found.append(with_serial(line, serial))
    return found


def sets_of(rng):
    return [of_airline(small.data_set(rng), rng.choice(AIRLINES)) for _ in range(rng.choice([1, 2, 3, 3, 5]))]


def broken(rng, records):
    """A file with one thing or a few changed."""
    for _ in range(rng.choice([0, 1, 1, 2, 4])):
        breaks = rng.choice([small.break_record, small.break_order])
        records = breaks(rng, records)[1]
    return records


def make(rng, room, kind):
    """Writes the file FILE, and what may be there under the names of its sections."""
    sets = sets_of(rng)
    room.sets = sets
    if kind == "alone":
        sets = sets[:1]
    records = joined(rng, sets, 0.3 if kind in ("world", "bytes") else 0.0)
    if kind in ("join", "occupied"):
        data = small.laid_out(rng, with_serials(records))
    elif kind == "alone":
        data = small.file_bytes(rng, records)
    else:
        data = small.laid_out(rng, broken(rng, small.numbered(rng, records)))
    if kind == "bytes":
        data = small.break_bytes(rng, data)[1]
    room.write("FILE", data)
    for name in ("new-LX.ssim", "new-U2.ssim", "new-LX-2.ssim"):
        if rng.random() < 0.2:
            room.write(name, b"" if rng.random() < 0.5 else b"1AIRLINE STANDARD SCHEDULE DATA SET of yesterday")
        if kind == "occupied" and rng.random() < 0.5:
            room.write(name, rng.choice([b"a note", b"SSIMDESK 1\n", b"1AIRLINE"]))
    return kind


def of_joined(room, data):
    """Each data set comes back, with the first header and without a note. Each is canonical, and of the airline of its name."""
    answer = room("split", "FILE", "back-")
    times, header = {}, room.sets[0][0]
    for records in room.sets:
        room.write("each", b"".join(with_serials([header] + records[1:])))
        airline = records[1][2:5].decode("ascii").strip()
        times[airline] = times.get(airline, 0) + 1
        name = f"back-{airline}{f'-{times[airline]}' if times[airline] > 1 else ''}.ssim"
        tidied = room("tidy", "each")
        yield f"{name} is its tidy", room.read(name), None if tidied.status else tidied.out
        if not tidied.status:
            yield f"{name} is canonical", room("tidy", name).out, tidied.out
            carrier = next(block for block in blocks_of(tidied.out)[0] if block[:1] == b"2")
            yield f"airline of {name}", carrier[2:5].decode("ascii").strip(), airline
    yield "notes", [line for line in answer.out.split(b"\n") if line.startswith(b"note")], []
    yield "the same at once", room("split", "-", "back-", given=data), answer


def of_alone(room):
    """A data set alone: its `tidy`, and the notes of `check`."""
    tidied, checked = room("tidy", "FILE"), room("check", "FILE")
    if checked.status:
        return
    answer = room("split", "FILE", "one-")
    airline = room.sets[0][1][2:5].decode("ascii").strip()
    yield "its tidy", room.read(f"one-{airline}.ssim"), None if tidied.status else tidied.out
    if not tidied.status:
        notes = [[line for line in out.split(b"\n") if line.startswith(b"note")] for out in (answer.out, checked.out)]
        yield "its notes", *notes


def compared(rng, room, kind):
    data = room.read("FILE")
    room.before = room.files()
    others = [block for block in blocks_of(data)[0] if block != FILL]
    valid = bool(others) and " 31 " in header_alone(room, others[0]).err
    if not valid or len(others) < 2 or others[1][:1] != b"2":
        wanted, kept = room("check", "FILE"), {}
        room.counts[" ".join(wanted.err.split()[:2]) + " of the whole"] += 1
    else:
        splitting = Splitting(room, data, "new-")
        wanted, kept = splitting.answer(), splitting.kept
    before = room.files()
    yield "split FILE new-", room("split", "FILE", "new-"), wanted
    yield "files", room.files(), {**before, **kept}
    if kind == "join":
        yield from of_joined(room, data)
    if kind == "alone":
        yield from of_alone(room)


def header_alone(room, block):
    """The answer to `check` on a header alone, which lacks a carrier record if it is valid."""
    room.write("each", block)
    return room("check", "each")
