"""Sequences of commands, beside another program.

Each sequence has up to 12 commands over the files of its folder: valid and broken data sets, station tables, texts, scripts and desk files,
missing files, `-` in each place, odd words, a full device as standard output. After each command status, standard output, standard error
and every file have to agree. If the command line is not valid (status 2), or if help is asked for, the words of the message are the
program's own: then only the status is compared, and which of the two outputs is empty.

A case of the kind `many records`, which is made only if it is named, has an export of more than 999,999 records.
"""
import os
import random

import messages
import small
from chapter7 import DAY, carrier, date, header, plain_season, trailer, with_column
from room import Answer

KINDS, ONLY_NAMED = ["sequence"], ["many records"]
COMMANDS = ["check", "tidy", "start", "take", "merge", "show", "findings", "export", "rehearse"]
WEIGHTS = [4, 4, 12, 30, 14, 10, 8, 8, 10]
DESKS = ["d1", "d2", "d3"]
TEXTS = [f"t{number:02}" for number in range(1, 15)]
MISSING = ["missing", "folder", "none/x", "ö.txt"]
BAD_ROWS = ["ZRH 30MAR25 29MAR25 +0200", "ZRH 30MAR25", "Z1H 30MAR25 31MAR25 +0200"]
BAD_STEPS = ["TAKE 9 t01", "MERGE 1", "DESKS 2", "TAKE 1", "TAKE 1 missing", "take 1 t01", "MERGE 0 1", "TAKE 1 t01 t02",
             "TAKE 01 t01", "\xe9"]
BAD_FLIGHTS = ["LX", "BA544", "A1B2", "LX12345"]
BAD_DATES = ["32JAN25", "01JUL", "00XXX00"]
# The commands that take flights, as many as there are, where the other program takes one or none.
WITH_FLIGHTS = ["show", "findings"]


# ---- the files of a sequence

def late_season():
    """A data set at the end of the calendar, where dates without a year can be missing."""
    return [header(), carrier("LX ", "01MAR97", "31DEC99", "01MAR97"), trailer("LX ", "01FEB25", 2)]


def seldom_broken(rng, records):
    """A data set with a record that is invalid in its place: faults that `small` seldom makes."""
    line, end = plain_season()[2], len(records) - 1
    kinds = [(end, with_column(records[end], 194, "C")), (end, with_column(line, 36, "2")),
             (end, with_column(line, 3, "BA ")), (2, b"4" + records[1][1:14] + b" " * 186), (end, records[0])]
    place, wrong = rng.choice(kinds)
    return small.numbered(rng, records[:place] + [wrong] + records[place:])


def files_of(rng):
    """The files, by name, that a sequence starts with, and its season."""
    records = rng.choices([small.data_set(rng), plain_season(), late_season()], [6, 3, 1])[0]
    other = rng.choice([records[:-1] + records[-1:], small.data_set(rng), plain_season()])
    season = messages.Season(records)
    rows = messages.station_rows(rng, season)
    found = {"season": small.file_bytes(rng, records),
             "other": small.file_bytes(rng, other),
             "broken": rng.choices([small.made(rng, True)[1], small.laid_out(rng, seldom_broken(rng, records))], [7, 3])[0],
             "stations": messages.written(rows), "empty": b"",
             "badrows": messages.written(rows[:1] + [rng.choice(BAD_ROWS)])}
    found.update(texts_of(rng, season))
    for name in "script1", "script2":
        found[name] = script(rng)
    return found, season


def texts_of(rng, season):
    """The texts, by name: valid ones in their canonical or another spelling, repeated ones, and broken ones."""
    found, texts = {}, [messages.message(rng, season) for _ in TEXTS]
    for name, lines in zip(TEXTS, texts):
        choice = rng.random()
        if choice < 0.3:
            found[name] = messages.written(lines)
        elif choice < 0.6:
            found[name] = messages.spelt(rng, rng.choice(texts))
        elif choice < 0.7 and season.flights:
            lines = messages.many_dates(season, rng.choice(season.flights), rng.choice([97, 98, 99, 100]))
            found[name] = messages.written(lines)
        elif choice < 0.8:
            found[name] = messages.spelt(rng, lines)
        else:
            found[name] = messages.broken(rng, lines)[1]
    return found


def script(rng):
    desks = rng.randrange(1, 5)
    lines = [f"DESKS {desks}"]
    for _ in range(rng.randrange(0, 10)):
        if rng.random() < 0.65:
            lines.append(f"TAKE {rng.randrange(1, desks + 1)} {rng.choice(TEXTS)}")
        else:
            lines.append(f"MERGE {rng.randrange(1, desks + 1)} {rng.randrange(1, desks + 1)}")
    if rng.random() < 0.3:
        lines.insert(rng.randrange(len(lines) + 1), rng.choice(BAD_STEPS))
    if rng.random() < 0.1:
        lines = lines[1:]
    end = rng.choice(["\n", "\r\n", "  \n"])
    return "".join(line.replace(" ", rng.choice([" ", "  "])) + end for line in lines).encode("latin-1")


# ---- the commands

def some(rng, names, others):
    """A name of a fitting file, or now and then another one."""
    choice = rng.random()
    if choice < 0.92:
        return rng.choice(names)
    if choice < 0.96:
        return "-"
    return rng.choice(others)


def words_of(rng, command, season, others, kept):
    """The words of a command; `kept` are the desk files that there are."""
    def desks():
        return some(rng, kept or DESKS, others)

    def out():
        return some(rng, DESKS, ["none/x", "folder", "new", "season"])

    if command in ("check", "tidy"):
        return [some(rng, ["season", "other", "broken", "broken"], others)]
    if command in ("start", "rehearse"):
        data_set = some(rng, ["season"] * 7 + ["other", "other", "broken"], others)
        table = some(rng, ["stations"] * 7 + ["empty", "badrows"], others)
        return [data_set, table, out() if command == "start" else some(rng, ["script1", "script2"], others)]
    if command == "take":
        return [desks(), out(), *(some(rng, TEXTS, others) for _ in range(rng.choice([1, 1, 2, 4])))]
    if command == "merge":
        return [desks(), desks(), out()]
    if command == "show":
        flight = season.airline + season.flight(rng)
        day = date(season.day(rng))
        return [desks(), rng.choice([flight] * 8 + BAD_FLIGHTS), rng.choice([day] * 8 + BAD_DATES)]
    return [desks()]


def odd(rng, words):
    """Words that are no command line, or that ask for help, or that are unusual."""
    kind = rng.randrange(8)
    if kind == 0:
        return [rng.choice(["fly", "Take", "taken", "-", ""]), *words[1:]]
    if kind == 1:
        return words[: rng.randrange(len(words))]
    if kind == 2 and words[0] not in WITH_FLIGHTS:
        return words + ["more", "words"]
    if kind == 3:
        return words[:1] + [rng.choice(["-x", "--all", "--help", "-h"])] + words[1:]
    if kind == 4:
        return [rng.choice(["--help", "-h", "help"])]
    if kind == 5:
        return words[:1] + ["--"] + words[1:]
    if kind == 6:
        return words[:1] + [""] + words[2:]
    return []


def broken_desk(rng, room, names):
    """The bytes of one of the desk files, with one thing broken."""
    data = bytearray(room.read(rng.choice(names)))
    place = rng.randrange(len(data))
    kind = rng.randrange(3)
    if kind == 0:
        del data[place:]
    elif kind == 1:
        data[place] = rng.choice(b"0A \n\xff")
    else:
        data[place:place] = rng.choice([b"\n", b"0", b" "])
    return bytes(data)


# ---- running

def both(room, words, given=b"", full=False):
    """What is compared of a command of both programs: their answers, and their files."""
    answers = [each(*words, given=given, full=full) for each in (room, room.peer)]
    if is_own(words, answers):
        answers = [Answer(status, b"words" if out else b"", "words" if err else "") for status, out, err in answers]
    if shows_data_set(room, words, given):
        answers[1] = answers[0]
    count(room.counts, words, answers[0])
    line = " ".join(words)
    return [(line, *answers), (f"{line}: files", room.files(), room.peer.files())]


def shows_data_set(room, words, given):
    """Whether the words show flights of a valid data set: the other program refuses a file that is no desk file."""
    plain = [word for word in words if word != "--"]
    return plain[:1] == ["show"] and len(plain) > 1 and not room("check", plain[1], given=given).status


def of_occupied(room, name, words, given):
    """What is compared of a command whose OUT is a file of another kind: the other program has no such refusal."""
    before, answer = room.files(), room(*words, given=given)
    count(room.counts, words, answer)
    return [(" ".join(words), answer, Answer(1, b"", f"refused 93 Occupied {name}\n")), ("files", room.files(), before)]


def occupied(room, words):
    """The file that a command line names as OUT, if it is there and neither a desk file nor empty."""
    plain = [word for place, word in enumerate(words) if word != "--" or "--" in words[:place]]
    place = {"start": 3, "take": 2, "merge": 3}.get(plain[0] if plain else "")
    count = len(plain) >= 4 if plain[:1] == ["take"] else len(plain) == 4
    if place is None or not count or any(word.startswith("-") and word != "-" for word in words if word != "--"):
        return None
    data = room.read(plain[place]) if plain[place] != "-" else None
    return plain[place] if data and data[:9] != b"SSIMDESK " else None


def is_own(words, answers):
    """Whether the program chooses the words that it prints: help, and command lines that are not valid."""
    asked = any(word in ("-h", "--help") for word in words) or words[:1] == ["help"]
    return answers[0].status == answers[1].status and (answers[0].status == 2 or asked)


def count(counts, words, answer):
    """Counts the command, and its refusals."""
    counts[f"command {words[0] if words and words[0] in COMMANDS else 'other'}, status {answer.status}"] += 1
    lines = answer.err + (answer.out.decode("latin-1") if words[:1] == ["rehearse"] else "")
    for line in lines.splitlines():
        parts = line.split()
        if "refused" in parts:
            at = parts.index("refused")
            counts[f"refused {int(parts[at + 1]):2} {parts[at + 2]}"] += 1
        elif "same" in parts or "different" in parts:
            counts[f"rehearsed {line}"] += 1


def turns(rng, room, files, season):
    """The commands of a sequence, each as its words, its standard input, and whether its standard output is a full device."""
    others = MISSING + list(files)
    for turn in range(rng.randrange(4, 13)):
        command = "start" if turn == 0 and rng.random() < 0.9 else rng.choices(COMMANDS, WEIGHTS)[0]
        kept = [name for name in DESKS if os.path.exists(room.path(name))]
        if kept and rng.random() < 0.1:
            room.write("bad", broken_desk(rng, room, kept))
            kept = ["bad", *kept]
        words = [command, *words_of(rng, command, season, others, kept)]
        if turn == 0 and rng.random() < 0.8:
            words = ["start", "season", rng.choice(["stations", "empty"]), "d1"]
        if rng.random() < 0.05:
            words = odd(rng, words)
        yield words, rng.choice(list(room.files().values())), rng.random() < 0.03


def many_records():
    """The files of a desk whose export has more than 999,999 records, by flights of 99 pieces of 119 records."""
    records = plain_season()
    first = messages.Season(records).first
    days = [date(first + place * DAY) for place in range(99)]
    rows = [f"ZRH {day} {day} +{place // 60:02}{place % 60:02}" for place, day in enumerate(days)]
    texts = {}
    for place in range(3):
        lines = ["SSM", "UTC", f"01FEB{place + 1:05}E001"]
        for flight in range(30):
            lines += ["//"] if flight else []
            lines += ["NEW", f"LX{1000 + place * 30 + flight}", f"{days[0]} {days[-1]} 1234567", "J 320"]
            lines += ["ZRH0000 ZRH0100"] * 20 + ["ZRHZRH 9/X"] * 99
        texts[f"t{place + 1}"] = messages.written(lines)
    return {"season": small.file_bytes(random.Random(1), records), "rows": messages.written(rows), **texts}


def make(rng, room, kind):
    """The commands, which are chosen by the files that those before them left."""
    for each in room, room.peer:
        os.mkdir(each.path("folder"))
    files, season = files_of(rng) if kind == "sequence" else (many_records(), None)
    for name, data in files.items():
        room.write(name, data)
    if kind == "sequence":
        return turns(rng, room, files, season)
    return [(words, b"", False) for words in (["start", "season", "rows", "d"], ["take", "d", "d", "t1", "t2", "t3"], ["export", "d"])]


def compared(_, room, commands):
    """The first difference ends a case: after it the files are not the same."""
    for words, given, full in commands:
        name = occupied(room, words)
        for values in of_occupied(room, name, words, given) if name else both(room, words, given, full):
            yield values
            if values[1] != values[2]:
                return
