"""What `--explain` before a command prints after the line of a refusal, beside a plain model of docs/FORMATS.md.

Each case is a command of tests/reasons.py. Some of its words are other ones: files of samples/ with altered places, files of other programs or
kinds, mailboxes, texts of which a desk refuses a sub-message, files that are not there or are of another airline or season, altered flights,
dates, stations, types and references; and in a case of `input` one file is the standard input. Which word or file a refusal is about is found
here: it is the first word of its kind that means nothing, or the file that is refused alike by a command that reads it alone, or the text that
comes after those that `take` printed. The lines after it are those of docs/REFUSALS.md, of the place in the file, and what is known of it by
docs/FORMATS.md. With `--explain`, or by the environment variable, all else has to be as without it.
"""
import re

import explain
import mail
import messages
import odd_files
import reasons
import refusals
import words as typed
from chapter7 import OPEN_END, date, dates_of, day_of

KINDS = ["files"] * 4 + ["words"] * 2 + ["texts"] * 3 + ["bases"] * 2 + ["input", "any"]
FILE_NAMES = ["broken", "b d", "b\\d", "b\x01d", "b\u202ed", "b\u00fc"]

# What a command may read in the place of each kind of file, and files that are valid there.
READS = {
    "dataset": ["data set"], "whole": ["data set"], "timetable": ["data set", "desk file"], "shown": ["data set", "desk file"],
    "desk": ["desk file"], "stations": ["station table"], "text": ["text"], "script": ["desk script"],
}
DATA_SETS = ["season.ssim", "planned.ssim", "lx.ssim", "utc.ssim", "many.ssim", "late.ssim", "ending.ssim"]
DESKS = ["fdh.desk", "empty.desk", "conflict.desk", "lx.desk", "many.desk", "late.desk", "ending.desk"]
VALID = {
    "dataset": DATA_SETS, "whole": DATA_SETS, "timetable": DATA_SETS + DESKS, "shown": DESKS + DATA_SETS, "desk": DESKS,
    "stations": ["stations.txt"], "text": ["texts/02-new-times.ssm"], "script": ["rehearsal.txt", "conflict.txt"],
}
# The commands that read one file of a kind and nothing else that may be refused.
ALONE = {
    "dataset": ["check", None], "whole": ["check", None], "timetable": ["info", None], "shown": ["blame", None, "1"], "desk": ["findings", None],
    "stations": ["start", "season.ssim", None, "out-alone"], "script": ["rehearse", "season.ssim", "stations.txt", None],
}
# A reference as `take` prints it.
REFERENCE = re.compile(r"[SA]SM (\d\d[A-Z]{3}\d\d) \d{5} \d{3}( [A-Z0-9]{7})?")
# The lines of `explain FILE` of which docs/ have no words, and those on an overlap.
OWN_LINES = ("field: ", "found: ", "allowed: ", "other record: ", "its number: ", "common date: ",
             "line: the file ends", "element: the file ends")

ACTIONS = ("NEW", "CNL", "RPL", "EQT", "TIM")
SEVERAL = "24 at a flight or at a frequency rate; 25, 26 or 27 at a period"
CARRIERS = "38, or 11 at a record that begins with 2"
FLIGHT = re.compile(r"([A-Z]{3}|[A-Z][A-Z0-9]|[0-9][A-Z])\d{1,4}[A-Z]?(/.*)?")
PERIOD = re.compile(r"(\d\d[A-Z]{3})(\d\d)? +(\d\d[A-Z]{3})(\d\d)?( [^/]*)?(/W.*)?")


# ---- command lines

class Command:
    """The words of a command, each with the kind of what it is."""

    def __init__(self, parts):
        self.parts = parts
        self.name, self.words = parts[0][0], [word for word, _ in parts]

    def of(self, *kinds):
        return [word for word, kind in self.parts if kind in kinds]

    def files(self):
        """The files that the command reads, each with its kind, as they come."""
        return [(word, kind) for word, kind in self.parts if kind in READS]

    def after(self, option):
        """The words after an option, as often as it comes."""
        return [word for word, before in zip(self.words[1:], self.words) if before == option]

    def of_kind(self, kind):
        """The words of a kind: first those of options, as the command looks at them."""
        options = [word for option in ("--from", "--to", "--station") for word in self.after(option) if (word, kind) in self.parts]
        return options + [word for word in self.of(kind) if word not in options]


def kind_of(command, place, word, kind):
    """The kind of a word of reasons.COMMANDS: files and flights are also there by name."""
    if kind is None and command.startswith("take ") and word.startswith("texts/"):
        return "text"
    return "flight" if kind is None and place > 1 and word == "342" else kind


def good_parts(command):
    parts = reasons.parts_of(command)
    return [(reasons.good_word(word, kind), kind_of(command, place, word, kind)) for place, (word, kind) in enumerate(parts)]


# ---- words and files that may be refused

def other_word(rng, kind):
    """A word of a kind, or one that nearly is."""
    pools = {"reference": ["SSM 15MAR27 00001 001", "SSM 16MAR27 00001 001 HAMOPZ7"],
             "published": ["05JUN00001E001", "01MAR00001E001", "05JUN99999E001"]}
    word = rng.choice(pools[kind]) if kind in pools else typed.spelled(rng, kind)
    word = rng.choice([word, word, *reasons.BAD[kind]])
    word = typed.altered(rng, word) if rng.random() < 0.5 else word
    return word if word.strip() and not word.startswith("-") and not word.startswith("ssm") else "x"


def text_of(rng, room):
    """A text that a desk may refuse."""
    season = messages.Season([line for line in room.read("season.ssim").split(b"\n") if line])
    lines = messages.message(rng, season)
    how = rng.randrange(4)
    if how == 0:
        return messages.spelt(rng, lines)
    if how == 1:
        return room.read(rng.choice(["other.ssm", "ended.ssm", "leap.ssm", "mode.asm", "other.asm", "conflict.ssm", "texts/15-utc.ssm"]))
    return messages.broken(rng, lines)[1]


def broken(rng, room, kind):
    """The bytes of a file that is none of its kind, or nearly so."""
    how = rng.randrange(8)
    if how < 3:
        data = room.read(rng.choice(VALID[kind]))
        for _ in range(rng.randrange(1, 4)):
            data = explain.altered(data, rng)
        return data
    if how == 3:
        return rng.choice(odd_files.foreign_files())[1]
    if how == 4:
        return explain.mailbox_of(rng, [room.read(name) for name in ("texts/01-holiday.ssm", "texts/14-no-such-date.ssm")])
    if how == 5:
        return rng.choice(odd_files.known_texts())[1]
    if how == 6:
        return rng.choice([*odd_files.carriers_files(), *(data for data, _ in odd_files.refused_files().values())])
    return room.read(rng.choice(VALID[rng.choice(sorted(VALID))]))


def other_file(rng, room, kind, at):
    """The name of a file in the place of one of a kind."""
    if rng.random() < 0.05:
        return rng.choice(["missing", "texts", "none/x"])
    name = f"{rng.choice(FILE_NAMES)}{at}"
    is_message = kind == "text" and rng.random() < 0.7
    room.write(name, text_of(rng, room) if is_message else broken(rng, room, kind))
    return name


def is_changed(case, kind):
    """Whether a word of a kind may be another one in a case."""
    if case == "texts":
        return kind in ("text", "desk")
    is_file = kind in READS
    return kind is not None and (case in ("any", "bases", "input") or is_file == (case == "files"))


def changed(rng, room, case, part, at):
    """Another word in the place of one of a command."""
    _, kind = part
    if kind not in READS:
        return other_word(rng, kind), kind
    by_name = case == "bases" or (case == "texts" and kind == "desk") or rng.random() < 0.2
    return (rng.choice(VALID[kind]) if by_name else other_file(rng, room, kind, at)), kind


def make(rng, room, case):
    """The command, and its standard input."""
    reasons.fill(room)
    lines = [line for line in reasons.COMMANDS if case != "texts" or line.startswith("take ")]
    parts = good_parts(rng.choice(lines))
    places = [at for at, (_, kind) in enumerate(parts) if is_changed(case, kind)]
    count = 1 if case == "input" else rng.choice([1, 1, 2, 3])
    for at in rng.sample(places, min(len(places), count)):
        parts[at] = changed(rng, room, case, parts[at], at)
    files = [at for at, (_, kind) in enumerate(parts) if kind in READS]
    given = b""
    if case == "input" and files:
        at = rng.choice(files)
        given, parts[at] = room.read(parts[at][0]) or b"", ("-", parts[at][1])
    return Command(parts), given


# ---- what a refusal is about

def airline(data):
    """The airline of a data set or a desk file, by its carrier record."""
    found = re.search(rb"^2[UL](...)", data, re.MULTILINE)
    return found[1].decode("latin-1").strip() if found else ""


class Refusal:
    """A refusal of a command: its number and place, and the word or the file that it is about."""

    def __init__(self, room, command, given, answer):
        self.room, self.command, self.given, self.answer = room, command, given, answer
        self.line = answer.err.rstrip("\n")
        self.number, self.place = int(self.line.split()[1]), " ".join(self.line.split()[3:])

    def data(self, name):
        return self.given if name == "-" else self.room.read(name) or b""

    def is_of(self, word, kind):
        """Whether a command that reads this file alone gives this refusal."""
        words = [word if part is None else part for part in ALONE[kind]]
        alone = self.room(*words, given=self.given)
        return alone.err == self.answer.err

    def is_none(self, kind, word):
        """Whether a word means nothing of its kind."""
        if kind == "reference":
            found = REFERENCE.fullmatch(word)
            return not (found and typed.meant_date(found[1]))
        return typed.meant(kind, word) is None

    def is_other(self, word, own):
        """Whether a flight is of another airline than its file."""
        word = typed.meant_flight(word.replace(" ", "").upper(), own)
        return re.match(r"[A-Z]{3}|[A-Z][A-Z0-9]|[0-9][A-Z]", word)[0] != own

    def other_airline(self):
        """The flight that is of another airline, or the second timetable; None if that cannot be known."""
        files, flights = self.command.files(), self.command.of("flight")
        names = [name for name, _ in files]
        own = [airline(self.data(name)) for name in names]
        if own[-1] != own[0]:
            return names[-1], True
        if names[0] == "-" and len(flights) > 1:
            return None
        return next(word for word in flights if self.is_other(word, own[0])), False

    def refused_text(self):
        """The text that is refused: that after those that are taken; None if a desk that is not read again may refuse any."""
        texts = self.command.of("text")
        if "-" in self.command.of("desk") and self.number >= 40 and len(texts) > 1:
            return None
        return texts[len(self.answer.out.splitlines())], True

    def wrong_word(self):
        """The word that is refused, with False; None if no word is."""
        command = self.command
        kinds = {1: "date", 3: "station", 6: "flight", 25: "aircraft", 21: "reference"}
        if self.number in (21, 42, 64, 65) and command.name == "publish":
            return command.of("published")[0], False
        if self.number == 43:
            return command.after("--from")[0], False
        if self.number in kinds:
            return next(word for word in command.of_kind(kinds[self.number]) if self.is_none(kinds[self.number], word)), False
        return None

    def about(self):
        """The word or the file that the refusal is about, and whether it is a file; None if it is about neither."""
        files = self.command.files()
        if self.number in (52, 90, 91, 92, 93):
            return None
        if self.number in (60, 61) and self.command.name != "take":
            return files[-1][0], True
        if self.command.name == "take" and self.number != 62:
            return self.refused_text()
        if self.number == 40:
            return files[-1][0], True
        if self.number == 41:
            return self.other_airline()
        if self.number in (50, 51):
            return files[0][0], True
        found = self.wrong_word() if self.number < 10 or self.number in (21, 25, 42, 43, 64, 65) else None
        return found or (next(name for name, kind in files if kind in ALONE and self.is_of(name, kind)), True)


# ---- the lines

def brackets(data):
    return "[" + "".join(chr(byte) if 32 <= byte <= 126 else "?" for byte in data) + "]"


def name_shown(name):
    """The bytes of the name of a file as in the line of 91."""
    def escaped(found):
        return "".join(f"\\x{byte:02x}" for byte in found[0].encode())

    return re.sub("[\0-\x1f\x7f-\x9f\\\\\u202a-\u202e\u2066-\u2069]", escaped, name).encode().decode("latin-1")


def likeness(first, data):
    """The kind of a file, by the first line of what `explain` has to print of it."""
    word, _, rest = first.partition(" ")
    if word in ("valid", "foreign"):
        return rest
    kind = explain.taken_for(data)
    return "mailbox" if word == "mailbox" else explain.NAMES.get(kind, kind)


def rate(text):
    """The frequency rate after the days of a period, of which they may be missing; None if a line begins with no period."""
    found = PERIOD.fullmatch(text)
    days = [found[1], found[3]] if found else [""]
    return found[6] or "" if all(day == "00XXX" or typed.meant_date(f"{day}28") for day in days) else None


def known(number, text):
    """What is known of the line of a text, or of a record, that is refused with this number; or nothing."""
    rows = dict(refusals.rows_from("docs/FORMATS.md", "| Refused | `known` |"))
    first = re.match("[^ /]*", text)[0]
    cells = []
    if number == 22:
        cells = [cell for cell in rows if cell.startswith("22 at ") and first in re.findall(r"\b[A-Z]{3}\b", cell)]
        cells += ["22 at an action that is taken, and more"] * (first in ACTIONS and text != first)
    elif number == 24 and (FLIGHT.fullmatch(text) or rate(text)) or number in (25, 26, 27) and rate(text) is not None:
        cells = [SEVERAL]
    elif number == 38 or number == 11 and text.startswith("2"):
        cells = [CARRIERS]
    return [f"known: {rows[cell]}" for cell in cells]


def shown_place(data, number, place):
    """The line that shows what is at the place, and what is known of it; nothing if the file ends before it."""
    if not place.startswith("offset ") and len(data.split(b"\n")) < int(place.split()[1]):
        return []
    line = refusals.there(data, place).rstrip("\n")
    return [*filter(None, [line]), *known(number, line[line.find("[") + 1 : -1])]


def dates_in(lines, record):
    """The dates of a leg record of a data set."""
    first, last, digits = (record[at:end].decode("latin-1") for at, end in ((14, 21), (21, 28), (28, 35)))
    last = lines[1][21:28].decode("latin-1") if last == OPEN_END else last
    return dates_of(day_of(first), day_of(last), digits)


def overlap(data, place, other):
    """The lines on the record with the number `other`, with which that of the place has a date in common; nothing if it has none."""
    lines = data.split(b"\n")
    found, record = lines[other - 1], lines[int(place.split()[1]) - 1]
    common = sorted({*dates_in(lines, found)} & {*dates_in(lines, record)})
    if (found[1:9], found[11:13]) != (record[1:9], record[11:13]) or not common:
        return []
    return [f"other record: {brackets(found[:200])}", f"its number: {other}", f"common date: {date(common[0])}"]


def message_line(data, number, place):
    """The line of a text that a desk refuses."""
    lines = [line for line in map(mail.shown, data.split(b"\n")) if line]
    lines = lines[1:] if lines[0].startswith(b".") else lines
    kind, *rest = lines
    has_mode = rest[0] in (b"UTC", b"LT")
    if number == 40:
        return rest[0] if has_mode else kind
    sub, rest = int(place.split()[1]), rest[has_mode:]
    if sub == 0:
        return rest[0]
    parts = b"\n".join(rest[1:]).split(b"\n//\n")
    named, *more = parts[sub - 1].split(b"\n")[1:]
    return named if number == 41 or kind == b"ASM" else more[0]


class Explained:
    """The lines after that of a refusal."""

    def __init__(self, refusal):
        self.refusal, self.room = refusal, refusal.room
        name, meaning, remedy = refusals.refusals()[refusal.number]
        self.meaning, self.remedy = f"{name}: {meaning}", f"what to do: {remedy}"
        self.of_file = None

    def lines(self):
        """The lines, without those of which docs/ have no words."""
        about = self.refusal.about()
        if about is None:
            return [self.meaning, self.remedy]
        word, is_file = about
        if not is_file:
            return [f"word: {brackets(word.encode())}", self.meaning, self.remedy]
        head = [f"file: {name_shown(word)}"]
        return [*head, *([self.meaning, self.remedy] if word == "-" else self.on_file(word))]

    def on_file(self, name):
        """The lines on a file that can be read once more."""
        data, (number, place) = self.room.read(name), (self.refusal.number, self.refusal.place)
        first = explain.lines_wanted(self.room, name)[0]
        like = likeness(first, data)
        kinds = [kind for word, kind in self.refusal.command.files() if word == name]
        looks = [] if any(like in READS[kind] for kind in kinds) else [f"looks like: {like}"]
        if first == self.refusal.line:
            self.of_file = name
            return [*looks, self.meaning, *shown_place(data, number, place), self.remedy]
        shown = self.refusal.command.name == "take" and number in (40, 41, 42, 43)
        line = [f"line: {brackets(message_line(data, number, place))}"] if shown else []
        return [*looks, *line, self.meaning, self.remedy]


def is_plain(data, place):
    """Whether the record of a place is on the line of its number, or after the last line."""
    lines, at = data.split(b"\n"), int(place.split()[1]) - 1
    return all(len(line) == 200 for line in lines[:at]) and (at + 1 >= len(lines) or len(lines[at]) >= 200)


def outs(room):
    """The files that commands keep, which are removed."""
    found = {name: data for name, data in room.files().items() if name.startswith("out")}
    for name in found:
        room.remove(name)
    return found


def compared(rng, room, case):
    command, given = case
    words = command.words
    plain = room(*words, given=given)
    kept = outs(room)
    if rng.random() < 0.5:
        asked = room("--explain", *words, given=given)
    else:
        asked = room(*words, given=given, env={"SSIMDESK_EXPLAIN": "1"})
    yield f"{words}: files", outs(room), kept
    if plain.status != 1:
        room.counts[f"status {plain.status}"] += 1
        yield f"{words}", asked, plain
        return
    refusal = Refusal(room, command, given, plain)
    explained = Explained(refusal)
    wanted = explained.lines()
    outs(room)
    names = [line.partition(":")[0] for line in wanted]
    room.counts[f"{command.name}: {refusal.number:2} of a {names[0]}"] += 1
    room.counts.update(f"lines: {name}" for name in names if name in ("looks like", "known", "line"))
    first, *lines = asked.err.split("\n")[:-1]
    told = [line for line in lines if not line.startswith(OWN_LINES)]
    data = refusal.data(explained.of_file) if explained.of_file else b""
    of_record = refusal.place.startswith("record") and explained.of_file
    if of_record and not is_plain(data, refusal.place):
        wanted, told = ([line for line in these if not line.startswith("record: ")] for these in (wanted, told))
    elif of_record and refusal.number == 34:
        shown = [line for line in lines if line.startswith(OWN_LINES)]
        yield f"{words}: overlap", shown, overlap(data, refusal.place, int(shown[1].split()[-1]))
    yield f"{words}: lines", [first, *told], [refusal.line, *wanted]
    yield f"{words}: the rest", asked._replace(err=""), plain._replace(err="")
    if explained.of_file:
        of_file = room("explain", explained.of_file).out.decode("latin-1").splitlines()[1:]
        yield f"{words}: explain {explained.of_file}", lines[-len(of_file) :], of_file
