"""What `--explain` before a command prints after the line of a refusal, for each command and each kind of refusal.

A command is a line of words in braces, of which each says what stands there: `{dataset}`, `{desk}`, `{date}` .. . All of them have a good
value. Then each in turn has a bad one, and the refusal is about that word: the line after that of the refusal is `file: ` and its name, or
`word: ` and the word in brackets, by the table of docs/FORMATS.md. The other lines are those of `explain FILE` or `explain NUMBER`. The
status, the standard output, the first line and all files are as without the option.
"""
import os
import shutil
import subprocess
import tempfile

from odd_files import over

TOP = os.path.dirname(os.path.dirname(os.path.abspath(__file__)))

# The commands, by what each word is. A name after a colon is how the word differs from another of its kind.
COMMANDS = """\
check {dataset}
tidy {dataset}
start {dataset} {stations} out
start --notes {dataset} {stations} out
take {desk} out {text:one}
take {desk} out texts/01-holiday.ssm {text:one} texts/03-larger-aircraft.ssm
receive {desk} out mail.txt
merge {desk} {desk:other} out
merge --since {desk:old} {desk} {desk:other} out
carry {desk} {desk:other} out
texts --from {date} --to {date:to} {desk} {flight} 342
withdraw {desk} out {reference} {reference:other}
show {shown} {flight} {flight:other} {date}
history {shown} 342 {flight} {date}
list --station {station} --aircraft {aircraft} --station {station:other} --from {date} {timetable} 342 {flight}
board {timetable} {station} {date}
calendar --to {date} {timetable} {flight}
info {timetable}
stations {timetable}
sql {timetable}
blame {shown} {flight} 342
diff --from {date} --to {date:to} --station {station} {timetable} {timetable:to} {flight}
publish {timetable} {timetable:to} {published} out
page {timetable}
page {timetable} {timetable:to}
findings --from {date} {desk} {flight}
export {desk}
select --aircraft 320 --aircraft {aircraft} --from {date} --to {date:to} {timetable} {flight}
convert utc {timetable} out
split {whole} out-
rehearse {dataset} {stations} {script}
""".splitlines()

# A good value of each kind of word.
GOOD = {
    "dataset": "season.ssim", "stations": "stations.txt", "desk": "fdh.desk", "timetable": "season.ssim", "shown": "fdh.desk",
    "whole": "season.ssim", "text": "texts/02-new-times.ssm", "script": "rehearsal.txt", "flight": "341", "date": "1jul27", "date:to": "5jul27", "station": "HAM",
    "aircraft": "320", "reference": "SSM 15MAR27 00001 001", "published": "05JUN00001E001",
}

# The bad values of each kind of word, with the number of the refusal.
BAD = {
    "dataset": {"cut.ssim": 10, "type.ssim": 11, "column.ssim": 12, "twice.ssim": 34, "stations.txt": 11, "fdh.desk": 11, "none.gz": 11},
    "whole": {"stations.txt": 11, "fdh.desk": 11, "mail.txt": 10},
    "timetable": {"column.ssim": 12, "broken.desk": 62, "mail.txt": 10},
    "shown": {"column.ssim": 62, "broken.desk": 62},
    "desk": {"broken.desk": 62, "season.ssim": 62},
    "stations": {"broken.txt": 39, "season.ssim": 39},
    "text": {"texts/14-no-such-date.ssm": 24, "mail.txt": 20, "season.ssim": 20, "texts/15-utc.ssm": 40, "other.ssm": 41,
             "ended.ssm": 43, "conflict.ssm": 60},
    "script": {"broken-script": 63, "stations.txt": 63},
    "flight": {"Z7341X!": 6, "LX341": 41},
    "date": {"31jun27": 1},
    "station": {"HAMB": 3},
    "aircraft": {"A320": 25},
    "reference": {"SSM 15MAR27": 21},
    "published": {"05JUN": 21, "30FEB00001E001": 21},
}

# The words of whole commands of which two files or words together are refused, the number, and the file or the word.
TOGETHER = [
    (["merge", "fdh.desk", "lx.desk", "out"], 61, "lx.desk"),
    (["merge", "--since", "lx.desk", "fdh.desk", "fdh.desk", "out"], 61, "fdh.desk"),
    (["merge", "fdh.desk", "conflict.desk", "out"], 60, "conflict.desk"),
    (["carry", "fdh.desk", "lx.desk", "out"], 61, "lx.desk"),
    (["carry", "fdh.desk", "conflict.desk", "out"], 60, "conflict.desk"),
    (["diff", "season.ssim", "lx.ssim"], 41, "lx.ssim"),
    (["diff", "fdh.desk", "utc.ssim"], 40, "utc.ssim"),
    (["publish", "season.ssim", "lx.ssim", "05JUN00001E001", "out"], 41, "lx.ssim"),
    (["publish", "season.ssim", "utc.ssim", "05JUN00001E001", "out"], 40, "utc.ssim"),
    (["publish", "fdh.desk", "fdh.desk", "01MAR00001E001", "out"], 64, "[01MAR00001E001]"),
    (["publish", "late.ssim", "late.ssim", "05MAR00001E001", "out"], 42, "[05MAR00001E001]"),
    (["take", "late.desk", "out", "texts/01-holiday.ssm"], 42, "texts/01-holiday.ssm"),
    (["publish", "season.ssim", "planned.ssim", "29FEB00001E001", "out"], 0, None),
    (["page", "season.ssim", "utc.ssim"], 40, "utc.ssim"),
    (["list", "--from", "2jul27", "--to", "1jul27", "season.ssim"], 43, "[2jul27]"),
    (["texts", "--from", "2jul27", "--to", "1jul27", "fdh.desk"], 43, "[2jul27]"),
    (["show", "fdh.desk", "341", "LX1", "LX2", "1jul27"], 41, "[LX1]"),
    (["list", "season.ssim", "Z7341", "LX1", "341"], 41, "[LX1]"),
    (["take", "fdh.desk", "out", "texts/01-holiday.ssm", "other.ssm", "texts/14-no-such-date.ssm"], 41, "other.ssm"),
    (["tidy", "many.ssim"], 50, "many.ssim"),
    (["select", "many.ssim"], 50, "many.ssim"),
    (["convert", "local", "many.ssim", "out"], 50, "many.ssim"),
    (["export", "many.desk"], 50, "many.desk"),
    (["list", "none"], 91, None),
    (["problems", "none"], 91, None),
    (["explain", "none"], 91, None),
    (["take", "fdh.desk", "season.ssim", "texts/01-holiday.ssm"], 93, None),
    (["board", "season.ssim", "HÄM", "1jul27"], 3, "[H??M]"),
    (["show", "season.ssim", "341\n342", "1jul27"], 6, "[341?342]"),
]


def many_variations(records):
    """A data set with a flight that has other times on each of a hundred days."""
    head, leg, tail = records[:2], next(record for record in records if record[:1] == b"3"), records[-1]
    legs = []
    for day in range(100):
        date = b"%02d%sxx" % (day % 25 + 1, [b"APR", b"MAY", b"JUN", b"JUL"][day // 25])
        date = date.replace(b"xx", b"27")
        times = b"%02d%02d" % (day // 60, day % 60)
        legs.append(over(over(over(over(leg, 15, date + date), 29, b"1234567"), 40, times), 44, times))
    made = [*head, *legs, tail]
    made = [over(record, 195, b"%06d" % (at + 1)) for at, record in enumerate(made)]
    made[-1] = over(made[-1], 188, b"%06dE" % (len(made) - 1))
    return b"\n".join(made) + b"\n"


def fill(room):
    """Writes the samples into the folder of a room, and bad files of each kind. A room that is called runs a command there."""
    shutil.copytree(os.path.join(TOP, "samples"), room.folder, dirs_exist_ok=True)
    season = room.read("season.ssim")
    records = season.split(b"\n")[:-1]
    legs = [at for at, record in enumerate(records) if record[:1] == b"3"]
    room.write("cut.ssim", season[:-100])
    room.write("type.ssim", season.replace(records[legs[1]], over(records[legs[1]], 1, b"7")))
    room.write("column.ssim", season.replace(records[legs[1]], over(records[legs[1]], 37, b"1")))
    room.write("twice.ssim", b"\n".join([*records[: legs[0] + 1], *records[legs[0] :]]) + b"\n")
    room.write("none.gz", b"\x1f\x8b\x08\x00" + bytes(300))
    room.write("broken.txt", room.read("stations.txt") + b"HAM\n")
    room.write("broken-script", b"DESKS 2\nTAKE 3 texts/01-holiday.ssm\n")
    text = room.read("texts/14-no-such-date.ssm")
    room.write("other.ssm", text.replace(b"31APR27 31APR27 5", b"30APR27 30APR27 5\n//\nCNL\nLX1\n30APR27 30APR27 5"))
    room.write("ended.ssm", text.replace(b"31APR27 31APR27 5", b"30APR27 29APR27 5"))
    room.write("other.asm", b".HAMOPZ7\nASM\nLT\n17MAR00005E001\nCNL\nLX1/30APR\n")
    room.write("leap.ssm", text.replace(b"31APR27 31APR27 5", b"01MAR97 01MAR97 5\n//\nCNL\nZ7111\n29FEB 29FEB 1"))
    room.write("mode.asm", b".HAMOPZ7\nASM\n17MAR00005E001\nCNL\nZ7111/30APR\n")
    room.write("conflict.ssm", room.read("texts/01-holiday.ssm").replace(b"Z7104", b"Z7111"))
    lx = b"\n".join(over(record, 3, b"LX ") if record[:1] in b"2345" else record for record in records) + b"\n"
    room.write("lx.ssim", lx)
    room.write("many.ssim", many_variations(records))
    room.write("late.ssim", season.replace(records[1], over(records[1], 29, b"01NOV99")))
    room.write("ending.ssim", b"\n".join([records[0], over(records[1], 15, b"01MAR9731DEC9901MAR97"), records[-1], b""]))
    room("start", "season.ssim", "stations.txt", "empty.desk")
    room("take", "empty.desk", "fdh.desk", "texts/01-holiday.ssm", "texts/03-larger-aircraft.ssm")
    room("take", "empty.desk", "conflict.desk", "conflict.ssm")
    for name in ("lx", "many", "late", "ending"):
        room("start", f"{name}.ssim", "stations.txt", f"{name}.desk")
    room("convert", "utc", "season.ssim", "utc.ssim")
    room.write("broken.desk", room.read("fdh.desk")[:-5])


class Room:
    """A folder with the files of `fill`."""

    def __init__(self, program, folder):
        self.program, self.folder = program, folder
        fill(self)

    def write(self, name, data):
        with open(os.path.join(self.folder, name), "wb") as file:
            file.write(data)

    def read(self, name):
        with open(os.path.join(self.folder, name), "rb") as file:
            return file.read()

    def files(self):
        """The names of all files, and the bytes of those that a command may keep."""
        names = sorted(os.listdir(self.folder))
        kept = {name: self.read(name) for name in names if name.startswith("out")}
        for name in kept:
            os.remove(os.path.join(self.folder, name))
        return names, kept

    def __call__(self, *words, set_to=None, given=b""):
        """The status of the program, what it printed, and the files."""
        env = {name: value for name, value in os.environ.items() if name != "SSIMDESK_EXPLAIN"}
        if set_to is not None:
            env["SSIMDESK_EXPLAIN"] = set_to
        done = subprocess.run([self.program, *words], cwd=self.folder, env=env, input=given, capture_output=True, timeout=120, check=False)
        return done.returncode, done.stdout, done.stderr.decode("utf-8", "replace"), self.files()


def parts_of(command):
    """The words of a command, each with its kind, if it has one."""
    for word in command.split(" "):
        yield (word[1:-1], word[1:-1].partition(":")[0]) if word.startswith("{") else (word, None)


def good_word(word, kind):
    """A good value of a word of a command."""
    return GOOD.get(word, GOOD[kind]) if kind else word


def bad_lines(command):
    """The words of the command with one bad value, for each place and each bad value, with the number and that value."""
    parts = list(parts_of(command))
    good = [good_word(*part) for part in parts]
    for at, (_word, kind) in enumerate(parts):
        for value, number in BAD.get(kind, {}).items():
            shown = value if "." in value or value == "broken-script" else f"[{value}]"
            yield [*good[:at], value, *good[at + 1 :]], number, shown


def first_lines(number, about):
    """The line after that of the refusal, which names the file or the word; none for what names neither."""
    if about is None:
        return []
    return [f"word: {about}"] if about.startswith("[") else [f"file: {about}"]


def kinds(line):
    """What a file is told to be, by the first line of what `explain` prints of it."""
    if line.startswith("foreign "):
        return line.split()[1]
    return "mailbox" if line.startswith("mailbox ") else ""


def rest_wanted(room, line, about, rest):
    """Whether the lines after that of the file or the word are right: of `explain FILE`, or of `explain NUMBER` after other lines."""
    of_number = room("explain", line.split()[1])[1].decode().splitlines()[1:]
    if about is None or about.startswith("["):
        return rest == of_number
    of_file = room("explain", about)[1].decode("utf-8", "replace").splitlines()
    if rest and rest[0].startswith("looks like: "):
        shown = rest.pop(0).partition(": ")[2]
        if not (kinds(of_file[0]) == shown or f"valid {shown}" == of_file[0] or of_file[0].startswith("refused ")):
            return False
    elif kinds(of_file[0]):
        return False
    if of_file[0] == line:
        return rest == of_file[1:]
    if rest and rest[0].startswith("line: [") and line.split()[1] in ("40", "41", "42", "43"):
        rest = rest[1:]
    return rest == of_number


def fault(room, words, number, about):
    """What is wrong with what is printed with `--explain`; an empty text if nothing is."""
    status, out, err, files = room(*words)
    asked = room("--explain", *words)
    for told in (room(*words, set_to="1"), room("--explain", *words, set_to="yes")):
        if told != asked:
            return f"the variable does not do what the option does: {told}"
    if room(*words, set_to="") != (status, out, err, files):
        return "the empty variable is taken for one that is set"
    if (asked[0], asked[1], asked[3]) != (status, out, files):
        return f"the status, the standard output or the files are others: {asked}"
    if number == 0:
        return "" if status == 0 and asked[2] == err == "" else f"expected no refusal, not {err}"
    if status != 1 or not err.startswith(f"refused {number} ") or err.count("\n") != 1:
        return f"expected the refusal {number}, not {status} {err}"
    first, *lines = asked[2].splitlines()
    head = first_lines(number, about)
    if first + "\n" != err or lines[: len(head)] != head:
        return f"expected {err}{head}, not {asked[2]}"
    return "" if rest_wanted(room, first, about, lines[len(head) :]) else f"wrong lines after the first: {asked[2]}"


def shown_message_lines(room):
    """The line of a text that is shown of each refusal by a desk."""
    for desk, name, line in (
        ("fdh.desk", "texts/15-utc.ssm", "UTC"), ("fdh.desk", "other.ssm", "LX1"), ("fdh.desk", "ended.ssm", "30APR27 29APR27 5"),
        ("late.desk", "texts/01-holiday.ssm", "15MAR00001E001"), ("ending.desk", "leap.ssm", "29FEB 29FEB 1"),
        ("fdh.desk", "other.asm", "LX1/30APR"), ("fdh.desk", "mode.asm", "ASM"),
    ):
        err = room("--explain", "take", desk, "out", name)[2]
        yield f"the line of {name} that is shown", "" if f"\nline: [{line}]\n" in err else err


def other_words(room):
    """Words that are no refused command are as without the option."""
    for words in ([], ["--help"], ["--version"], ["check"], ["nothing"], ["--explain", "check", "season.ssim"], ["check", "--explain", "season.ssim"],
                  ["diff", "--status", "season.ssim", "planned.ssim"], ["check", "season.ssim"], ["help", "list"]):
        plain = room(*words)
        asked = room("--explain", *words)
        if words[:1] == ["--explain"]:
            yield f"{words} twice", "" if asked[0] == 2 and asked[1] == b"" else str(asked)
            continue
        yield f"{words} with --explain", "" if plain == asked else str(asked)
        yield f"{words} with the variable", "" if plain == room(*words, set_to="1") else str(words)


def standard_input(room):
    """Of the standard input, which is not read again, the name and the number's lines are printed."""
    for words, given, number in (
        (["check", "-"], room.read("column.ssim"), 12),
        (["take", "fdh.desk", "out", "-"], room.read("other.ssm"), 41),
        (["take", "fdh.desk", "out", "texts/01-holiday.ssm", "-"], room.read("texts/14-no-such-date.ssm"), 24),
        (["take", "fdh.desk", "out", "-", "texts/14-no-such-date.ssm"], b"SSM\nLT\n01JUN00001E001\nXXX\n", 22),
        (["merge", "fdh.desk", "-", "out"], room.read("broken.desk"), 62),
        (["merge", "-", "fdh.desk", "out"], room.read("broken.desk"), 62),
    ):
        status, _, err, _ = room("--explain", *words, given=given)
        lines = err.splitlines()
        right = status == 1 and lines[0].startswith(f"refused {number} ") and lines[1] == "file: -"
        of_number = room("explain", str(number))[1].decode().splitlines()[1:]
        yield f"{words} of the standard input", "" if right and lines[2:] == of_number else f"{status} {err}"


def reasons(program):
    """The name of each case, an empty text, and what is wrong."""
    with tempfile.TemporaryDirectory() as folder:
        room = Room(program, folder)
        for command in COMMANDS:
            for words, number, about in bad_lines(command):
                yield f"--explain {' '.join(words)}", "", fault(room, words, number, about)
        for words, number, about in TOGETHER:
            yield f"--explain {' '.join(words)}", "", fault(room, words, number, about)
        for cases in (shown_message_lines, other_words, standard_input):
            for name, wrong in cases(room):
                yield name, "", wrong
