"""The commands on small files, run under a library that refuses some of their calls (refusing.c).

`Runs` is a folder with the files; `COMMANDS` names a command line for each command, and the file that it keeps last.
"""
import dataclasses
import os
import shutil
import struct
import subprocess
import tempfile

HERE = os.path.dirname(os.path.abspath(__file__))
SAMPLES = os.path.join(os.path.dirname(HERE), "samples")

# The library's numbers: no call is refused.
NEVER = 1 << 40

# `earlier` comes before those that the desks hold in order of reference, and `later` behind them.
TEXTS = {
    "first": "SSM\nUTC\n01JUN00001E001\nCNL\nLX544\n01JUL25 07JUL25 2\n",
    "second": "SSM\nUTC\n02JUN00001E001\nEQT\nLX544\n01JUL25 31JUL25 6\nJ 321 CY.C12Y180\n",
    "later": "SSM\nUTC\n03JUN00001E001\nCNL\nLX544\n10JUL25 12JUL25 1234567\n//\nTIM\nLX544\n01AUG25 08AUG25 5\nZRH0900 LHR0945\n",
    "earlier": "SSM\nUTC\n31MAY00001E001\nNEW\nLX540\n01JUL25 14JUL25 24\nJ 320 CY.C12Y138\nLHR0500 ZRH0640\n",
    "other": "SSM\nUTC\n01JUN00001E001\nCNL\nLX544\n02JUL25 02JUL25 3\n",
}
SCRIPT = "DESKS 3\nTAKE 1 first\nTAKE 2 later\nTAKE 1 second\nMERGE 2 1\nTAKE 2 other\nTAKE 3 earlier\nMERGE 3 2\nMERGE 1 3\nTAKE 1 first\n"

# The texts of a mailbox: the desk takes one, holds one, refuses two for what they say, and takes the last. None of them depends on
# another.
MAIL = [TEXTS["earlier"], TEXTS["first"], TEXTS["other"], "SSM\nUTC\n04JUN00001E001\nCNL\nLX544\n31JUN25 31JUN25 2\n", TEXTS["later"]]


def mailbox(texts):
    """The mailbox of these texts, as it is kept of refused ones."""
    return "".join(text + "NNNN\n" for text in texts).encode()


DESKS = ("start season stations base", "take base desk first second", "take base theirs first later")

COMMANDS = [
    ("check", ["check", "season"], None),
    ("problems", ["problems", "season"], None),
    ("problems of an invalid data set", ["problems", "stations"], None),
    ("tidy", ["tidy", "season"], None),
    ("start", ["start", "season", "stations", "old"], "old"),
    ("start --notes", ["start", "--notes", "season", "rows", "old"], "old"),
    ("take", ["take", "desk", "desk", "earlier", "first", "later"], "desk"),
    ("take --effects", ["take", "--effects", "desk", "desk", "earlier", "later"], "desk"),
    ("receive", ["receive", "--refused", "back", "desk", "new", "mail", "missing"], "new"),
    ("receive --csv", ["receive", "--csv", "--refused", "back", "desk", "new", "mail", "missing"], "new"),
    ("merge", ["merge", "desk", "theirs", "new"], "new"),
    ("merge --since", ["merge", "--since", "base", "desk", "theirs", "new"], "new"),
    ("merge --effects", ["merge", "desk", "theirs", "new", "--effects"], "new"),
    ("carry", ["carry", "desk", "theirs", "new"], "new"),
    ("carry --effects", ["carry", "--effects", "desk", "theirs", "new"], "new"),
    ("withdraw", ["withdraw", "theirs", "theirs", "SSM 01JUN25 00001 001", "SSM 02JUN25 00001 001"], "theirs"),
    ("withdraw --effects", ["withdraw", "--effects", "theirs", "theirs", "SSM 01JUN25 00001 001"], "theirs"),
    ("texts", ["texts", "desk", "LX544", "LX540"], None),
    ("texts of dates", ["texts", "--to", "1jul25", "desk", "LX544", "LX540"], None),
    ("show", ["show", "desk", "LX544", "01JUL25"], None),
    ("show of flights", ["show", "desk", "LX544", "LX540", "LX544", "01JUL25"], None),
    ("history", ["history", "desk", "LX544", "01JUL25"], None),
    ("history of flights", ["history", "desk", "LX540", "LX544", "01JUL25"], None),
    ("blame", ["blame", "desk", "LX544", "LX540"], None),
    ("blame --csv", ["blame", "--csv", "desk", "LX544", "LX540"], None),
    ("board", ["board", "desk", "ZRH", "01JUL25"], None),
    ("board of dates", ["board", "--days", "3", "--departures", "desk", "ZRH", "01JUL25"], None),
    ("list", ["list", "desk", "LX544", "LX540"], None),
    ("list --dates", ["list", "--dates", "desk"], None),
    ("list --csv", ["list", "--csv", "desk"], None),
    ("list --csv --dates", ["list", "--csv", "--dates", "desk", "LX544"], None),
    ("list of a part", ["list", "--station", "LHR", "--to", "1oct25", "desk"], None),
    ("list of a part of flights", ["list", "--aircraft", "320", "--from", "1jul25", "desk", "LX544", "LX540"], None),
    ("calendar", ["calendar", "desk", "LX544"], None),
    ("calendar of a part", ["calendar", "--station", "LHR", "--from", "1jul25", "desk", "LX544", "LX540"], None),
    ("info", ["info", "desk"], None),
    ("stations", ["stations", "desk"], None),
    ("sql", ["sql", "desk"], None),
    ("sql of a data set", ["sql", "season"], None),
    ("page", ["page", "desk"], None),
    ("diff", ["diff", "theirs", "desk"], None),
    ("diff --summary", ["diff", "--summary", "theirs", "desk"], None),
    ("diff --csv", ["diff", "--csv", "theirs", "desk"], None),
    ("diff of a part", ["diff", "--station", "LHR", "--aircraft", "320", "--from", "1jul25", "theirs", "desk", "LX544", "LX540"], None),
    ("publish", ["publish", "desk", "theirs", "05JUN00001E001", "new"], "new"),
    ("findings", ["findings", "desk"], None),
    ("findings of a flight", ["findings", "desk", "LX544"], None),
    ("findings of dates", ["findings", "--from", "1jul25", "desk", "LX544"], None),
    ("convert", ["convert", "local", "desk", "new"], "new"),
    ("convert to the same mode", ["convert", "utc", "desk", "new"], "new"),
    ("select", ["select", "--station", "LHR", "--aircraft", "320", "--from", "1jul25", "desk", "LX544", "LX540"], None),
    ("split", ["split", "season", "new-"], "new-LX.ssim"),
    ("export", ["export", "desk"], None),
    ("rehearse", ["rehearse", "season", "stations", "script"], None),
    ("explain a number", ["explain", "34"], None),
    ("explain a data set", ["explain", "twice"], None),
    ("explain a text", ["explain", "cut"], None),
    ("explain a desk file", ["explain", "desk"], None),
]


@dataclasses.dataclass(frozen=True)
class Answer:
    """What a run gave: its status, what it printed, the files afterwards, and how many of its calls were refused."""
    status: int
    out: bytes
    err: bytes
    files: dict
    refused: int


def fast_folder():
    """A folder in memory, if there is one: a file is synced whenever it is kept."""
    return "/dev/shm" if os.access("/dev/shm", os.W_OK) else None


def built_library(folder):
    """The library of refusing.c, built into a folder."""
    library = os.path.join(folder, "refusing.so")
    compiler = shutil.which("cc") or shutil.which("clang") or "cc"
    subprocess.run([compiler, "-shared", "-fPIC", "-O1", "-o", library, os.path.join(HERE, "refusing.c"), "-ldl"], check=True)
    return library


class Runs:
    """A folder of its own with small files, in which a program runs. `desks` are the command lines that make the desk files."""

    def __init__(self, program, library, desks=DESKS):
        self.program, self.library = program, library
        self.room = tempfile.TemporaryDirectory(dir=fast_folder())
        self.folder = os.path.join(self.room.name, "files")
        self.told = os.path.join(self.room.name, "told")
        os.mkdir(self.folder)
        self.write({name: text.encode() for name, text in TEXTS.items()})
        self.write({"script": SCRIPT.encode(), "old": b"SSIMDESK of another office\n", "stations": b"ZRH 30MAR25 25OCT25 +0200\nLHR 30MAR25 25OCT25 +0100\n",
                    "rows": b"ZRH 30MAR25 25OCT25 +0100\n"})
        with open(os.path.join(HERE, "program", "divided.ssim"), "rb") as file:
            lines = file.read().splitlines(keepends=True)
        self.write({"season": b"".join(lines), "twice": b"".join([*lines[:3], *lines[2:]]), "cut": TEXTS["later"][:60].encode(),
                    "mail": b"ZCZC ABC1\n" + mailbox(MAIL)})
        for words in desks or ():
            assert self.run(words.split()).status == 0, words
        self.start = self.files()

    def __enter__(self):
        return self

    def __exit__(self, *_):
        self.room.cleanup()

    def write(self, files):
        for name, data in files.items():
            path = os.path.join(self.folder, name)
            if os.path.exists(path):
                os.unlink(path)
            with open(path, "wb") as file:
                file.write(data)

    def files(self):
        found = {}
        for name in sorted(os.listdir(self.folder)):
            with open(os.path.join(self.folder, name), "rb") as file:
                found[name] = file.read()
        return found

    def put_back(self, files):
        """Makes the files what they were before the first run."""
        for path in [os.path.join(self.folder, name) for name in files if name not in self.start]:
            if os.path.exists(path):
                os.unlink(path)
        self.write({name: data for name, data in self.start.items() if files.get(name) != data})

    def each(self, words, first, step, given=b""):
        """Runs the program, and from a growth on refuses each step-th of them in a copy of it: the number of the growth and the answer of
        each copy, without files; and at last 0 and the answer of the program itself."""
        environment = {"LD_PRELOAD": self.library, "REFUSED": "growths", "FROM": str(first), "TO": str(NEVER), "STEP": str(step)}
        with (tempfile.TemporaryFile(dir=self.room.name) as source, tempfile.TemporaryFile(dir=self.room.name) as out,
              tempfile.TemporaryFile(dir=self.room.name) as err):
            source.write(given)
            source.seek(0)
            ours, theirs = os.pipe()
            with (open(ours, "rb") as copies, subprocess.Popen([self.program, *words], cwd=self.folder, stdin=source, stdout=out, stderr=err,
                                                               env={**environment, "EACH": str(theirs)}, pass_fds=[theirs]) as ran):
                os.close(theirs)
                while head := copies.read(32):
                    number, status, *sizes = struct.unpack("=4q", head)
                    yield number, Answer(status, copies.read(sizes[0]), copies.read(sizes[1]), {}, 1)
            out.seek(0)
            err.seek(0)
            yield 0, Answer(ran.returncode, out.read(), err.read(), {}, 0)

    def run(self, words, what="growths", first=NEVER, last=NEVER, error=0, given=b""):
        """Runs the program, and refuses the calls of these numbers. `given` is its standard input."""
        environment = {"LD_PRELOAD": self.library, "REFUSED": what, "FROM": str(first), "TO": str(last), "ERROR": str(error),
                       "TOLD": self.told}
        done = subprocess.run([self.program, *words], cwd=self.folder, env=environment, input=given,
                              capture_output=True, timeout=60, check=False)
        refused = 0
        if os.path.exists(self.told):
            refused = os.path.getsize(self.told)
            os.unlink(self.told)
        return Answer(done.returncode, done.stdout, done.stderr, self.files(), refused)
