#!/usr/bin/env python3
"""Looks at pages in a browser: page_in_browser.py PROGRAM [FOLDER]

It needs `chromium` and `node`, installs nothing, and is not part of the gate: if one of them is missing it says so, and passes nothing.
The pages are those that the program prints: of the samples (a desk after the texts of the tutorial, one after a message more, the data set,
one in UTC and its desk, one with markup in every carried field and its desk), of two desks, and of 1,240 flights. `page_checks.mjs` tries on
them what `docs/FORMATS.md` and the views promise: boards as `board`, dates as `list --dates`, changes as `diff`, messages as `texts` and
`findings`, the search, keys, addresses, and that no markup comes of data. With FOLDER it draws pictures there. The last line is 'N passed,
M failed'.
"""
import os
import shutil
import subprocess
import sys
import tempfile

TESTS = os.path.dirname(os.path.abspath(__file__))
TOP = os.path.dirname(TESTS)
SAMPLES = os.path.join(TOP, "samples")
TEXTS = ["01-holiday.ssm", "02-new-times.ssm", "03-larger-aircraft.ssm", "04-new-flight.ssm", "05-other-route.ssm",
         "06-one-date-cancelled.asm", "07-put-back.asm", "08-late.ssm", "09-holiday-again.ssm", "10-hamburg-night.ssm",
         "11-hamburg-times.asm", "12-open-end.ssm"]
GONE = b"ASM\nLT\n01APR00009E001\nCNL\nZ7101D/18JUN27\n"
LATER_IN_UTC = b"SSM\nUTC\n01APR00009E001\nTIM\nZ7101\n24MAY27 24MAY27 1\nFDH0455 HAM0640\n"
HOSTILE = b"""SSM
LT
01APR00009E001/<b>&<img src=x onerror=1>
CNL
Z7103
24MAY 24MAY 1
//
SI </pre><script>alert(1)</script>
&lt;
"""


class Room:
    """A folder with the files of the tests, and the program that runs in it."""

    def __init__(self, program, folder):
        self.program, self.folder = program, folder

    def path(self, name):
        return os.path.join(self.folder, name)

    def run(self, *words):
        """What the program prints."""
        done = subprocess.run([self.program, *words], cwd=self.folder, stdout=subprocess.PIPE, check=True)
        return done.stdout.decode("latin-1")

    def write(self, name, data):
        with open(self.path(name), "wb") as file:
            file.write(data)

    def page(self, name, *files):
        """Writes the page of a file, or of two."""
        self.write(name, self.run("page", *files).encode("ascii"))

    def desk(self, name, data_set, *texts):
        """Writes the desk file of a data set after texts."""
        self.run("start", data_set, os.path.join(SAMPLES, "stations.txt"), name)
        self.run("take", name, name, *texts)


def hostile(data):
    """A data set with markup and bytes above 126 in every carried field that is on a page."""
    lines = data.split(b"\n")[:-1]
    for place, line in enumerate(lines):
        line = bytearray(line)
        if line[:1] == b"2":
            line[10:13] = b"<s>"
        if line[:1] == b"3":
            line[13:14] = [b"<", b"&", b'"', b"'"][place % 4]
            line[72:75] = [b"<b>", b"&lt", b"\"'>", b"\xff\x80<"][place % 4]
            line[75:95], line[172:192] = b"<img src=x onerror=1", b"</pre><script>alert("
            line[52:54], line[70:72] = b"<i", b'"&'
        lines[place] = bytes(line)
    return b"".join(line + b"\n" for line in lines)


def in_utc(data):
    """A data set whose times are UTC."""
    return b"\n".join(b"2U" + line[2:] if line[:1] == b"2" else line for line in data.split(b"\n"))


def make(room):
    """Writes the files and pages of the tests."""
    with open(os.path.join(SAMPLES, "season.ssim"), "rb") as file:
        season = file.read()
    room.write("season.ssim", season)
    room.write("hostile.ssim", hostile(season))
    room.write("utc.ssim", in_utc(season))
    for name, text in (("gone", GONE), ("later", LATER_IN_UTC), ("markup", HOSTILE)):
        room.write(name, text)
    subprocess.run([sys.executable, os.path.join(TOP, "make", "shapes.py"), "weeks", room.path("weeks.ssim"), "1240"], check=True)
    room.desk("fdh.desk", "season.ssim", *[os.path.join(SAMPLES, "texts", name) for name in TEXTS])
    room.run("receive", "fdh.desk", "fdh.desk", os.path.join(SAMPLES, "mail.txt"))
    room.run("take", "fdh.desk", "gone.desk", "gone")
    room.desk("utc.desk", "utc.ssim", "later")
    room.desk("hostile.desk", "hostile.ssim", "markup")
    for name, *files in (("season", "season.ssim"), ("desk", "fdh.desk"), ("gone", "gone.desk"), ("between", "fdh.desk", "gone.desk"),
                         ("same", "fdh.desk", "fdh.desk"), ("hostile", "hostile.ssim"), ("hostile_desk", "hostile.desk"),
                         ("utc", "utc.ssim"), ("utc_desk", "utc.desk"), ("weeks", "weeks.ssim")):
        room.page(name + ".html", *files)


def main():
    if len(sys.argv) not in (2, 3):
        sys.exit(__doc__)
    missing = [name for name in ("chromium", "node") if shutil.which(name) is None]
    if missing:
        print(f"{' and '.join(missing)} missing: no page was looked at\n0 passed, 0 failed")
        return 0
    with tempfile.TemporaryDirectory() as folder:
        room = Room(os.path.abspath(sys.argv[1]), folder)
        make(room)
        for pictures in sys.argv[2:]:
            os.makedirs(pictures, exist_ok=True)
        words = ["node", os.path.join(TESTS, "page_checks.mjs"), room.program, folder, *map(os.path.abspath, sys.argv[2:])]
        return subprocess.run(words, check=False).returncode


if __name__ == "__main__":
    sys.exit(main())
