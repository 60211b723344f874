"""A folder in which a program runs, and beside it the folder of another program."""
import collections
import os
import shutil
import subprocess

import small
from messages import Season, station_rows, written

Answer = collections.namedtuple("Answer", "status out err")


def said(lines):
    """The answer of a command that prints these lines."""
    return Answer(0, written(lines), "")


def lines_of(answer):
    """The lines that a command printed."""
    return answer.out.decode("ascii").splitlines()


class Room:
    """A program in a folder of its own. What is written there is also written for the peer, if there is one. `counts` has what came."""

    def __init__(self, folder, program, peer=None):
        self.folder, self.program, self.counts = folder, program, collections.Counter()
        self.peer = Room(f"{folder}.peer", peer) if peer else None
        os.makedirs(folder)

    def __call__(self, *words, given=b"", full=False, env=None):
        """The answer to a command; `full` is for a full device as standard output, `env` has variables of the environment."""
        with open("/dev/full" if full else os.devnull, "wb") as device:
            done = subprocess.run([self.program, *words], cwd=self.folder, input=given, timeout=600, check=False, env={**os.environ, **(env or {})},
                                  stdout=device if full else subprocess.PIPE, stderr=subprocess.PIPE)
        return Answer(done.returncode, done.stdout or b"", done.stderr.decode("latin-1"))

    def path(self, name):
        return os.path.join(self.folder, name)

    def write(self, name, data):
        for room in filter(None, (self, self.peer)):
            with open(room.path(name), "wb") as file:
                file.write(data)

    def read(self, name):
        """The bytes of a file, or None if there is none."""
        if not os.path.isfile(self.path(name)):
            return None
        with open(self.path(name), "rb") as file:
            return file.read()

    def files(self):
        """Every file below the folder, by name."""
        paths = (os.path.join(at, name) for at, _, names in os.walk(self.folder) for name in names)
        names = sorted(os.path.relpath(path, self.folder) for path in paths)
        return {name: self.read(name) for name in names}

    def remove(self, name):
        os.remove(self.path(name))

    def copy(self, name, new):
        """Copies a file, if it is there."""
        if os.path.isfile(self.path(name)):
            shutil.copyfile(self.path(name), self.path(new))

    def is_desk(self, name):
        return (self.read(name) or b"").startswith(b"SSIMDESK ")

    def exported(self, name):
        """The timetable in a desk file or a data set as a data set, or None if it cannot be exported."""
        answer = self("export" if self.is_desk(name) else "tidy", name)
        return answer.out if answer.status == 0 else None

    def write_base(self, rng, name, records):
        """Writes a data set, and the file `stations`. Returns what messages can name, and the rows of the stations."""
        season = Season(records)
        self.write(name, small.file_bytes(rng, records))
        rows = station_rows(rng, season)
        self.write("stations", written(rows))
        return season, rows
