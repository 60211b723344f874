#!/usr/bin/env python3
"""Measures `sql`, and how SQLite loads its scripts: sql.py OURS [FOLDER] [RECORDS..]

For data sets of 100,000 and 900,000 records (or RECORDS), as large.py makes them: `list --csv` of the data set; `sql` of it, of its desk, and
of the desk after 1,000 texts, each of which changes the equipment of a flight in one week; and `sqlite3 -bail` with these scripts, each into
a new file. The best of five runs in turn counts, of `sqlite3` the best of two. Printed are the seconds, those of the processor, the peak
memory, and the size of the script or of the database.
"""
import os
import subprocess
import sys
import tempfile
import time

from measure import RUNS
import large
from chapter7 import write
from texts import write_texts

TEXTS = 1_000
LOADS = 2


def once(words, folder, given, made):
    """The seconds, the processor seconds, the peak and the size of what a command made of a file."""
    with open(os.path.join(folder, given), "rb") as source, open(os.path.join(folder, made), "wb") as out:
        begin = time.monotonic()
        done = subprocess.Popen(words, cwd=folder, stdin=source, stdout=out)
        _, status, used = os.wait4(done.pid, 0)
        seconds = time.monotonic() - begin
    if status:
        sys.exit(f"{' '.join(words)}: status {status}")
    return seconds, used.ru_utime + used.ru_stime, used.ru_maxrss * 1024


def best(runs):
    return [min(column) for column in list(zip(*runs))[:2]] + [max(run[2] for run in runs)]


def print_line(title, found, size):
    seconds, processor, peak = found
    print(f"{title:34} {seconds:8.2f} {processor:8.2f} {peak / 2**20:8.1f} {size / 2**20:9.1f}", flush=True)


def write_files(program, folder, records):
    """Writes the data set of so many records, its desk, and the desk after the texts, where they are not there yet."""
    def run(*words):
        subprocess.run([program, *words], cwd=folder, stdout=subprocess.DEVNULL, check=True)

    if not os.path.exists(os.path.join(folder, "changed.desk")):
        write(os.path.join(folder, "large.ssim"), large.records(records))
        run("start", "large.ssim", "none", "large.desk")
        names, _ = write_texts(folder, "large.ssim", TEXTS)
        run("take", "large.desk", "changed.desk", *names)


def measure(program, folder, records):
    os.makedirs(folder, exist_ok=True)
    open(os.path.join(folder, "none"), "w").close()
    write_files(program, folder, records)
    lines = [("list --csv", ["list", "--csv", "large.ssim"], "listed")]
    lines += [(f"sql {name}", ["sql", name], f"{name}.sql") for name in ("large.ssim", "large.desk", "changed.desk")]
    runs = [[] for _ in lines]
    for _ in range(RUNS):
        for (_, words, made), found in zip(lines, runs):
            found.append(once([program, *words], folder, "none", made))
    for (title, _, made), found in zip(lines, runs):
        print_line(title, best(found), os.path.getsize(os.path.join(folder, made)))
    for _, _, made in lines[1:]:
        found, base = [], os.path.join(folder, "loaded.db")
        for _ in range(LOADS):
            if os.path.exists(base):
                os.remove(base)
            found.append(once(["sqlite3", "-bail", base], folder, made, "out"))
        print_line(f"sqlite3 < {made}", best(found), os.path.getsize(base))


def main():
    if len(sys.argv) < 2:
        sys.exit(__doc__)
    program, folder = os.path.abspath(sys.argv[1]), os.path.abspath(sys.argv[2]) if len(sys.argv) > 2 else tempfile.mkdtemp()
    for records in map(int, sys.argv[3:] or ("100000", "900000")):
        print(f"{records} records: seconds, of the processor, MiB of memory, MiB made")
        measure(program, os.path.join(folder, str(records)), records)


if __name__ == "__main__":
    main()
