#!/usr/bin/env python3
"""Measures where the gate's time goes: gate_times.py run TIMES [COMMAND..]; gate_times.py page TIMES

`run` runs a command at the top of the repository, `bash .ci/run` if none is given, passes on what it prints, and writes the
processor time of each part to the file TIMES. It reads from /proc, four times a second, how much time each process of the
prover has taken; the rest of the time is that of compilers, programs and scripts. Run it with nothing beside it.

`page` writes the table of TIMES into docs/PROOFS.md, between the lines that mark its place.
"""
import collections
import json
import os
import re
import resource
import subprocess
import sys
import threading
import time

TOP = os.path.dirname(os.path.dirname(os.path.abspath(__file__)))
PAGE = os.path.join(TOP, "docs", "PROOFS.md")
BEGIN, END = "<!-- times of the gate: bench/gate_times.py -->", "<!-- end of the times -->"
TICKS = os.sysconf("SC_CLK_TCK")
PARTS = ("proof", "tests", "wrong bodies")


def part_of(words):
    """The crate and the part of the gate that a command line of the prover belongs to; or None for another command."""
    if os.path.basename(words[0]) != "rattle" or "--crate-name" not in words or "--crate-checked" in words:
        return None
    crate = words[words.index("--crate-name") + 1]
    return crate, "tests" if "--test" in words else "wrong bodies" if "--only" in words else "proof"


def fields_of(pid):
    """The fields of a process after its name: the second is its parent."""
    with open(f"/proc/{pid}/stat", encoding="utf-8", errors="replace") as file:
        return file.read().rpartition(")")[2].split()


def is_below(pid, top):
    """Whether a process was begun by the process `top`, or by one that it began."""
    while pid not in ("0", "1", top):
        pid = fields_of(pid)[1]
    return pid == top


def read_processes(seen):
    """Notes how many seconds each process of the prover below this one has taken so far."""
    for pid in filter(str.isdigit, os.listdir("/proc")):
        try:
            with open(f"/proc/{pid}/cmdline", encoding="utf-8", errors="replace") as file:
                part = part_of(file.read().split("\0"))
            if part and is_below(pid, str(os.getpid())):
                fields = fields_of(pid)
                seen[pid, fields[19], *part] = (int(fields[11]) + int(fields[12])) / TICKS
        except OSError:
            pass


def run(times, command):
    """Runs a command and writes the times of its parts. Returns its status."""
    seen, ended, functions, crate, last = {}, threading.Event(), {}, "", ""

    def look():
        while not ended.wait(0.25):
            read_processes(seen)

    watch = threading.Thread(target=look)
    begun = time.time()
    with subprocess.Popen(command, cwd=TOP, stdout=subprocess.PIPE, stderr=subprocess.STDOUT, text=True, errors="replace") as ran:
        watch.start()
        for line in ran.stdout:
            print(line, end="", flush=True)
            last = line.strip() or last
            crate = line[3:].strip() if line.startswith("== ") else crate
            found = re.match(r"logic=proved functions=(\d+)", line)
            if found:
                functions.setdefault(crate, int(found[1]))
    ended.set()
    watch.join()
    parts = collections.Counter()
    for (_, _, name, part), seconds in seen.items():
        parts[f"{name}/{part}"] += seconds
    used = resource.getrusage(resource.RUSAGE_CHILDREN)
    with open(times, "w", encoding="utf-8") as file:
        json.dump({"last": last, "day": time.strftime("%-d %B %Y", time.gmtime(begun)), "processors": os.cpu_count(),
                   "wall": time.time() - begun, "all": used.ru_utime + used.ru_stime, "functions": functions, "parts": parts}, file, indent=1)
    return ran.returncode


def minutes(seconds):
    return f"{seconds / 60:.1f}" if seconds else ""


def table(times):
    """The lines of the table."""
    names = list(dict.fromkeys(it.split("/")[0] for it in times["parts"]))
    taken = lambda name, part: times["parts"].get(f"{name}/{part}", 0)
    names.sort(key=lambda name: -sum(taken(name, part) for part in PARTS))
    sums = [sum(taken(name, part) for name in names) for part in PARTS]
    rows = [(f"`{name}`", str(times["functions"].get(name, "")), *[minutes(taken(name, part)) for part in PARTS]) for name in names]
    rows.append(("all of the prover", str(sum(times["functions"].values())), *map(minutes, sums)))
    return [f"Processor minutes of a gate on {times['day']}, which took {times['wall'] / 60:.0f} minutes on "
            f"{times['processors']} processors", f"and {times['all'] / 60:.0f} processor minutes, of them "
            f"{(times['all'] - sum(sums)) / 60:.0f} for {'' if sums[2] else 'wrong bodies, '}compilers, programs and scripts. It ended with `{times['last']}`.", "",
            "| Crate | Functions | Proof | Tests | Wrong bodies |", "|---|---|---|---|---|", *[f"| {' | '.join(row)} |" for row in rows]]


def write_page(times):
    with open(times, encoding="utf-8") as file:
        lines = table(json.load(file))
    with open(PAGE, encoding="utf-8") as file:
        before, _, rest = file.read().partition(BEGIN)
    after = rest.partition(END)[2]
    with open(PAGE, "w", encoding="utf-8") as file:
        file.write("\n".join([before + BEGIN, *lines, END + after]))


def main(words):
    if len(words) < 2 or words[0] not in ("run", "page"):
        sys.exit(__doc__)
    if words[0] == "page":
        write_page(words[1])
        return 0
    return run(os.path.abspath(words[1]), words[2:] or ["bash", ".ci/run"])


if __name__ == "__main__":
    sys.exit(main(sys.argv[1:]))
