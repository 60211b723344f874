"""Seconds, peak memory and instructions of commands, for the scripts of this folder. GNU time (`/usr/bin/time`) reads the memory."""
import os
import re
import subprocess
import sys
import tempfile
import time

TOP = os.path.dirname(os.path.dirname(os.path.abspath(__file__)))
RUNS = 5

# The generators. A script of this folder imports this module before them.
sys.path.insert(0, os.path.join(TOP, "make"))


def arguments(doc, programs):
    """The words of a command line: the programs, FOLDER or a new one, which is made with the empty file `none`, and further words."""
    words = sys.argv[1:]
    if len(words) < programs:
        sys.exit(doc)
    folder = os.path.abspath(words[programs]) if len(words) > programs else tempfile.mkdtemp()
    os.makedirs(folder, exist_ok=True)
    open(os.path.join(folder, "none"), "w").close()
    return [os.path.abspath(path) for path in words[:programs]], folder, words[programs + 1 :]


def once(program, words, folder, status=0):
    """Seconds and peak bytes of one run, which ends with this status."""
    with tempfile.NamedTemporaryFile("r") as report:
        command = ["/usr/bin/time", "-q", "-f", "%M", "-o", report.name, program, *words]
        begin = time.monotonic()
        run = subprocess.run(command, cwd=folder, stdout=open(os.path.join(folder, "out"), "wb"), stderr=subprocess.DEVNULL)
        seconds = time.monotonic() - begin
        if run.returncode != status:
            sys.exit(f"{program} {' '.join(words)}: status {run.returncode}")
        return seconds, int(report.read()) * 1024


def best(runs):
    return min(seconds for seconds, _ in runs), max(peak for _, peak in runs)


def in_turn(lines, folder, runs):
    """The seconds and peak bytes of each command line, run in turn. A line is the status that it ends with, and its words."""
    found = [[] for _ in lines]
    for _ in range(runs):
        for (status, (program, *words)), one in zip(lines, found):
            one.append(once(program, words, folder, status))
    return found


def instructions(program, words, folder):
    """How many instructions a run takes, by callgrind."""
    with tempfile.NamedTemporaryFile("r") as counts:
        command = ["valgrind", "--tool=callgrind", f"--callgrind-out-file={counts.name}", program, *words]
        subprocess.run(command, cwd=folder, stdout=subprocess.DEVNULL, stderr=subprocess.DEVNULL, check=True)
        return int(re.search(r"^(?:summary|totals): (\d+)", counts.read(), re.MULTILINE).group(1))


def print_pair(title, ours, other, more=""):
    """Prints the seconds and the peaks of two programs, with their ratios."""
    (seconds, peak), (other_seconds, other_peak) = ours, other
    print(f"{title:14} {seconds:8.3f} {other_seconds:8.3f} {seconds / other_seconds:6.2f} "
          f"{peak / 2**20:10.1f} {other_peak / 2**20:10.1f} {peak / other_peak:6.2f}{more}", flush=True)
