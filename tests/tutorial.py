#!/usr/bin/env python3
"""Types every command line of docs/TUTORIAL.md and compares what is printed: tutorial.py PROGRAM [PAGE..]

In the code blocks of a PAGE (docs/TUTORIAL.md and tests/samples.md if none is named), a line after `$` is typed and the lines up to the next
one are what it has to print, on standard output and standard error together, with the empty lines between two of them. The
lines of a page run one after another in a new copy of samples/, where `ssimdesk` is PROGRAM; `$?` is the exit status of the
line before. A line with `sqlite3` is left out, and said to be, if it is not installed. The last line is 'N passed, M failed'.
"""
import os
import shutil
import subprocess
import sys
import tempfile

TOP = os.path.dirname(os.path.dirname(os.path.abspath(__file__)))
INDENT = "    "
PAGES = [("docs", "TUTORIAL.md"), ("tests", "samples.md")]


def typed_lines(page):
    """The command lines of a page, as (line number, command, what it prints)."""
    found = []
    inside, empty = False, ""
    with open(page, encoding="utf-8", newline="\n") as file:
        for number, line in enumerate(file, 1):
            text = line.rstrip("\n")
            if text.startswith(INDENT + "$ "):
                found.append((number, text[len(INDENT) + 2 :], ""))
                inside, empty = True, ""
            elif inside and text.startswith(INDENT):
                at, command, printed = found[-1]
                found[-1] = (at, command, printed + empty + text[len(INDENT) :] + "\n")
                empty = ""
            elif inside and not text:
                empty += "\n"
            else:
                inside = False
    return found


def typed(command, status, folder, path):
    """What a command line prints, and its exit status."""
    done = subprocess.run(["bash", "-c", f"(exit {status}); {command}"], cwd=folder, env={**os.environ, "PATH": path},
                          stdin=subprocess.DEVNULL, stdout=subprocess.PIPE, stderr=subprocess.STDOUT, timeout=120,
                          check=False)
    return done.stdout.decode("latin-1"), done.returncode


def run_page(page, program):
    """How many lines of a page print what it says, and how many do not."""
    passed, failed, status = 0, 0, 0
    with tempfile.TemporaryDirectory() as room:
        folder, programs = os.path.join(room, "samples"), os.path.join(room, "programs")
        shutil.copytree(os.path.join(TOP, "samples"), folder)
        os.mkdir(programs)
        os.symlink(program, os.path.join(programs, "ssimdesk"))
        for number, command, expected in typed_lines(page):
            if "sqlite3 " in command and not shutil.which("sqlite3"):
                print(f"sqlite3 is not there: line {number} is left out")
                continue
            printed, status = typed(command, status, folder, programs + os.pathsep + os.environ["PATH"])
            if printed == expected:
                passed += 1
                continue
            failed += 1
            print(f"{os.path.relpath(page, TOP)} line {number}: {command}\nprinted:\n{printed}expected:\n{expected}", end="")
    return passed, failed


def main():
    if len(sys.argv) < 2:
        sys.exit(__doc__)
    program = os.path.abspath(sys.argv[1])
    pages = [os.path.abspath(page) for page in sys.argv[2:]] or [os.path.join(TOP, *page) for page in PAGES]
    counts = [run_page(page, program) for page in pages]
    passed, failed = (sum(count[place] for count in counts) for place in (0, 1))
    print(f"{passed} passed, {failed} failed")
    sys.exit(1 if failed or not passed else 0)


if __name__ == "__main__":
    main()
