#!/usr/bin/env python3
"""Tries help, the manual page and the completions that make/pages.py makes of a program's help: pages.py PROGRAM

The manual page has a heading for each command. bash, and zsh and fish where they are installed, complete names of commands, options after
options, names of files with blanks, and the flights and stations of a file, as they do for a person who types. Each line of help has at
most 80 columns, and `--help` names each command once in its lists of what they are for. The last line is 'N passed, M failed'.
"""
import os
import re
import shutil
import subprocess
import sys
import tempfile
import time

TOP = os.path.dirname(os.path.dirname(os.path.abspath(__file__)))
sys.path.insert(0, os.path.join(TOP, "make"))

from pages import BASH, FISH, MANUAL, Page, made, printed, section, write

SEASON = os.path.join(TOP, "samples", "season.ssim")

# The words before the cursor, and some of what the last one is completed to. After a | is what it is not completed to.
COMPLETED = [
    ("ssimdesk li", "list"),
    ("ssimdesk help bo", "board"),
    ("ssimdesk --exp", "--explain"),
    ("ssimdesk --explain li", "list"),
    ("ssimdesk --explain list --csv --d", "--dates"),
    (r"ssimdesk --explain check a\ s", r"a\ season.ssim"),
    ("ssimdesk --explain list a.ssim Z710", "Z7101 Z7102 | Z7111 FDH"),
    ("ssimdesk list --csv --d", "--dates"),
    (r"ssimdesk check a\ s", r"a\ season.ssim"),
    (r"ssimdesk receive --refused a\ s", r"a\ season.ssim"),
    ("ssimdesk list a.ssim Z710", "Z7101 Z7102 | Z7111 FDH"),
    ("ssimdesk list --dates a.ssim Z7101 Z734", "Z7341"),
    ("ssimdesk select --sta", "--station"),
    ("ssimdesk select --from 1jul27 --station HAM a.ssim Z710", "Z7101 Z7102 | Z7111 FDH"),
    (r"ssimdesk calendar a\ season.ssim Z734", "Z7341"),
    ("ssimdesk calendar --air", "--aircraft"),
    ("ssimdesk calendar --to 1jul27 a.ssim Z7101 Z734", "Z7341 Z7342 | FDH"),
    ("ssimdesk list --aircraft 320 a.ssim Z710", "Z7101 Z7102 | Z7111 FDH"),
    ("ssimdesk show a.ssim Z7341 Z710", "Z7101 Z7102 | FDH"),
    ("ssimdesk board a.ssim H", "HAM | FDH Z7101"),
    ("ssimdesk board a.ssim HAM a", "| season.ssim"),
    ("ssimdesk board --dep", "--departures"),
    ("ssimdesk board --days 7 a.ssim H", "HAM | FDH Z7101"),
    ("ssimdesk convert lo", "local"),
    (r"ssimdesk convert utc a\ s", r"a\ season.ssim"),
]

# The seconds after which a shell has not started. A processor may have other work.
PATIENCE = 60

# A busy shell may lose a key, so a line is typed anew if it is not completed after some seconds, some times; and then in a new shell.
TRIES, MOMENT = 3, 10

# The seconds after which a line that should be completed to nothing is looked at.
ABSENT = 2

# What is typed first in a shell: the completion is loaded, and the prompt is set.
SHELLS = {
    "bash": ("bash --noprofile --norc -i", f"PS1='% '; source {BASH}"),
    "zsh": ("zsh -f -i", "PS1='%% '; fpath=($PWD $fpath); autoload -Uz compinit; compinit -u -D; setopt no_beep; LISTMAX=9999"),
    "fish": ("fish --no-config -i", f"source {FISH}; function fish_prompt; echo '% '; end; set -g fish_greeting"),
}


def has_all(text, wanted):
    """Whether a text has some words, and none of those after a |."""
    there, _, absent = wanted.partition("|")
    words = text.replace("\n", " ").split(" ")
    joined = " ".join(words)
    return all(word in joined for word in there.split()) and not any(word in words for word in absent.split())


def wide_lines(program, whole):
    """The lines of help with more than 80 columns."""
    for words in [["--help"], *[[name, "--help"] for name in whole.commands]]:
        for line in printed(program, *words).split("\n"):
            if len(line) > 80:
                yield f"{' '.join(words)} has a line of {len(line)} columns: {line}"


def grouped(whole):
    """The commands that help names in its lists of what they are for."""
    lists = section(whole.after, "The commands by what they are for:")
    return [name for line in lists for name in line.partition(":")[2].replace(",", " ").split()]


def faults(program, whole, files):
    """What is wrong with help or with the manual page; None for what is right."""
    headings = re.findall(r"^\.SS (\S+)", files[MANUAL], re.MULTILINE)
    yield None if headings == whole.commands else "the manual page has not a heading for each command"
    alike = sorted(grouped(whole)) == sorted(whole.commands)
    yield None if alike else "the lists of help, by what the commands are for, do not name each command once"
    wide = list(wide_lines(program, whole))
    yield "\n".join(wide) if wide else None


class Terminal:
    """A shell in a terminal of tmux, in a folder."""

    def __init__(self, name, folder):
        self.socket = os.path.join(tempfile.mkdtemp(dir=folder), "socket")
        # Escape leaves a menu. In bash it would be the beginning of a key.
        self.leave = ["C-c"] if name == "bash" else ["Escape", "C-c"]
        command, first = SHELLS[name]
        path = f"PATH={folder}:{os.environ['PATH']}"
        self.run("new-session", "-d", "-x", "120", "-y", "50", "-c", folder, f"env {path} HOME={folder} {command}")
        self.until(lambda shown: shown.strip())
        self.typed(first, "Enter")
        self.until(lambda shown: shown.strip().split("\n")[-1].strip() == "%")

    def run(self, *words):
        """What tmux prints."""
        return subprocess.run(["tmux", "-f", "/dev/null", "-S", self.socket, *words], capture_output=True, text=True,
                              timeout=60, check=False).stdout

    def shown(self):
        """The screen, when it has stayed the same for a moment."""
        before = None
        while before != (before := self.run("capture-pane", "-p")):
            time.sleep(0.3)
        return before

    def until(self, right, patience=PATIENCE):
        """The screen when it is right, or after these seconds."""
        end = time.monotonic() + patience
        while not right(shown := self.shown()) and time.monotonic() < end:
            pass
        return shown

    def typed(self, text, *keys):
        """Types a text and keys."""
        self.run("send-keys", "-l", text)
        self.run("send-keys", *keys)

    def clear(self):
        """Makes the line and the screen empty."""
        for _ in range(TRIES):
            self.run("send-keys", "C-u")
            self.run("send-keys", "C-l")
            if self.until(lambda shown: shown.strip() == "%", MOMENT).strip() == "%":
                return

    def once_completed(self, text, wanted):
        """The screen when tab has been typed twice after a text, and the expected words are there or are late."""
        self.clear()
        self.typed(text, "Tab", "Tab")
        if wanted.startswith("|"):
            time.sleep(ABSENT)
        shown = self.until(lambda shown: has_all(shown, wanted), MOMENT)
        for key in self.leave:
            self.run("send-keys", key)
        return shown

    def completed(self, text, wanted):
        """The screen when a text is completed to the expected words, or after the last try."""
        for _ in range(TRIES):
            shown = self.once_completed(text, wanted)
            if has_all(shown, wanted):
                break
        return shown

    def end(self):
        """Ends the shell."""
        self.run("kill-server")


def tried(name, folder):
    """What is wrong with the completion of a shell; None for what is right."""
    terminal = Terminal(name, folder)
    for words, wanted in COMPLETED:
        shown = terminal.completed(words, wanted)
        if not has_all(shown, wanted):
            terminal.end()
            terminal = Terminal(name, folder)
            shown = terminal.completed(words, wanted)
        right = has_all(shown, wanted)
        yield None if right else f"{name} completes '{words}' not to {wanted}, but shows:\n{shown.strip()}"
    terminal.end()


def main():
    program = os.path.abspath(sys.argv[1])
    whole = Page(printed(program, "--help"))
    files = made(program)
    found = list(faults(program, whole, files))
    # A shell that ends may still write a file into its folder while that is removed.
    with tempfile.TemporaryDirectory(ignore_cleanup_errors=True) as folder:
        write(folder, files)
        os.symlink(program, os.path.join(folder, "ssimdesk"))
        for name in ("a.ssim", "a season.ssim"):
            shutil.copy(SEASON, os.path.join(folder, name))
        for name in SHELLS:
            if shutil.which(name) and shutil.which("tmux"):
                found += tried(name, folder)
            else:
                print(f"{name} is not tried: it is not installed, or tmux is not")
    wrong = [fault for fault in found if fault]
    print(*wrong, sep="\n", end="\n" if wrong else "")
    print(f"{len(found) - len(wrong)} passed, {len(wrong)} failed")
    return 1 if wrong else 0


if __name__ == "__main__":
    sys.exit(main())
