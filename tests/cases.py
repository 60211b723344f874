#!/usr/bin/env python3
"""Runs cases in plain text with a built program: cases.py PROGRAM CASES [EXPECTED]

CASES has the form of crates/ssim_cases/stdin (src/main.rt there describes it). A case whose words ask for calls, for
devices that fail or for a standard input that it does not give is left out. Printed is the transcript; with EXPECTED (the
form of crates/ssim_cases/stdout), only the cases whose transcript is not that of EXPECTED, and as the last line
'N passed, M failed'.
"""
import datetime
import itertools
import os
import re
import subprocess
import sys
import tempfile

# The words that a built program can be asked.
KNOWN = {"", "#", "let", "|", "=", "times", "cancels", "^", "at", "cut", "out", "load", "file", "run", "prefixes", "show", "size", "equal"}


# The constants of the vectors, whose names are theirs in small letters.
VECTORS = os.path.join(os.path.dirname(os.path.dirname(os.path.abspath(__file__))), "crates", "ssim_vectors", "src")
TEXT = re.compile(r'pub const (\w+): &\[u8(?:; 200)?\] =\s*b"((?:[^"\\]|\\.)*)";', re.DOTALL)
RECORDS = re.compile(r"pub const (\w+): &\[&\[u8; 200\]\] =\s*&\[([^]]*)\];")


def vectors():
    """The lines of each vector by its name."""
    sources = []
    for name in "data_sets.rt", "texts.rt":
        with open(os.path.join(VECTORS, name), encoding="ascii", newline="\n") as file:
            sources.append(file.read())
    source, found = "".join(sources), {}
    for name, literal in TEXT.findall(source):
        data = re.sub(r"\\\n\s*", "", literal).encode("ascii").decode("unicode_escape").encode("latin-1")
        found[name.lower()] = data if data.endswith(b"\n") else data + b"\n"
    for name, records in RECORDS.findall(source):
        found[name.lower()] = b"".join(found[record.lower()] for record in re.findall(r"\w+", records))
    return found


def bytes_shown(text):
    """The bytes that a text shows."""
    def sign(found):
        inner = found.group(1)
        if inner.startswith("x"):
            return chr(int(inner[1:], 16))
        count, _, byte = inner.partition("*")
        return (byte or " ") * int(count)

    return re.sub("<([^>]*)>", sign, text).encode("latin-1")


def run_shown(byte, count):
    if not 32 <= byte <= 126 or byte == ord("<"):
        return f"<x{byte:02X}>" * count
    if byte == 32 and count >= 4:
        return f"<{count}>"
    if count >= 8:
        return f"<{count}*{chr(byte)}>"
    return chr(byte) * count


def shown(heading, data):
    """The lines that show bytes."""
    if not data:
        return []
    found = [heading]
    for line in re.findall(rb"[^\n]*\n|[^\n]+", data):
        text = "".join(run_shown(byte, len(list(group))) for byte, group in itertools.groupby(line.removesuffix(b"\n")))
        found.append("| " + text + ("" if line.endswith(b"\n") else "<>"))
    return found


def cancels(flight, day, step, count):
    """The lines of sub-messages that each cancel a flight on one date."""
    subs = []
    for place in range(int(count)):
        date = (datetime.date(2000, 1, 1) + datetime.timedelta(days=int(day) + place * int(step))).strftime("%d%b%y").upper()
        subs.append(f"CNL\n{flight}\n{date} {date} 1234567\n")
    return "//\n".join(subs).encode("ascii")


def words_of(text):
    """The words of a command line, where a word with blanks is between two '."""
    parts = text.split("'")
    return [word for at, part in enumerate(parts) for word in ([part] if at % 2 else part.split())]


class Case:
    """The files and bytes of a case, in a folder of its own."""

    def __init__(self, program, folder, named):
        self.program, self.folder, self.named = program, folder, named
        self.vectors = vectors()
        self.standard_input = b""
        self.bytes, self.last_line, self.printed = bytearray(), 0, b""

    def read(self, name):
        if name == "-":
            return self.standard_input
        try:
            with open(os.path.join(self.folder, name), "rb") as file:
                return file.read()
        except OSError:
            return None

    def keep(self, name, data):
        if name == "-":
            self.standard_input = bytes(data)
        else:
            with open(os.path.join(self.folder, name), "wb") as file:
                file.write(data)

    def write_over(self, start, text):
        data = bytes_shown(text)[: max(len(self.bytes) - start, 0)]
        self.bytes[start : start + len(data)] = data

    def answer(self, words):
        done = subprocess.run([self.program, *words_of(words)], cwd=self.folder, input=self.standard_input,
                              capture_output=True, timeout=60, check=False)
        return done.returncode, done.stdout, done.stderr

    def lines_of(self, answer):
        return [f"status {answer[0]}", *shown("out", answer[1]), *shown("err", answer[2])]

    def run_on_prefixes(self, rest):
        name, words = rest.split(" ", 1)
        whole = self.read(name)
        answers = []
        for length in range(len(whole) + 1):
            self.keep("prefix", whole[:length])
            answers.append(self.answer(words))
        found, first = [], 0
        for answer, group in itertools.groupby(answers):
            last = first + len(list(group)) - 1
            found += [f"lengths {first} to {last}", *self.lines_of(answer)]
            first = last + 1
        return found

    def lines_named(self, name):
        """A named line, or the lines of a vector."""
        return bytes_shown(self.named[name]) + b"\n" if name in self.named else self.vectors[name]

    def follow(self, line):
        """Does what a line asks, and gives the lines that it prints."""
        word, _, rest = line.partition(" ")
        if word in ("|", "="):
            self.last_line = len(self.bytes)
            self.bytes += bytes_shown(rest) + b"\n" if word == "|" else self.lines_named(rest)
        elif word == "times":
            count, name = rest.split(" ", 1)
            self.bytes += self.lines_named(name) * int(count)
        elif word == "cancels":
            self.bytes += cancels(*rest.split(" "))
        elif word in ("^", "at"):
            place, text = rest.split(" ", 1)
            self.write_over(int(place) if word == "at" else self.last_line + int(place) - 1, text)
        elif word == "cut":
            del self.bytes[max(len(self.bytes) - int(rest), 0) :]
        elif word in ("out", "load"):
            self.bytes += self.printed if word == "out" else self.read(rest)
        elif word == "file":
            self.keep(rest, self.bytes)
            self.bytes = bytearray()
        elif word == "let":
            name, text = rest.split(" ", 1)
            self.named.setdefault(name, text)
        elif word == "run":
            answer = self.answer(rest)
            self.printed = answer[1]
            return [line, *self.lines_of(answer)]
        elif word == "prefixes":
            return [line, *self.run_on_prefixes(rest)]
        elif word in ("show", "size", "equal"):
            return [line, *self.file_shown(word, rest)]
        return []

    def file_shown(self, word, rest):
        name, _, other = rest.partition(" ")
        data = self.read(name)
        if data is None:
            return ["no file"]
        if word == "show":
            return shown("bytes", data)
        if word == "size":
            return [f"bytes {len(data)}"]
        return ["equal" if data == self.read(other) else "different"]


def blocks_of(text):
    """The lines of a text by case: the first block has those before the first case."""
    found = [("", [])]
    for line in text.split("\n"):
        if line.startswith("case "):
            found.append((line, []))
        else:
            found[-1][1].append(line)
    return found


def blocks(path):
    """The lines of a file by case."""
    with open(path, encoding="latin-1", newline="\n") as file:
        return blocks_of(file.read())


def is_left_out(lines):
    words = [line.split(" ") for line in lines]
    reads = any(line[0] == "run" and "-" in line[1:] for line in words)
    return any(line[0] not in KNOWN for line in words) or reads and ["file", "-"] not in words


def transcript(program, lines, named):
    with tempfile.TemporaryDirectory() as folder:
        case = Case(program, folder, named)
        return [printed for line in lines for printed in case.follow(line)]


def main():
    if len(sys.argv) not in (3, 4):
        sys.exit(__doc__)
    program, named = os.path.abspath(sys.argv[1]), {}
    expected = None
    if len(sys.argv) == 4:
        expected = {title: [line for line in lines if line] for title, lines in blocks(sys.argv[3])}
    passed = failed = 0
    for title, lines in blocks(sys.argv[2]):
        if is_left_out(lines):
            continue
        found = transcript(program, lines, named)
        if expected is None or expected.get(title, []) != found:
            failed += 1
            print("\n".join([title, *found, ""]))
        else:
            passed += title != ""
    if expected is not None:
        print(f"{passed} passed, {failed} failed")
        sys.exit(1 if failed else 0)


if __name__ == "__main__":
    main()
