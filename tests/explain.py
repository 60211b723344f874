#!/usr/bin/env python3
"""Compares what `explain` prints of each number, and of a file for each, with docs/REFUSALS.md: explain.py PROGRAM [page]

docs/REFUSALS.md has a row for each refusal, whose name, meaning and remedy `explain` prints. No other number has a refusal. Of a name, in
any case, the same is printed as of the number, and of a line that a command printed that line. A file is explained for each number that a file
alone may be refused by: the first line has the place, the second the meaning, the third what is there, and the last what to do. The byte 1
in any column of any record is explained by the field that it makes invalid. Files of other programs are named, and what other systems take of
texts is known, as docs/FORMATS.md has them. What `--explain` prints after a
refusal is tried for each command (tests/reasons.py). The last line is 'N passed, M failed'. With `page` the meanings and remedies of the
rows are written as `explain` prints them, and nothing is compared.
"""
import os
import re
import subprocess
import sys

from cases import vectors
from odd_files import carriers_files, foreign_files, known_texts, mailboxes, message, over, refused_files
from reasons import reasons
from refusals import PAGE, TOP, refusals, rows_from, there


def expected(number, rows):
    """What is printed, but for the place in the first line."""
    if number not in rows:
        return f"no refusal has the number {number}\n"
    name, meaning, remedy = rows[number]
    return f"refused {number} {name}\n{name}: {meaning}\nwhat to do: {remedy}\n"


def printed(program, word, given=b""):
    """What `explain` prints of a number, or of a file: `-` is the standard input."""
    done = subprocess.run([program, "explain", word], input=given, stdout=subprocess.PIPE, stderr=subprocess.STDOUT,
                          timeout=60, check=False)
    text = done.stdout.decode("utf-8", "replace")
    return text if done.returncode == 0 else f"status {done.returncode}: {text}"


def without_place(text):
    return re.sub(r"^(refused \d+ \w+).*", r"\1", text, count=1)


def columns_explained(program):
    """The columns of each record that have no lines on a field, if the byte 1 is there."""
    records = vectors()
    h, c, leg, segment, t = (records[name] for name in ("header", "carrier", "leg", "segment", "trailer"))
    lines = [h, c, leg, segment, t]
    for at, line in enumerate(lines):
        for column in range(2, 201):
            data = b"".join([*lines[:at], over(line, column, b"\x01"), *lines[at + 1 :]])
            text = printed(program, "-", data)
            refused = re.match(rf"refused 12 BadColumn record {at + 1} column (\d+)\n", text)
            field = re.search(r"^field: [^,]+(?:, [^,]+)*, columns (\d+) to (\d+)$", text, re.MULTILINE)
            good = refused and field and refused[1] == field[1] and int(field[1]) <= column <= int(field[2])
            yield f"record {at + 1} column {column}", bool(good and "\nallowed: " in text), text
    text = printed(program, "-", h + c + leg + over(segment, 28, b"1") + t)
    yield "overflow of a segment record", "\nfield: overflow of the itinerary variation, columns 28 to 28\n" in text, text


def foreign_answers(program):
    """What is printed of each foreign file, and what docs/FORMATS.md says of it."""
    remedies = {name: remedy for _first, name, remedy in rows_from("docs/FORMATS.md", "| First bytes | `foreign` | What to do |")}
    for name, data in foreign_files():
        yield f"a file of {name}", f"foreign {name}\nwhat to do: {remedies[name]}\n", printed(program, "-", data)


def mailbox_answers(program):
    """The first line that is printed of each, and those of its refused texts; of what is no mailbox, that it is none."""
    for name, data, counts in mailboxes():
        lines = printed(program, "-", data).splitlines()
        found = [(int(words[1]), int(words[4])) for words in map(str.split, lines[1:]) if words[:1] == ["refused"]]
        if counts is None:
            yield f"{name} is no mailbox", False, lines[0].startswith("mailbox")
        else:
            yield f"a mailbox: {name}", (f"mailbox texts {counts[0]} refused {counts[1]}", counts[2]), (lines[0], found)
            yield f"empty lines of a mailbox: {name}", counts[1], lines.count("")


def known_answers(program):
    """The line before the last of what is printed of each such text or file of several carriers, and what docs/FORMATS.md says of it; and
    of a text with a leg in place of a period, which begins with what looks like a flight."""
    known = {cell: words for cell, words in rows_from("docs/FORMATS.md", "| Refused | `known` |")}
    several = [("38, or 11 at a record that begins with `2`", data) for data in carriers_files()]
    for cell, data in [*known_texts(), *several]:
        yield f"a file refused {cell}", f"known: {known[cell.replace('`', '')]}", printed(program, "-", data).splitlines()[-2]
    leg = message(b"TIM", b"LX544", b"LHR1245 FDH1520", start=4)
    yield "a leg in place of a period", "allowed: a period such as 17MAY27 31MAY27 1", printed(program, "-", leg).splitlines()[-2]


def named_answers(program, rows):
    """What is printed of the name of each refusal, in any case, and of a line that a command printed of it."""
    for number, (name, _meaning, _remedy) in rows.items():
        for word in (name, name.lower(), name.swapcase()):
            yield f"the name {word}", printed(program, str(number)), printed(program, word)
        for rest in ("", " record 3 column 37", " a file"):
            shown = f"refused {number} {name}{rest}"
            _first, *words = expected(number, rows).splitlines(keepends=True)
            yield f"the line {shown}", "".join([shown + "\n", *words]), printed(program, shown)
    for word in ("BadTyp", "refused 99 BadType", "refused 11", "refused", "refused  11 BadType"):
        yield f"the word {word}", f"status 1: refused 91 File {word}\n", printed(program, word)


def ends_of(text):
    """The first three lines and the last one."""
    lines = text.splitlines(keepends=True)
    return "".join([*lines[:-1][:3], *lines[-1:]])


def write_page(program):
    """Writes the rows of the page by what `explain` prints."""
    path = os.path.join(TOP, PAGE)
    with open(path, encoding="utf-8", newline="\n") as file:
        lines = file.read().split("\n")
    for at, line in enumerate(lines):
        if re.match(r"\| \d+ \|", line):
            number, _name, place = [cell.strip() for cell in line.strip("|").split("|")][:3]
            first, second, last = printed(program, number).splitlines()
            cells = [number, f"`{first.split()[2]}`", place, second.split(": ", 1)[1], last.split(": ", 1)[1]]
            lines[at] = "| " + " | ".join(cells).replace("|  |", "| |") + " |"
    with open(path, "w", encoding="utf-8", newline="\n") as file:
        file.write("\n".join(lines))


def main():
    program = os.path.abspath(sys.argv[1])
    if sys.argv[2:] == ["page"]:
        write_page(program)
        return 0
    rows = refusals()
    answers = [(number, expected(number, rows), without_place(printed(program, str(number)))) for number in range(100)]
    for number, (data, place) in refused_files().items():
        first, second, last = expected(number, rows).splitlines()
        wanted = f"{first} {place}\n{second}\n{there(data, place)}{last}\n"
        answers.append((f"a file with {number}", wanted, ends_of(printed(program, "-", data))))
    answers += foreign_answers(program)
    answers += mailbox_answers(program)
    answers += known_answers(program)
    answers += named_answers(program, rows)
    answers += reasons(program)
    passed = failed = 0
    for name, good, got in columns_explained(program):
        passed, failed = passed + good, failed + (not good)
        if not good:
            print(f"explain: {name}: no lines on the field, but\n{got}")
    for name, wanted, got in answers:
        if got == wanted:
            passed += 1
        else:
            failed += 1
            print(f"explain: {name}: expected\n{wanted}but it printed\n{got}")
    print(f"{passed} passed, {failed} failed")
    return 1 if failed else 0


if __name__ == "__main__":
    sys.exit(main())
