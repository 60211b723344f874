#!/usr/bin/env python3
"""Cuts and alters small files, and reads each of them: replaced_bytes.py PROGRAM

The files are a data set (804 bytes), texts that together have each part of a message, a script, and a desk file with a text (907
bytes). Read is every prefix of them, and each of them with every byte replaced by `0`, `A`, a blank, LF and 255. So are the desk file
without the text (848 bytes) and the one of version 1, but only where they are not as that one, and in the line of the version.

- a data set is refused with a number of its own, or tidied to what is tidied to itself. `publish` from the desk of the whole one refuses it
  with the same line, or for another airline or time mode; or a desk that receives the texts differs from it on the unsaid dates alone;
- a text is refused with a number of its own, or taken: then the desk that is written repeats it, and is written again as it is;
- a script is refused as 63, or for a missing file as 91, or it ends with `same` or `different`;
- a desk file is refused as 62, or opened and written again with the same bytes (the first line of a version 1 file aside).

Then `problems` reads records that have four bytes in turn in each column of each type, and each byte but a line end as the type. It
names the first column of the field, or the column itself in a carried one.

The last line is 'N passed, M failed'.
"""
import os
import re
import sys
import tempfile

TOP = os.path.dirname(os.path.dirname(os.path.abspath(__file__)))
sys.path[:0] = [os.path.join(TOP, "make"), os.path.join(TOP, "compare")]

from cases import vectors
from chapter7 import data_set, plain_season
from room import Room
from small_runs import fast_folder

TEXT = b"SSM\nUTC\n01JUN00001E001\nCNL\nLX544\n01JUL25 07JUL25 2\n"
OTHER_TEXTS = [
    b"ASM\nUTC\n23MAY00144E003/REF 123\nRPL\nLX7A/01JUL\nJ 320 .C12Y138\nZRH2350 LHR0020/1/0025\n//\nSI FREE TEXT\n",
    b".AAAAAAA\nSSM\nUTC\n01JUN00001E001\nEQT\nLX544\n01JUL25 01JUL25 2\nJ 319 CY\n",
    b".ZRHRMLX 231200\nSSM\nUTC\n01JUN00001E001\nTIM\nLX544\n01JUL 00XXX00 12\nZRH0600 LHR0715\n//\nCNL\nLX7A\n02JUL25 03JUL25 34\n",
    b"SSM\nUTC\n01JUN00010E001\nNEW\nLX700\n01JUL25 01JUL25 2\nJ 320 CY\nZRH0545 LHR0700\nLHR0800 ZRH1045\n"
    b"ZRHLHR 99/VIA TERMINAL 2\nLHRZRH 10/LX\nZRHZRH 109/M\n",
]
ROWS = b"ZRH 30MAR25 25OCT25 +0200\nLHR 30MAR25 25OCT25 +0100\n"
SCRIPT = b"DESKS 2\nTAKE 1 text\nMERGE 2 1\nTAKE 2 text\n"
FIRST_LINE = len(b"SSIMDESK 2\n")

PUBLISH = ["publish", "sender", "altered", "05JUN00001E001", "out"]

# The first column of each field after the type, by the record tables of docs/FORMATS.md; `+` if the field is carried.
FIELDS = {
    "header": "2 36+ 41+ 42+ 192+ 195",
    "carrier": "2 3 6+ 11+ 14+ 15 22 29 36+ 195",
    "leg": "2 3 6 10 12 14+ 15 22 29 36+ 37 40 44 48 53+ 55 58 62 66 71+ 73+ 76+ 96+ 128+ 129+ 173+ 193+ 195",
    "segment": "2 3 6 10 12 14+ 15+ 28+ 29+ 31+ 34+ 37+ 40+ 195",
    "trailer": "2+ 3 6+ 13+ 188 194 195",
}

# Bytes that no field may have, and bytes that only a carried one may have.
NEVER_VALID, NOT_ASCII = (31, 127), (128, 255)

REFUSED_DATA_SET = r"refused (1[012]|3[0-8]) [A-Za-z]+ record \d+( column \d+)?\n|refused (50 Variations flight \S+|51 Records)\n"
REFUSED_TEXT = r"refused 2[0-9] [A-Za-z]+ line \d+\n|refused 4[0-3] [A-Za-z]+ sub \d+\n"
REFUSED_SCRIPT = r"refused (63 Script line \d+|91 File .+)\n"


def small_files(room):
    """The files, each with what is to be said of it and the places that are altered."""
    season = data_set(plain_season())
    for name, data in ("season", season), ("none", b""), ("rows", ROWS), ("text", TEXT):
        room.write(name, data)
    room("start", "season", "none", "desk")
    room("start", "season", "rows", "sender")
    room("take", "desk", "held", "text")
    desk, held = room.read("desk"), room.read("held")
    assert [len(desk), len(held)] == [848, 907]
    same = len(os.path.commonprefix([desk, held]))
    whole = [(season, is_data_set), *((text, is_text) for text in [TEXT, *OTHER_TEXTS]), (SCRIPT, is_script), (held, is_desk)]
    first_version = held.replace(b"SSIMDESK 2", b"SSIMDESK 1")
    return [*((data, is_right, range(len(data))) for data, is_right in whole), (desk, is_desk, range(same, len(desk))),
            (first_version, is_desk, [*range(FIRST_LINE), *range(same, len(held))])]


def altered(data, places):
    """The prefixes of a file that end at these places, and the file with one of these bytes replaced."""
    for length in places:
        yield f"prefix of {length}", data[:length]
    for place in places:
        for byte in b"0A \n\xff":
            yield f"byte {byte} at {place}", data[:place] + bytes([byte]) + data[place + 1 :]


def is_data_set(room):
    """Whether the file is refused as a data set, or tidied to what is tidied to itself."""
    status, tidied, errors = room("tidy", "altered")
    if status == 1:
        is_refused = tidied == b"" and re.fullmatch(REFUSED_DATA_SET, errors) is not None
        return is_refused and room(*PUBLISH) == (1, b"", errors)
    room.write("tidied", tidied)
    return status == 0 and room("tidy", "tidied") == (0, tidied, "") and is_published(room)


def is_published(room):
    """Whether the file is refused for its airline or its time mode, or a desk that receives what is published has all but the unsaid dates."""
    status, printed, errors = room(*PUBLISH)
    if status == 1:
        return printed == b"" and errors in ("refused 41 Airline sub 0\n", "refused 40 TimeMode sub 0\n")
    texts, unsaid = re.search(rb"texts (\d+) subs \d+ unsaid dates (\d+)\n\Z", printed).groups()
    received, left = room("receive", "sender", "new", "out"), room("diff", "new", "altered")
    is_received = received[0] == 0 and received[1].endswith(b"taken " + texts + b" repeated 0 refused 0\n")
    return is_received and left[1].endswith(b"same\n" if unsaid == b"0" else b" dates " + unsaid + b"\n")


def is_text(room):
    """Whether the file is refused as a text, or taken, and what was taken is held as it is."""
    room.write("taken", b"")
    status, printed, errors = room("take", "desk", "taken", "altered")
    if status == 1:
        return room.read("taken") == printed == b"" and re.fullmatch(REFUSED_TEXT, errors) is not None
    again = room("take", "taken", "again", "altered")
    repeated = (0, printed.replace(b"taken", b"repeated"), "")
    return status == 0 and again == repeated and room.read("again") == room.read("taken")


def is_script(room):
    """Whether the file is refused as a script, or run to its end."""
    status, printed, errors = room("rehearse", "season", "none", "altered")
    if status == 1:
        return printed == b"" and re.fullmatch(REFUSED_SCRIPT, errors, re.DOTALL) is not None
    return status == 0 and printed.endswith((b"\nsame\n", b"\ndifferent\n"))


def is_desk(room):
    """Whether the file is refused as 62, or written again with the same bytes."""
    data = room.read("altered")
    status, _, errors = room("merge", "altered", "altered", "again")
    if status == 1:
        return errors.startswith("refused 62 DeskFile offset ")
    return status == 0 and room.read("again")[FIRST_LINE:] == data[FIRST_LINE:] and data.startswith(b"SSIMDESK ")


def fault_columns(fields):
    """For each column after the type, the columns that a fault names for each kind of byte: of NEVER_VALID, and of NOT_ASCII."""
    firsts = [(int(field.rstrip("+")), field.endswith("+")) for field in fields.split()]
    for (first, is_carried), (after, _) in zip(firsts, [*firsts[1:], (201, False)]):
        for column in range(first, after):
            yield column, column if is_carried else first, None if is_carried else first


def altered_records():
    """A refusal, and altered records, each with its name and what follows the number of its record if it is refused so."""
    records = vectors()
    for kind, fields in FIELDS.items():
        line = records[kind]
        yield b"12 BadColumn", [(f"byte {byte} at {column} of a {kind}", line[: column - 1] + bytes([byte]) + line[column:],
                                 b" column %d" % fault if fault else None)
                                for column, *faults in fault_columns(fields)
                                for fault, kind_of in zip(faults, (NEVER_VALID, NOT_ASCII)) for byte in kind_of]
    types = [byte for byte in range(256) if byte not in b"\r\n"]
    yield b"11 BadType", [(f"type {byte}", bytes([byte]) + records["leg"][1:], None if byte in b"12345" else b"") for byte in types]


def wrong_records(room):
    """The number of altered records, and the names of those that `problems` does not name as it has to."""
    count, wrong = 0, []
    begun = vectors()["header"] + vectors()["carrier"]
    for refusal, found in altered_records():
        room.write("altered", begun + b"".join(line for _, line, _ in found))
        printed = room("problems", "altered")[1]
        named = {int(record): rest for record, rest in re.findall(rb"^%s record (\d+)(.*)$" % refusal, printed, re.MULTILINE)}
        wrong += [name for record, (name, _, rest) in enumerate(found, 3) if named.get(record) != rest]
        count += len(found) if printed else 0
    return count, wrong


def main():
    if len(sys.argv) != 2:
        sys.exit(__doc__)
    program, passed, failed = os.path.abspath(sys.argv[1]), 0, 0
    with tempfile.TemporaryDirectory(dir=fast_folder()) as folder:
        room = Room(os.path.join(folder, "files"), program)
        for data, is_right, places in small_files(room):
            for name, other in altered(data, places):
                room.write("altered", other)
                if is_right(room):
                    passed += 1
                else:
                    failed += 1
                    print(f"replaced_bytes: {name} of {len(data)} bytes")
        count, wrong = wrong_records(room)
        passed, failed = passed + count - len(wrong), failed + len(wrong)
        print("".join(f"replaced_bytes: {name}\n" for name in wrong[:20]), end="")
    print(f"{passed} passed, {failed} failed")
    sys.exit(1 if failed else 0)


if __name__ == "__main__":
    main()
