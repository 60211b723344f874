"""What docs/ say of refusals, and the line of a file at the place of one."""
import os
import re

TOP = os.path.dirname(os.path.dirname(os.path.abspath(__file__)))
PAGE = "docs/REFUSALS.md"


def rows_from(page, first):
    """The cells of each row of the first table from a line on."""
    with open(os.path.join(TOP, page), encoding="utf-8", newline="\n") as file:
        lines = file.read().split("\n")
    rows = []
    for line in lines[lines.index(first) :]:
        if line.startswith("|"):
            rows.append([cell.strip().replace("`", "") for cell in line.strip("|").split("|")])
        elif rows:
            return rows[2:]
    return rows[2:]


def refusals():
    """The name, the meaning and the remedy of each number, by docs/REFUSALS.md."""
    rows = rows_from(PAGE, "| Number | Name | Place | Meaning | What to do |")
    return {int(number): (name, meaning, remedy) for number, name, _place, meaning, remedy in rows}


def there(data, place):
    """The line that shows the bytes at a place, at most 200; none if the file ends before it. A line has no blanks and CR at its end."""
    word, number = place.split()[:2]
    found = data[int(number) :].split(b"\n")[0] if word == "offset" else data.split(b"\n")[int(number) - 1]
    found = found.rstrip(b"\r ") if word == "line" else found
    shown = "".join(chr(byte) if 32 <= byte <= 126 else "?" for byte in found[:200])
    return f"{'element' if word == 'offset' else word}: [{shown}]\n" if found else ""
