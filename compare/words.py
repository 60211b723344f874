"""Flights, dates, stations and aircraft types as people type them, beside the words that they mean.

Each case is a word for FLIGHT, DATE, STATION or TYPE, spelled in any of the forms of docs/FORMATS.md, or altered so that it may be none. A command
with it prints what the command with the one usual spelling prints, or is refused by the number of such words. What a word means is read
here by a regular expression and by Python's dates.
"""
import datetime
import os
import re
import shutil

TOP = os.path.dirname(os.path.dirname(os.path.abspath(__file__)))
MONTHS = ["JAN", "FEB", "MAR", "APR", "MAY", "JUN", "JUL", "AUG", "SEP", "OCT", "NOV", "DEC"]
FLIGHTS = ["Z7101", "Z7103", "Z7121", "Z7341", "Z7501D", "Z77341", "LX0544", "SWR12A", "5A1"]
STATIONS = ["FDH", "HAM", "PMI", "XXX"]
AIRCRAFT = ["320", "E90", "32N", "AT7"]
KINDS = ["flight", "date", "station", "aircraft"]


def meant_date(word):
    """The usual spelling of the date that a word means; None if it is none."""
    found = re.fullmatch(r"(\d\d?)([A-Z]{3})(20)?(\d\d)", word)
    if found and found[2] in MONTHS:
        day, month, year = int(found[1]), MONTHS.index(found[2]) + 1, int(found[4])
    elif found := re.fullmatch(r"20(\d\d)-(\d\d)-(\d\d)", word):
        day, month, year = int(found[3]), int(found[2]), int(found[1])
    else:
        return None
    try:
        date = datetime.date(2000 + year, month, day)
    except ValueError:
        return None
    return f"{date.day:02}{MONTHS[date.month - 1]}{date.year % 100:02}"


def meant_flight(word, airline="Z7"):
    """The usual spelling of the flight that a word means in a file of an airline; None if it is none."""
    if re.fullmatch(r"([A-Z]{3}|[A-Z][A-Z0-9]|[0-9][A-Z])\d{1,4}[A-Z]?", word):
        return word
    return f"{airline}{word}" if re.fullmatch(r"\d{1,4}[A-Z]?", word) else None


def meant(kind, word):
    """The usual spelling of what a word means; None if it is nothing of the kind."""
    word = word.replace(" ", "").translate({code: code - 32 for code in range(ord("a"), ord("z") + 1)})
    if kind == "station":
        return word if re.fullmatch(r"[A-Z]{3}", word) else None
    if kind == "aircraft":
        return word if re.fullmatch(r"[A-Z0-9]{1,3}", word) else None
    return meant_date(word) if kind == "date" else meant_flight(word)


def spelled(rng, kind):
    """A word, in one of its forms."""
    if kind in ("station", "aircraft"):
        return rng.choice(STATIONS if kind == "station" else AIRCRAFT)
    if kind == "flight":
        flight = rng.choice(FLIGHTS)
        return flight[2:] if flight.startswith("Z7") and rng.randrange(2) else flight
    date = datetime.date(2027, 1, 1) + datetime.timedelta(days=rng.randrange(400))
    month, short = MONTHS[date.month - 1], date.year % 100
    day = rng.choice([f"{date.day}", f"{date.day:02}"])
    return rng.choice([f"{day}{month}{short}", f"{day}{month}{date.year}", date.isoformat()])


def altered(rng, word):
    """A word with a byte added, dropped or replaced, or with letters and blanks as nobody should mind."""
    if rng.randrange(3):
        word = "".join(rng.choice([byte, byte.lower()]) for byte in word)
    for _ in range(rng.randrange(3)):
        at = rng.randrange(len(word) + 1)
        word = f"{word[:at]} {word[at:]}"
    if not rng.randrange(3):
        at = rng.randrange(len(word))
        word = word[:at] + rng.choice(["", rng.choice("0129AZaz-/ \u00e9"), word[at] + rng.choice("0129AZ-")]) + word[at + 1 :]
    return word


def make(rng, room, kind):
    """The kind of a word, and the word."""
    shutil.copytree(os.path.join(TOP, "samples"), room.folder, dirs_exist_ok=True)
    room("start", "season.ssim", "stations.txt", "desk")
    return kind, altered(rng, spelled(rng, kind)) or "-"


COMMANDS = {
    "flight": [["show", "desk", None, "12JUL27"], ["calendar", "season.ssim", None], ["list", "desk", "--", None], ["texts", "desk", None]],
    "date": [["show", "desk", "Z7101", None], ["board", "desk", "FDH", None], ["history", "desk", "Z7101", None]],
    "station": [["board", "season.ssim", None, "12JUL27"], ["list", "--station", None, "desk"]],
    "aircraft": [["list", "--aircraft", None, "desk"], ["select", "--aircraft", None, "season.ssim"]],
}
REFUSALS = {"flight": "refused 6 BadDesignator\n", "date": "refused 1 BadDate\n", "station": "refused 3 BadStation\n",
            "aircraft": "refused 25 BadEquipment\n"}


def compared(rng, room, case):
    """What a command prints with the word, and with what the word means."""
    kind, word = case
    if word.startswith("-"):
        return
    command = rng.choice(COMMANDS[kind])
    usual = meant(kind, word)
    room.counts[f"{kind}: {'a word of the kind' if usual else 'another word'}"] += 1
    got = room(*[word if part is None else part for part in command])
    if usual:
        wanted = room(*[usual if part is None else part for part in command])
        yield f"{command} with {word!r}", got, wanted
    else:
        yield f"{command} with {word!r}", (got.status, got.err), (1, REFUSALS[kind])
