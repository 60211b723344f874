"""`--effects` of `take`, `receive`, `merge`, `withdraw` and `carry` beside a plain model of what becomes of a timetable.

A desk holds some messages, and a command changes it, in place or not. It is run without `--effects` and with it, from the same files. With it
the command has to keep the same files, and to print the same and then the effects: the lines of `findings` of the desk that is kept by whose
numbers a sub-message fails, but for those that `findings` of the desk before has, too; and `same`, or the number of flights and of dates on
which the two timetables differ, counted date by date in their exports. Refused it has to print what it prints without `--effects`. With
`--csv` the words are no command.
"""
import os
import re

import carry
import receive
import since
import small
from changes import NO_COMMAND
from flight_dates import FINDING, Timetable, differing
from messages import written
from room import lines_of

KINDS = ["take"] * 4 + ["receive"] * 3 + ["merge", "merge", "since", "carry", "carry", "withdraw", "withdraw", "occupied", "broken"]


# ---- the model

def fails(line):
    """Whether a line of `findings` says that a sub-message acted on no date, or did not act on one of its dates."""
    acted, *others = (int(number) for number in re.findall(r" (?:acted|absent|present|leg|station) (\d+)", line))
    return acted == 0 or any(others)


def last_line(room, old, new):
    """`same`, or how many flights and dates differ."""
    exports = [room.exported(name) for name in (old, new)]
    if None in exports:
        room.counts["not exported"] += 1
        return lines_of(room("diff", old, new))[-1]
    return differing(*map(Timetable, exports))[-1]


def effects(room, old, new):
    """The lines of the effects of a change from one desk file to another."""
    known = set(lines_of(room("findings", old)))
    lines = [line for line in lines_of(room("findings", new)) if fails(line) and line not in known]
    room.counts["lines"] += len(lines)
    return lines + [last_line(room, old, new)]


# ---- the files of a case

def with_messages(rng, room):
    """Writes the desks DESK and OTHER over one data set, and returns texts of which each has some."""
    season, _ = room.write_base(rng, "season", small.data_set(rng))
    room("start", "season", "stations", "DESK")
    texts = [text for _ in range(rng.choice([1, 2, 3])) for text in receive.texts_of(rng, season)]
    room.copy("DESK", "OTHER")
    for name in ("DESK", "OTHER"):
        carry.bring(room, name, rng.sample(texts, rng.randrange(len(texts))))
    return texts


def references(room, name):
    """The references of the messages that a desk holds."""
    return sorted({FINDING.fullmatch(line).group(1) for line in lines_of(room("findings", name))})


def text_names(rng, room, texts, most):
    """Writes some texts to a file each, and returns the names."""
    chosen = rng.sample(texts, min(len(texts), rng.randrange(1, most)))
    for place, text in enumerate(chosen):
        room.write(f"text{place}", text)
    return [f"text{place}" for place in range(len(chosen))]


def mail_words(rng, room, texts):
    """Writes a mailbox, and returns the words that name it, with options."""
    room.write("mail", receive.mailbox(rng, rng.sample(texts, rng.randrange(1, len(texts))))[0])
    return ["mail"] + ["--status"] * (rng.random() < 0.3) + ["--refused", "back"] * (rng.random() < 0.3)


def words_of(rng, room, kind, texts):
    """The words of a command before OUT and after it."""
    if kind == "receive":
        return ["receive", "DESK"], mail_words(rng, room, texts)
    if kind == "withdraw":
        held = references(room, "DESK") or ["SSM 01JAN27 00001 001"]
        return ["withdraw", "DESK"], rng.sample(held, rng.randrange(1, len(held) + 1)) + ["SSM 01JAN27 00009 009"] * (rng.random() < 0.2)
    if kind == "merge":
        return ["merge", "DESK", "OTHER"], []
    return ["take", "DESK"], text_names(rng, room, texts, 6)


def make(rng, room, kind):
    """Writes the files, and returns the words of a command before OUT and after it."""
    if kind == "since":
        since.make(rng, room, "branches")
        return ["merge", "--since", "OLD", "DESK", "OTHER"], []
    if kind == "carry":
        carry.make(rng, room, rng.choice(["dates", "dates", "one base", "other airline"]))
        return ["carry", "DESK", "OTHER"], []
    texts = with_messages(rng, room)
    own = rng.choice(["take", "receive", "merge", "withdraw"]) if kind in ("occupied", "broken") else kind
    words = words_of(rng, room, own, texts)
    if kind == "broken":
        data = room.read("DESK")
        room.write("DESK", data[: rng.randrange(12, len(data))])
    return words


# ---- what is compared

def restore(room, files):
    """Makes the files of a room these again."""
    for name in room.files():
        if name not in files:
            os.remove(room.path(name))
    for name, data in files.items():
        room.write(name, data)


def with_option(rng, words, option):
    """The words with an option somewhere after the command's name."""
    place = rng.randrange(1, len(words) + 1)
    while words[place - 1] in ("--since", "--refused"):
        place = rng.randrange(1, len(words) + 1)
    return words[:place] + [option] + words[place:]


def compared(rng, room, case):
    before, after = case
    kind = before[0]
    out = "season" if rng.random() < 0.05 else rng.choice(["DESK", "OUT"])
    words = [*before, out, *after]
    files = room.files()
    plain = room(*words)
    kept = room.files()
    restore(room, files)
    if kind == "receive":
        answer = room(*with_option(rng, with_option(rng, words, "--effects"), "--csv"))
        yield "with --csv", answer, NO_COMMAND
        yield "files with --csv", room.files(), files
    yield "twice", room(*with_option(rng, with_option(rng, words, "--effects"), "--effects")).status, 2
    answer = room(*with_option(rng, words, "--effects"))
    yield "files", room.files(), kept
    if plain.status in (0, 3):
        room.write("was", files["DESK"])
        room.write("is", kept[out])
        lines = effects(room, "was", "is")
        room.counts[f"{kind}: {lines[-1].split()[0]}, {'lines' if lines[1:] else 'no line'}"] += 1
        plain = plain._replace(out=plain.out + written(lines))
    else:
        room.counts[f"{kind}: {' '.join(plain.err.split()[:2])}"] += 1
    yield "effects", answer, plain
