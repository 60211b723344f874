"""`receive` beside `take`.

Each desk is brought ten texts, valid and broken ones, repeated ones and some with a reference twice, in 50 orders. `receive` reads them
from one to three mailbox files, in envelopes; what follows an empty line in a free text is a text of its own there. `take` tries the same
texts one by one, each from a file of its own, and goes on after a refusal. Both have to say the same of each text, `receive` as lines or, with
`--csv`, as rows; to keep the same desk file, byte for byte; and `receive` has to keep the refused texts. Some orders also name a file that is not
there. In an order in which nothing is refused but what each order refuses, the
desk file has to be that of the other such orders.
"""
import collections

import messages
import small
from flight_dates import cells
from room import said

KINDS = ["desk"]
ORDERS, TEXTS = 50, 10
NAMES = "file,line,result,reference,number,name,place"
ADDRESSES = [["ZCZC ABC123", "QU FDHOPZ7 HAMOPZ7"], ["QD FDHOPZ7"], []]


def texts_of(rng, season):
    """Some texts as bytes."""
    found = [messages.message(rng, season) for _ in range(TEXTS)]
    texts = []
    for lines in found:
        choice = rng.random()
        if choice < 0.15:
            lines = [messages.broken(rng, lines)[1], messages.written(lines)][choice < 0.02]
        elif choice < 0.3:
            lines = messages.spelt(rng, rng.choice(found))
        else:
            lines = messages.written(lines)
        texts.append(lines if len(lines) < 70_000 and lines.strip() else b"SSM\n")
    return texts


def lines_of(text):
    """The lines of a text as `receive` keeps them."""
    lines = [line.rstrip(b" \r") for line in text.split(b"\n")]
    while lines and not lines[-1]:
        del lines[-1]
    while lines and not lines[0]:
        del lines[0]
    return lines


def parts_of(text):
    """The texts that `receive` makes of a text, each with its place among the lines: an empty line in a free text ends a text."""
    lines, parts, begin, free, above = lines_of(text), [], 0, False, b""
    for place, line in enumerate(lines):
        if line:
            begin = place if above is None else begin
            free = free or (above == b"//" and line.startswith(b"SI"))
            above = line
        elif free:
            parts.append((begin, lines[begin:place]))
            free, above = False, None
    parts.append((begin, lines[begin:]))
    if len(parts) == 1:
        return [(0, text)]
    return [(begin, b"".join(line + b"\n" for line in part)) for begin, part in parts]


def has_origin(lines):
    """Whether a text begins with an origin line: only above one address lines are part of no text."""
    below = [line for line in lines[1:] if line]
    return lines[0].startswith(b".") and below[:1] in ([b"SSM"], [b"ASM"])


def mailbox(rng, texts):
    """A mailbox file with these texts, and the line on which each of their parts begins."""
    found, begins = [], []
    for text in texts:
        lines = lines_of(text)
        envelope = rng.choice(ADDRESSES) if has_origin(lines) and rng.random() < 0.8 else []
        found += [b""] * rng.choice([0, 1]) + [line.encode("ascii") for line in envelope]
        begins += [len(found) + 1 + place for place, _ in parts_of(text)]
        found += lines + [b"NNNN"]
    return b"".join(line + b"\n" for line in found), begins


def moved(answer, begin):
    """The line of `take` on a text, as `receive` prints it of a text that begins on this line of a file."""
    words = answer.split()
    if words[0] == "refused" and words[-2:-1] == ["line"]:
        words[-1] = str(int(words[-1]) + begin - 1)
    return " ".join(words)


def as_row(file, line, answer):
    """The row of a text that begins on this line of a file, by what is printed of it: a reference and a place have blanks."""
    result, _, rest = answer.partition(" ")
    if result != "refused":
        return cells([file, line, result, rest, "", "", ""])
    number, name, *place = rest.split(" ")
    return cells([file, line, result, "", number, name, " ".join(place)])


def taken(room, start, texts):
    """What `take` says of each text, one after another. The file `taken.desk` is the desk afterwards."""
    room.write("taken.desk", start)
    answers = []
    for text in texts:
        room.write("text", text)
        answer = room("take", "taken.desk", "taken.desk", "text")
        answers.append((answer.out.decode("latin-1") or answer.err).strip())
    return answers


def divided(rng, texts):
    """The texts in one to three lists."""
    cuts = sorted(rng.sample(range(1, len(texts)), rng.choice([0, 1, 2])))
    return [texts[first:last] for first, last in zip([0] + cuts, cuts + [len(texts)])]


def of_order(rng, room, start, texts):
    """What is compared of one order, and what `take` says of each text."""
    tried = [part for text in texts for _, part in parts_of(text)]
    answers = taken(room, start, tried)
    expected, rows, names, place = [], [NAMES], [], 0
    for part in divided(rng, texts):
        names.append(f"mail{len(names) + 1}")
        data, begins = mailbox(rng, part)
        room.write(names[-1], data)
        of_file = [(str(begin), moved(answer, begin)) for begin, answer in zip(begins, answers[place:])]
        expected += [f"{names[-1]}:{begin} {answer}" for begin, answer in of_file]
        rows += [as_row(names[-1], begin, answer) for begin, answer in of_file]
        place += len(begins)
    words = collections.Counter(answer.split()[0] for answer in answers)
    room.counts += words
    if rng.random() < 0.2:
        names.append("nowhere")
        expected.append("refused 91 File nowhere")
        rows.append("nowhere,,refused,,91,File,")
        words["refused"] += 1
    expected.append(f"taken {words['taken']} repeated {words['repeated']} refused {words['refused']}")
    room.write("received.desk", start)
    room.write("back", b"")
    status, form = rng.choice([[], ["--status"]]), rng.choice([[], ["--csv"]])
    answer = room("receive", *status, *form, "--refused", "back", "received.desk", "received.desk", *names)
    back = b"".join(b"\n".join(lines_of(text) + [b"NNNN", b""]) for text, said in zip(tried, answers) if said.startswith("refused"))
    wanted = said(rows if form else expected)._replace(status=3 if status and words["refused"] else 0)
    return [("receive", answer, wanted),
            ("desk file", room.read("received.desk"), room.read("taken.desk")), ("refused texts", room.read("back"), back)], answers


def make(rng, room, _):
    """The bytes of the desk, and the texts."""
    season, _ = room.write_base(rng, "season", small.data_set(rng))
    room("start", "season", "stations", "start.desk")
    return room.read("start.desk"), texts_of(rng, season)


def compared(rng, room, case):
    start, texts = case
    desk = None
    for order in range(ORDERS):
        found, answers = of_order(rng, room, start, rng.sample(texts, len(texts)))
        yield from ((f"order {order}: {what}", got, wanted) for what, got, wanted in found)
        if not any(answer.startswith("refused 60") for answer in answers):
            desk = desk or room.read("taken.desk")
            yield f"order {order}: desk file of another order", room.read("taken.desk"), desk
