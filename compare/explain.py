"""`explain` of broken files beside the refusals of the commands that read them.

Each file is one of samples/ (a data set, a station table, a message, a script, or a desk file made of them) with one to three places
altered, but not its first line, by which `explain` sees what the file is; or a mailbox of messages, in envelopes or not, with or without the
headers of a mail. The first line that `explain` prints has to be the refusal of the command that reads such a file; or `valid` and its kind if
the command refuses the file for nothing that is within it. Of a mailbox it has to count the texts and those that are no message, and each of
these has to have its refusal, with the line of the file.
"""
import os
import re
import shutil

import mail
import receive

TOP = os.path.dirname(os.path.dirname(os.path.abspath(__file__)))
HEADERS = [b"", b"", b"", b"From: ops@example.com\nSubject: changes\n\n", b"From ops@example.com Mon Mar 15 09:00:00 2027\n\nHello,\n\n"]
BYTES = b" 0189AZaz/+-\n\r.\x00\xff"
# The numbers of the refusals that are within a file of each kind. All others are of other files, or of several together.
WITHIN = {
    "data set": {*range(10, 13), *range(30, 39)},
    "station table": {39},
    "message": set(range(20, 30)),
    "desk file": {62},
    "script": {63},
}


def altered(data, rng):
    """The bytes with one place after the first line altered."""
    start = data.find(b"\n") + 1
    if start == len(data):
        return data
    at = rng.randrange(start, len(data))
    lines = data[start:].split(b"\n")
    line = rng.randrange(len(lines))
    how = rng.randrange(6)
    if how == 0:
        return data[:at] + bytes([rng.choice(BYTES)]) + data[at + 1 :]
    if how == 1:
        return data[:at] + data[at + 1 :]
    if how == 2:
        return data[:at] + bytes([rng.choice(BYTES)]) + data[at:]
    if how == 3:
        return data[:at]
    if how == 4:
        del lines[line]
    else:
        lines.insert(rng.randrange(len(lines)), lines[line])
    return data[:start] + b"\n".join(lines)


KINDS = [*WITHIN, "mailbox"]


def mailbox_of(rng, texts):
    """Some texts in one file, as mail brings them, or words without any."""
    found, _ = receive.mailbox(rng, texts)
    if rng.random() < 0.2:
        found = found.replace(b"NNNN\n", b"")
    if rng.random() < 0.1:
        found = b"Please see the attachment.\n"
    return rng.choice(HEADERS) + found


def make(rng, room, kind):
    """The kind of a file, and its bytes, which the command reads."""
    shutil.copytree(os.path.join(TOP, "samples"), room.folder, dirs_exist_ok=True)
    texts = sorted(f"texts/{name}" for name in os.listdir(room.path("texts")))
    room("start", "season.ssim", "stations.txt", "empty.desk")
    room("take", "empty.desk", "full.desk", *texts[:4])
    sources = {"data set": ["season.ssim"], "station table": ["stations.txt"], "message": texts, "desk file": ["empty.desk", "full.desk"],
               "script": ["rehearsal.txt", "conflict.txt"]}
    if kind == "mailbox":
        data = mailbox_of(rng, [room.read(name) for name in rng.sample(texts, rng.randrange(1, 4))])
    else:
        data = room.read(rng.choice(sources[kind]))
    for _ in range(rng.randrange(kind != "mailbox", 4)):
        data = altered(data, rng)
    room.write("broken", data)
    return kind


def refusal(room, kind, name="broken"):
    """The line of the refusal that the command gives for something within the file, or nothing."""
    words = {
        "data set": ["check", name],
        "station table": ["start", "season.ssim", name, "out"],
        "message": ["take", "empty.desk", "out", name],
        "desk file": ["findings", name],
        "script": ["rehearse", "season.ssim", "stations.txt", name],
    }[kind]
    line = room(*words).err
    parts = line.split()
    return line.rstrip("\n") if len(parts) > 1 and parts[1].isdigit() and int(parts[1]) in WITHIN[kind] else ""


# The first bytes of the files of other programs.
FOREIGN = [(b"\x1f\x8b", "gzip"), (b"PK\x03\x04", "zip"), (b"PK\x05\x06", "zip"), (b"%PDF-", "pdf"), (b"\xff\xfe", "utf-16"),
           (b"\xfe\xff", "utf-16"), (b"\xef\xbb\xbf", "utf-8-mark"), (b"\xf1\xc1", "ebcdic")]
FIRST_WORDS = {b"SSIMDESK": "desk file", b"DESKS": "script"}
# What `explain` calls a valid file of a kind, where that is another name.
NAMES = {"message": "text", "script": "desk script"}


def taken_for(data):
    """The kind of a file, by its first line that is not empty."""
    data = data.lstrip(b" \t\n\x0c\r")
    first = data.split(b"\n")[0].rstrip(b"\r ")
    if not data or first[:1].isdigit():
        return "data set"
    word, _, more = first.partition(b" ")
    return FIRST_WORDS.get(word) or ("message" if first.startswith(b".") or not more else "station table")


def foreign(data):
    """The other program of a file, by its first bytes; an empty text if there is none."""
    if data.lstrip(b" \r\n").startswith(b"<"):
        return "markup"
    return next((name for first, name in FOREIGN if data.startswith(first)), "")


def lines_on_mailbox(room, texts):
    """The first line on a mailbox, and the lines of the refusals of its texts."""
    found = []
    for begin, text in texts:
        room.write("text", text)
        line = refusal(room, "message", "text")
        found += [receive.moved(line, begin)] if line else []
    return [f"mailbox texts {len(texts)} refused {len(found)}", *found]


def lines_wanted(room, name):
    """The first line that has to be printed of a file, and of a mailbox those of the refusals of its texts."""
    data = room.read(name)
    kind = taken_for(data)
    line = refusal(room, kind, name)
    if line and foreign(data):
        return [f"foreign {foreign(data)}"]
    if line and kind in ("message", "station table"):
        texts = mail.Mailbox(data).texts()
        if mail.is_mailbox(data, texts):
            return lines_on_mailbox(room, texts)
        if mail.begins_mail(data) and not any(mail.has_message(text) for _, text in texts):
            return ["foreign mail"]
    return [line or f"valid {NAMES.get(kind, kind)}"]


def compared(_, room, kind):
    wanted, answer = lines_wanted(room, "broken"), room("explain", "broken")
    lines = answer.out.decode("latin-1").splitlines()
    shown = [lines[0], *[line for line in lines[1:] if line.startswith("refused ")]]
    room.counts[f"{kind}: {wanted[0].split(' ')[0]}"] += 1
    yield "explain broken", (answer.status, shown, answer.err), (0, wanted, "")
    asked = room("explain", "broken", "--status")
    found = not re.fullmatch(r"valid .*|mailbox texts \d+ refused 0", wanted[0])
    yield "explain --status broken", asked, answer._replace(status=3 if found else 0)
