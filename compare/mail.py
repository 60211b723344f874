"""The texts of a mailbox file, as `receive` has to read them by docs/FORMATS.md: a plain model."""
import re

KINDS = (b"SSM", b"ASM")
ADDRESSES = re.compile(rb"(?:Q[A-Z] )? *[A-Z]{4}[A-Z0-9]{3}(?: +[A-Z]{4}[A-Z0-9]{3})* *")


def shown(line):
    """A line without control characters at both ends, and without blanks and CR bytes at its end."""
    return line.lstrip(b"\x01\x02\x03").rstrip(b"\x01\x02\x03\r ")


class Mailbox:
    """The lines of a mailbox file, and what each of them is."""

    def __init__(self, data):
        self.lines = [shown(line) for line in data.split(b"\n")]

    def is_kind(self, at):
        return at < len(self.lines) and self.lines[at] in KINDS

    def is_origin(self, at):
        """Whether a line begins with a dot, and the next one that is not empty is SSM or ASM."""
        if at >= len(self.lines) or not self.lines[at].startswith(b"."):
            return False
        return next((line in KINDS for line in self.lines[at + 1 :] if line), False)

    def is_addressing(self, at):
        """Whether a line is one of the address lines directly above an origin line."""
        if at >= len(self.lines) or not ADDRESSES.fullmatch(self.lines[at]):
            return False
        return self.is_origin(at + 1) or self.is_addressing(at + 1)

    def is_start(self, at):
        below = at + 1
        return self.lines[at].startswith(b"ZCZC") and (self.is_kind(below) or self.is_origin(below) or self.is_addressing(below))

    def parts(self):
        """The places of the lines of each text; lines of envelopes and ends are in none."""
        found, above = [[]], b""
        for at, line in enumerate(self.lines):
            if line == b"NNNN":
                found.append([])
            elif (line in KINDS and not above.startswith(b".")) or self.is_origin(at):
                found.append([at])
            elif line in KINDS or not (self.is_addressing(at) or self.is_start(at)):
                found[-1].append(at)
            above = line or above
        return [part for places in found for part in self.ended(places)]

    def ended(self, places):
        """A part, divided at each empty line in a free text. A free text begins with SI, below the line `//`."""
        found, above, is_free = [[]], b"", False
        for at in places:
            line = self.lines[at]
            if is_free and not line:
                found.append([])
                above, is_free = b"", False
                continue
            is_free = is_free or (above == b"//" and line.startswith(b"SI"))
            above = line or above
            found[-1].append(at)
        return found

    def texts(self):
        """The number of the line on which each text begins, and its bytes."""
        found = []
        for places in self.parts():
            said = [at for at in places if self.lines[at]]
            if said:
                kept = [at for at in places if said[0] <= at <= said[-1]]
                found.append((kept[0] + 1, b"".join(self.lines[at] + b"\n" for at in kept)))
        return found


def lines_said(data):
    """How many lines are not empty without CR bytes and blanks at their ends."""
    return sum(1 for line in data.split(b"\n") if line.rstrip(b"\r "))


def has_message(text):
    return any(line.rstrip(b"\r ") in KINDS for line in text.split(b"\n"))


def is_mailbox(data, texts):
    """Whether there is a message, and the file is not that text alone."""
    if not any(has_message(text) for _, text in texts):
        return False
    return len(texts) != 1 or lines_said(texts[0][1]) < lines_said(data)


def begins_mail(data):
    """Whether the file begins as a mail."""
    return re.match(rb"From |[A-Za-z0-9-]+: ", data) is not None
