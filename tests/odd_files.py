"""Files that `explain` shows, names or knows: one for each refusal of a file, files of other programs, mailboxes, what other systems send."""
import gzip
import io
import zipfile

from cases import vectors


def over(line, column, text):
    """A record with other bytes from a column on."""
    return line[: column - 1] + text + line[column - 1 + len(text) :]


def message(*lines, start=0):
    """A text that has other lines in the place of those of a text that cancels a flight, from a line on."""
    usual = vectors()["one_date_cancelled"].split(b"\n")[:-1]
    return b"\n".join([*usual[: start - 1], *lines, *usual[start - 1 + len(lines) :]]) + b"\n"


def refused_files():
    """A file that is refused by each number that a file alone may have, and the place."""
    records = vectors()
    h, c, leg, segment, t = (records[name] for name in ("header", "carrier", "leg", "segment", "trailer"))
    times = records["times_changed_on_mondays"]
    return {
        10: (records["summer"][:-2], "record 4"),
        11: (h + c + over(leg, 1, b"6") + t, "record 3"),
        12: (h + c + over(leg, 37, b"Z1H") + t, "record 3 column 37"),
        20: (message(b"SSN", start=1), "line 1"),
        21: (message(b"01JUN0001E001", start=3), "line 3"),
        22: (message(b"CNL NEW", start=4), "line 4"),
        23: (message(b"LX544 1/X", start=5), "line 5"),
        24: (message(b"30FEB 25OCT25 1", start=6), "line 6"),
        25: (message(b"EQT", b"LX544", b"01JUL25 07JUL25 2", b"J 320 CY/Z", start=4), "line 7"),
        26: (message(b"NEW", b"LX544", b"01JUL25 07JUL25 2", b"J 320", b"ZRH0545 LHR2460", start=4), "line 8"),
        27: (message(b"J 320", start=7), "line 7"),
        28: (times + 20 * times[-16:], "line 27"),
        29: (message(b"LX5\xe944", start=5), "line 5"),
        30: (c + leg + t, "record 1"),
        31: (h + leg + t, "record 2"),
        32: (h + c + leg, "record 4"),
        33: (h + c + over(leg, 3, b"BA ") + t, "record 3"),
        34: (h + c + leg + leg + t, "record 4"),
        35: (h + c + segment + leg + t, "record 3"),
        36: (h + c + over(leg, 128, b"1") + t, "record 3"),
        37: (h + c + over(leg, 36, b"2") + t, "record 3"),
        38: (h + c + leg + over(t, 194, b"C"), "record 4"),
        39: (records["stations"] + b"JFK\n", "line 5"),
        62: (b"SSIMDESK 2\nRECORDS\n", "offset 11"),
        63: (b"DESKS 2\nTAKE 3 x2\n", "line 2"),
    }


def zipped(data):
    """A zip archive of one file; an empty one of none."""
    made = io.BytesIO()
    with zipfile.ZipFile(made, "w") as archive:
        if data:
            archive.writestr("season.ssim", data)
    return made.getvalue()


def foreign_files():
    """Files of each kind that other programs make of a data set."""
    season = vectors()["summer"]
    text = season.decode("ascii")
    return [
        ("gzip", gzip.compress(season)),
        ("zip", zipped(season)),
        ("zip", zipped(b"")),
        ("pdf", b"%PDF-1.4\n" + season),
        ("utf-16", text.encode("utf-16")),
        ("utf-16", b"\xfe\xff" + text.encode("utf-16-be")),
        ("utf-8-mark", text.encode("utf-8-sig")),
        ("ebcdic", text.encode("cp500")),
        ("markup", b"\r\n <html><pre>" + season + b"</pre></html>\n"),
        ("mail", b"From ops@example.com Mon Mar 15 09:00:00 2027\n\nPlease see the attachment.\n"),
        ("mail", b"Subject: winter schedule\nTo: ops@example.com\n\nPlease see the attachment.\n"),
        ("mail", b"X-Priority: 3\n"),
    ]


def mailboxes():
    """Files that are mail or nearly so, the numbers of their texts and of refused ones, and the lines of the latter; or None for no mailbox."""
    good, bad = message(), message(b"30FEB 25OCT25 1", start=6)
    heads = b"From: ops@example.com\nSubject: changes\n\n"
    return [
        ("two valid texts", good + b"NNNN\n" + good, (2, 0, [])),
        ("a valid and an invalid text", good + b"NNNN\n" + bad + b"NNNN\n", (2, 1, [(24, 6 + good.count(b"\n") + 1)])),
        ("an invalid text in an envelope", b"ZCZC ABC123\n" + bad, (1, 1, [(24, 7)])),
        ("a valid text and its end", good + b"\nNNNN\n", (1, 0, [])),
        ("a mail with two texts", heads + good + b"\nNNNN\n\n\n" + bad, (3, 2, [(20, 1), (24, 13 + good.count(b"\n"))])),
        ("an invalid text", bad, None),
        ("an invalid text with empty lines and ends of lines", b"\r\n" + bad.replace(b"\n", b" \r\n\n"), None),
        ("a mail without a message", heads, None),
        ("a station table", b"JFK 30MAR25\n", None),
    ]


def known_texts():
    """Texts with what other systems take, by the first cell of a row of docs/FORMATS.md, with either end of lines."""
    several = "24 at a flight or at a frequency rate; 25, 26 or 27 at a period"
    flight, period = b"LX544", b"01JUL25 07JUL25 2"
    actions = {
        "22 at `SKD`, `REV` or `ADM`": (b"SKD", b"REV", b"ADM"),
        "22 at `FLT`": (b"FLT",),
        "22 at `CON`": (b"CON",),
        "22 at `RRT`": (b"RRT",),
        "22 at `RIN`": (b"RIN",),
        "22 at `RSD`, `ACK` or `NAC`": (b"RSD", b"ACK", b"NAC"),
        "22 at an action that is taken, and more": (b"CNL CREW", b"EQT/ADM", b"NEW XASM"),
    }
    found = [(cell, message(line, start=4)) for cell, lines in actions.items() for line in lines]
    for lines in ([b"CNL", flight, flight, period], [b"CNL", flight, period + b"/W2"], [b"EQT", flight, period, period],
                  [b"NEW", flight, period, b"J 320", period], [b"CNL", flight, period, period]):
        found.append((several, message(*lines, start=4)))
    return [(cell, text.replace(b"\n", end)) for cell, text in found for end in (b"\n", b"\r\n")]


def carriers_files():
    """Files of several carriers: one is to follow, or follows the first."""
    records = vectors()
    h, c, leg, t = (records[name] for name in ("header", "carrier", "leg", "trailer"))
    return [h + c + leg + over(t, 194, b"C"), h + c + leg + c + leg + t]
