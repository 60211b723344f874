"""SSM and ASM messages for a data set, drawn at random.

A message is a list of lines in their canonical spelling; `spelt` gives another spelling of the same message and `broken`
makes one line invalid. `Season` has what messages name: the flights of the data set with their legs, its dates and mode.
"""
from chapter7 import DAY, OPEN_END, date, day_of

LETTERS = "ABCDEFGHIJKLMNOPQRSTUVWXYZ"
ACTIONS = ["NEW", "CNL", "RPL", "EQT", "TIM"]
ORIGINATORS = ["", "", "", ".AAAAAAA", ".ZRHRMLX", ".HAM0PZ7"]


class Season:
    """What the messages of a data set can name."""

    def __init__(self, records):
        carrier = next(line for line in records if line[:1] == b"2").decode("latin-1")
        self.mode = "UTC" if carrier[1] == "U" else "LT"
        self.airline = carrier[2:5].strip()
        self.created = day_of(carrier[28:35])
        self.first = day_of(carrier[14:21])
        self.last = day_of(carrier[21:28]) if carrier[21:28] != OPEN_END else self.first + 730 * DAY
        self.legs, flown = {}, [self.first]
        for line in (line.decode("latin-1") for line in records if line[:1] == b"3"):
            flight = f"{int(line[5:9]):03}{line[1].strip()}"
            self.legs.setdefault(flight, []).append((line[36:39], line[54:57]))
            flown += [day_of(line[14:21]), self.last if line[21:28] == OPEN_END else day_of(line[21:28])]
        self.begin, self.end = min(flown[1:] or flown), max(flown)
        self.flights = sorted(self.legs)
        self.stations = sorted({name for legs in self.legs.values() for leg in legs for name in leg} | {"ZRH", "LHR", "JFK"})

    def flight(self, rng):
        if self.flights and rng.random() < 0.85:
            return rng.choice(self.flights)
        return rng.choice(["001", "544", "700", "9999", "044Z"])

    def day(self, rng):
        """A day on which flights fly, or soon before or after."""
        return self.begin + rng.randrange(-10, (self.end - self.begin).days + 20) * DAY

    def is_in_first_year(self, day):
        """Whether the day can be written without its year."""
        return 0 <= (day - self.first).days < 365


def clock(rng):
    return "2400" if rng.random() < 0.05 else f"{rng.randrange(24):02}{rng.randrange(0, 60, 5):02}"


def word(rng, letters, least, most):
    return "".join(rng.choice(letters) for _ in range(rng.randrange(least, most + 1)))


# ---- the parts of a message

def reference_line(rng, season):
    day = season.created + rng.randrange(4) * DAY
    creator = rng.choice(["", "", "", "/REF 1", "/ A/B"])
    return f"{date(day)[:5]}{rng.randrange(1, 4):05}{rng.choice('EEEC')}{rng.randrange(1, 3):03}{creator}"


def period_line(rng, season):
    first = season.day(rng)
    last = first + rng.choice([0, 0, 6, 20, 60, 200]) * DAY
    days = "".join(digit for digit in "1234567" if rng.random() < 0.6) or "1234567"
    if last == first and rng.random() < 0.8:
        days = str(first.isoweekday())
    elif rng.random() < 0.3:
        days = "1234567"
    begin, end = date(first), date(last)
    if season.is_in_first_year(first) and rng.random() < 0.2:
        begin = begin[:5]
    if (last - first).days < 300 and rng.random() < 0.2:
        end = end[:5]
    elif first <= season.last and rng.random() < 0.05:
        end = OPEN_END
    return f"{begin} {end} {days}"


def equipment_line(rng):
    parts = [rng.choice("JFC"), word(rng, LETTERS + "0123456789", 3, 3)]
    booking = word(rng, LETTERS, 0, 5)
    configuration = "." + word(rng, LETTERS + "0123456789", 1, 8) if rng.random() < 0.5 else ""
    return " ".join(parts + ([booking + configuration] if booking + configuration else []))


def end_text(rng, station):
    time = clock(rng)
    later = "/" + rng.choice("1237") if rng.random() < 0.2 else ""
    passenger = "/" + clock(rng) if rng.random() < 0.2 else ""
    return station + time + later + ("" if passenger == "/" + time else passenger)


def leg_line(rng, board, off):
    return f"{end_text(rng, board)} {end_text(rng, off)}"


def new_legs(rng, season):
    """Leg lines and segment lines."""
    points = [rng.choice(season.stations) for _ in range(rng.choice([2, 2, 3, 4]))]
    lines = [leg_line(rng, board, off) for board, off in zip(points, points[1:])]
    for _ in range(rng.choice([0, 0, 1, 3])):
        first = rng.randrange(len(points) - 1)
        last = rng.randrange(first + 1, len(points))
        text = rng.choice(["X", "VIA TERMINAL 2", " A/B", "LX 7151 "])
        if points[first] + points[last] != "QQQQQQ":
            lines.append(f"{points[first]}{points[last]} {rng.choice([0, 7, 10, 109, 999])}/{text}".rstrip())
    return lines


def sub_lines(rng, season, kind):
    """A sub-message, as lines."""
    action, flight = rng.choice(ACTIONS), season.flight(rng)
    designator = season.airline + flight
    lines = [action]
    if kind == "ASM":
        day = season.day(rng)
        lines.append(f"{designator}/{date(day)[: 5 if season.is_in_first_year(day) and rng.random() < 0.3 else 7]}")
    else:
        lines += [designator, period_line(rng, season)]
    if action in ("NEW", "RPL"):
        lines += [equipment_line(rng), *new_legs(rng, season)]
    elif action == "EQT":
        lines.append(equipment_line(rng))
    elif action == "TIM":
        legs = season.legs.get(flight, [("ZRH", "LHR")])
        lines += [leg_line(rng, *rng.choice(legs)) for _ in range(rng.choice([1, 1, 2]))]
    return lines


def message(rng, season):
    """The lines of a message in their canonical spelling."""
    kind = rng.choice(["SSM", "SSM", "SSM", "ASM"])
    originator = rng.choice(ORIGINATORS)
    lines = ([originator] if originator else []) + [kind, season.mode, reference_line(rng, season)]
    for place in range(rng.choice([1, 1, 1, 2, 3])):
        lines += (["//"] if place else []) + sub_lines(rng, season, kind)
    if rng.random() < 0.2:
        lines += ["//", rng.choice(["SI", "SI FREE TEXT", "SIX 1  2"]), *rng.choice([[], ["MORE", " OF IT"]])]
    return lines


def written(lines):
    return "".join(line + "\n" for line in lines).encode("latin-1")


# ---- other spellings, and texts that are not valid

def spelt(rng, lines):
    """The bytes of another spelling of the message."""
    end = rng.choice(["\n", "\r\n", "  \n", " \r\r\n"])
    found = ""
    free = False
    for place, line in enumerate(lines):
        free = free or line.startswith("SI")
        if line == "UTC" and place < 3 and rng.random() < 0.3:
            continue
        if line.startswith(".") and place == 0 and rng.random() < 0.5:
            line += " 231200"
        elif not free and "/" not in line and rng.random() < 0.3:
            line = line.replace(" ", "   ")
        found += line + end + ("\n" if rng.random() < 0.1 else "")
    return found.encode("latin-1")


def changed(place, *texts):
    """A change of the line that comes so many lines after the kind line."""
    return lambda rng, lines: replaced(lines, kind_place(lines) + place, rng.choice(texts))


def with_other_mode(rng, lines):
    place = kind_place(lines) + 1
    return replaced(lines, place, "LT" if lines[place] == "UTC" else "UTC")


LAST_LINES = ["J 320 CY/Z", "ZRH0545 LHR2460", "J32", "ZRHLHR 99/", "QQQQQQ 99/X", "//", "ZRHJFK 1/X"]
EXTRA_LINES = ["J 320", "ZRH0545 LHR0700", "X", "//", "CNL"]
BREAKS = {
    "kind": changed(0, "SSN", "ssm", "SSM UTC", ".ZRHRML"),
    "reference": changed(2, "01JUN0001E001", "32JAN00001E001", "01JUN00001X001", "01JUN00001E001/"),
    "no reference": lambda rng, lines: lines[: kind_place(lines) + 2],
    "action": changed(3, "CNL NEW", "XXX", "SI", "CNL/"),
    "flight": changed(4, "LX544 1/X", "A1B2", "LX", "LX12345", "LX544 /01JUL"),
    "period": changed(5, "30FEB 25OCT25 1", "01JUL25 07JUL25", "01JUL25 07JUL25 21", "01JUL25"),
    "short": lambda rng, lines: lines[: rng.randrange(len(lines))],
    "last line": lambda rng, lines: lines[:-1] + [rng.choice(LAST_LINES)],
    "extra": lambda rng, lines: lines + [rng.choice(EXTRA_LINES)],
    "many legs": lambda rng, lines: lines + ["ZRH0545 LHR0700"] * 21,
    "many segments": lambda rng, lines: lines + ["ZRH0545 LHR0700"] + ["ZRHLHR 99/X"] * 100,
    "byte": lambda rng, lines: replaced(lines, rng.randrange(len(lines)), rng.choice(["LX\xe9", "\tCNL", "A\rB", "\x7f"])),
    "mode": with_other_mode,
    "airline": lambda rng, lines: replaced(lines, kind_place(lines) + 4, "BA" + lines[kind_place(lines) + 4][2:]),
    "reversed": changed(5, "02JUL25 01JUL25 2"),
    "leap day": changed(5, "29FEB 31DEC99 1234567"),
    "reference on a leap day": changed(2, "29FEB00001E001"),
    "long": lambda rng, lines: lines + ["//", "SI " + "X" * 65536],
}


def kind_place(lines):
    return 1 if lines[0].startswith(".") else 0


def replaced(lines, place, text):
    found = list(lines)
    found[min(place, len(found) - 1)] = text
    return found


def broken(rng, lines):
    """What is broken, and the bytes."""
    kind = rng.choice(sorted(BREAKS))
    return kind, written(BREAKS[kind](rng, lines))


def many_dates(season, flight, count):
    """A message that gives a flight another aircraft on each of the first dates of the season."""
    lines = ["SSM", season.mode, f"{date(season.created)[:5]}00009E001"]
    for place in range(count):
        day = date(season.first + place * DAY)
        aircraft = LETTERS[place // 26] + LETTERS[place % 26] + "1"
        lines += (["//"] if place else []) + ["EQT", season.airline + flight, f"{day} {day} 1234567", f"J {aircraft}"]
    return lines


# ---- station tables

def station_rows(rng, season):
    """Rows of a station table, some of them over the same dates."""
    rows = []
    for name in season.stations:
        if rng.random() < 0.8:
            first = season.begin - 30 * DAY
            middle = season.begin + rng.randrange(0, 200) * DAY
            next_first = middle + rng.choice([1, 1, -5]) * DAY
            last = middle + rng.randrange(0, 400) * DAY
            rows.append((name, first, middle, rng.choice(["+0200", "-0530", "+0000"])))
            rows.append((name, next_first, last, rng.choice(["+0100", "-0000", "+1500"])))
    rows = [row for row in rows if row[1] <= row[2]]
    rng.shuffle(rows)
    return [f"{name} {date(first)} {date(last)} {variation}" for name, first, last, variation in rows]


class Stations:
    """The rows of a station table."""

    def __init__(self, lines):
        self.rows = [(line[:3], day_of(line[4:11]), day_of(line[12:19]), line[20:25]) for line in lines]

    def at(self, station, day):
        """The UTC variation of a station on a day: that of the first row that holds it."""
        return next((row[3] for row in self.rows if row[0] == station and row[1] <= day <= row[2]), None)
