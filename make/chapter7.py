"""Chapter 7 records of 200 columns, built from their fields.

Columns count from 1, as in the record tables of docs/FORMATS.md. A field may be spelt in any way that the tables
allow: a builder takes the text of each field as it is to stand.
"""
import datetime

DAY = datetime.timedelta(days=1)
MONTHS = "JAN FEB MAR APR MAY JUN JUL AUG SEP OCT NOV DEC".split()
FILL = b"0" * 200
TITLE = "AIRLINE STANDARD SCHEDULE DATA SET"
OPEN_END = "00XXX00"


def record(*fields):
    """200 bytes, blank but for the given (first column, text)."""
    line = bytearray(b" " * 200)
    for column, text in fields:
        data = text if isinstance(text, bytes) else text.encode("ascii")
        line[column - 1 : column - 1 + len(data)] = data
    assert len(line) == 200
    return bytes(line)


def date(day):
    """DDMMMYY of a datetime.date."""
    return f"{day.day:02}{MONTHS[day.month - 1]}{day.year % 100:02}"


def day_of(text):
    """The datetime.date of DDMMMYY."""
    return datetime.date(2000 + int(text[5:7]), MONTHS.index(text[2:5]) + 1, int(text[:2]))


def dates_of(first, last, digits):
    """The dates of a period, whose days of operation have these digits."""
    span = (first + place * DAY for place in range((last - first).days + 1))
    return [day for day in span if str(day.isoweekday()) in digits]


def clock(minutes):
    """The time of day of so many minutes after a midnight."""
    return f"{minutes // 60 % 24:02}{minutes % 60:02}"


def days(mask):
    """Days of operation in their places; bit 0 is Monday."""
    return "".join(str(i + 1) if mask >> i & 1 else " " for i in range(7))


def weekday_bit(day):
    return 1 << day.weekday()


def header():
    return record((1, "1"), (2, TITLE), (41, "1"), (192, "001"))


def carrier(airline, first, last, created, mode="U", title="SUMMER"):
    return record((1, "2"), (2, mode), (3, airline), (11, "S25"), (15, first), (22, last), (29, created),
                  (36, title), (191, "0900"))


def leg(flight, variation, sequence, first, last, operates, columns):
    """`flight` is (suffix, airline, number); `columns` are further (column, text)."""
    suffix, airline, number = flight
    return record((1, "3"), (2, suffix), (3, airline), (6, number), (10, variation), (12, sequence), (14, "J"),
                  (15, first), (22, last), (29, operates), *columns)


def segment(flight, variation, sequence, columns):
    suffix, airline, number = flight
    return record((1, "4"), (2, suffix), (3, airline), (6, number), (10, variation), (12, sequence), (14, "J"),
                  *columns)


def trailer(airline, released, check, code="E"):
    return record((1, "5"), (3, airline), (6, released), (188, f"{check:06}"), (194, code))


def with_column(line, column, text):
    """The record with other bytes from a column on."""
    data = text if isinstance(text, bytes) else text.encode("latin-1")
    return line[: column - 1] + data + line[column - 1 + len(data) :]


def with_serial(line, serial):
    return line[:194] + f"{serial:06}".encode("ascii")


def with_serials(lines):
    """The records of a data set with their serials and the check reference."""
    for serial, line in enumerate(lines, 1):
        if line[:1] == b"5":
            line = with_column(line, 188, f"{serial - 1:06}")
        yield with_serial(line, serial)


def data_set(lines):
    """The bytes of a data set, each record with its serial and LF after it."""
    return b"".join(line + b"\n" for line in with_serials(lines))


def write(path, lines):
    """Writes a data set, however many records it has. Returns their number."""
    count = 0
    with open(path, "wb") as file:
        for count, line in enumerate(with_serials(lines), 1):
            file.write(line + b"\n")
    return count


def plain_season():
    """The records of one flight on each day of a summer."""
    columns = [(37, "ZRH"), (40, "05450545"), (48, "+0200"), (55, "LHR"), (58, "07000700"), (66, "+0100"), (73, "320"),
               (76, "CY"), (173, "C12Y138"), (193, "00")]
    return [header(), carrier("LX ", "30MAR25", "25OCT25", "01FEB25"),
            leg((" ", "LX ", "0544"), "01", "01", "30MAR25", "25OCT25", "1234567", columns), trailer("LX ", "01FEB25", 3)]


def blocks_of_season(rng, first, total, count):
    """`count` periods without a common day, as (first, last, mask): the season in blocks, each block with one to three
    sets of weekdays."""
    sizes = []
    while sum(sizes) < count:
        sizes.append(min(rng.choice([1, 1, 2, 2, 3]), count - sum(sizes)))
    marks = [0] + sorted(rng.sample(range(1, total), len(sizes) - 1)) + [total]
    found = []
    for block, size in enumerate(sizes):
        begin = first + datetime.timedelta(days=marks[block])
        end = first + datetime.timedelta(days=marks[block + 1] - 1)
        masks = [0] * size
        for place, weekday in enumerate(rng.sample(range(7), 7)):
            masks[place % size if place < size else rng.randrange(size)] |= 1 << weekday
        found += [(begin, end, mask) for mask in masks]
    return found
