"""A planner's changes of a data set: other times or another aircraft type from a date on, both, weeks that are cancelled, flights that
end, and new ones; and the station table that the UTC variations of the data set give."""
import collections
import functools

from chapter7 import DAY, date, day_of, with_column


@functools.cache
def day_at(text):
    """The day in a column."""
    return day_of(text.decode("ascii"))


def later(time, minutes):
    """The time so many minutes later, and on how many days later."""
    days, minute = divmod(int(time[:2]) * 60 + int(time[2:]) + minutes, 1440)
    return b"%02d%02d" % divmod(minute, 60), days


def retimed(line, minutes):
    """The leg so many minutes later."""
    start, over = later(line[43:47], minutes)
    end, more = later(line[57:61], minutes)
    shifts = [min(max(int(byte) + days, 0), 7) for byte, days in zip(line[192:194].decode("ascii"), (over, more))]
    return with_column(with_column(with_column(line, 40, start + start), 58, end + end), 193, b"%d%d" % tuple(shifts))


def parts(line, cut):
    """The record up to the day before a day, and from the day on; None for a part without dates."""
    first, last = day_at(line[14:21]), day_at(line[21:28])
    before = with_column(line, 22, date(min(last, cut - DAY))) if first < cut else None
    after = with_column(line, 15, date(max(first, cut))) if last >= cut else None
    return before, after


def change(rng, lines, first, days):
    """The leg records of a flight as the planner changes them."""
    kind = rng.choice(["times", "times", "aircraft", "both", "weeks", "ends"])
    cut = first + rng.choice([0, 0, rng.randrange(days)]) * DAY
    minutes = rng.choice([-30, -15, 5, 10, 25, 60])
    aircraft = rng.choice([b"321", b"E90", b"77W"])
    end = cut + 7 * rng.randrange(1, 5) * DAY
    found = []
    for line in lines:
        before, after = parts(line, cut)
        found += [before] if before else []
        if after is None or kind == "ends" and cut > first:
            continue
        if kind in ("times", "both"):
            after = retimed(after, minutes)
        if kind in ("aircraft", "both"):
            after = with_column(after, 73, aircraft)
        if kind == "weeks":
            after = parts(after, end)[1]
        found += [after] if after else []
    return found


def flights_of(lines):
    """The leg records of each flight."""
    found = collections.defaultdict(list)
    for line in lines:
        if line[:1] == b"3":
            found[line[1:2] + line[5:9]].append(line)
    return found


def planned(rng, lines, share):
    """The records of the planner's data set."""
    flights = flights_of(lines)
    first = min(day_at(line[14:21]) for each in flights.values() for line in each)
    last = max(day_at(line[21:28]) for each in flights.values() for line in each)
    free = [b"Z%04d" % number for number in range(1, 10_000)]
    yield from lines[:2]
    for name, legs in flights.items():
        yield from change(rng, legs, first, (last - first).days) if rng.random() < share else legs
        if rng.random() < share / 20:
            new = free.pop()
            yield from (with_column(with_column(retimed(line, 90), 2, new[:1]), 6, new[1:]) for line in legs)
    yield lines[-1]


def station_rows(lines):
    """A row for each stretch of days on which the records give a station one UTC variation."""
    found = collections.defaultdict(dict)
    for line in lines:
        if line[:1] != b"3":
            continue
        first, last = day_at(line[14:21]), day_at(line[21:28])
        for station, zone in ((line[36:39], line[47:52]), (line[54:57], line[65:70])):
            for place in range((last - first).days + 1):
                found[station.decode("ascii")].setdefault(first + place * DAY, zone.decode("ascii"))
    rows = []
    for station, zones in sorted(found.items()):
        begin = None
        for day in sorted(zones):
            if begin is None or zones[day] != zones[begin]:
                begin = day
                rows.append([station, date(day), date(day), zones[day]])
            rows[-1][2] = date(day)
    return [" ".join(row) for row in rows]
