"""The timetable of a data set as a plain list of flight dates, and what `list`, `board`, `calendar`, `page` and `diff` print of it.

It reads only what `tidy` and `export` write, where equal legs have equal columns. Nothing here knows of periods but
`divided`, which divides the dates anew.
"""
import collections
import datetime
import re

from chapter7 import DAY, FILL, OPEN_END, date, dates_of, day_of

WEEKDAYS = "1234567"
FINDING = re.compile(r"((?:SSM|ASM) \S{7} \d{5} \d{3}(?: \S{7})?) \d+ (\S+) (\S+) (acted .*)")
LEG_NAMES = ("leg,from,passenger_departure,departure,departure_utc_variation,to,arrival,passenger_arrival,arrival_utc_variation,"
             "departure_date_variation,arrival_date_variation,service,aircraft,bookings,configuration,departure_terminal,arrival_terminal")
HEADER = "flight,first,last,days," + LEG_NAMES
BOARD_NAMES = "station,date,time,movement,flight,origin_date,leg,aircraft,other_station,other_time,other_days,warning"
DIFF_NAMES = "flight,first,last,days,change,side," + LEG_NAMES


class Leg(collections.namedtuple("Leg", "columns tails")):
    """A leg on a date. Its columns are the 194 first ones of a record, blank where they say nothing of the leg itself or no leg has them;
    its tails are those of its segment records."""

    def at(self, first, last):
        return self.columns[first - 1 : last]

    def fields(self, fields):
        return [self.at(*field) for field in fields]

    @property
    def sequence(self):
        return self.at(12, 13)

    @property
    def line(self):
        """The line of `show`."""
        fields = [(12, 13), (37, 39), (40, 43), (44, 47), (48, 52), (55, 57), (58, 61), (62, 65), (66, 70), (193, 194), (14, 14), (73, 75)]
        return " ".join(text.replace(" ", ".") for text in self.fields(fields))


class Timetable:
    """The airline, the time mode, the season, and for each flight, by number and suffix, its itinerary on each date: a tuple of legs."""

    def __init__(self, data):
        records = [line.decode("latin-1") for line in data.split(b"\n") if line and line != FILL]
        carrier = next(line for line in records if line[0] == "2")
        self.mode, self.airline, self.season = carrier[1], carrier[2:5].strip(), carrier[10:13]
        legs, found = [], collections.defaultdict(lambda: collections.defaultdict(list))
        for record in records:
            if record[0] == "3":
                legs.append((" " * 11 + record[11:14] + " " * 22 + record[36:127] + " " + record[128:194], []))
                for day in dates_of(day_of(record[14:21]), day_of(record[21:28]), record[28:35]):
                    found[int(record[5:9]), record[1]][day].append(len(legs) - 1)
            elif record[0] == "4":
                legs[-1][1].append(record[14:27] + record[28:194])
        legs, known = [Leg(columns, tuple(tails)) for columns, tails in legs], {}
        self.flights = {flight: {day: known.setdefault(tuple(places), tuple(legs[place] for place in places))
                                 for day, places in found[flight].items()} for flight in sorted(found)}

    def designator(self, flight):
        number, suffix = flight
        return f"{self.airline}{number:03}{suffix.strip()}"


# ---- periods

def cover(days):
    """The periods of a set of dates, as (first, last, weekdays): each from the first date that is left, as far as the
    weekdays of its first seven days say which dates there are."""
    left, found = sorted(days), []
    while left:
        first, all_left = left[0], set(left)
        weekdays = {day.weekday() for day in left if (day - first).days < 7}
        end = first
        while (end in all_left) == (end.weekday() in weekdays) and end <= left[-1]:
            end += DAY
        here = [day for day in left if day < end]
        found.append((first, here[-1], weekdays))
        left = left[len(here):]
    return found


def divided(values):
    """The dates divided by their values: (first, last, weekdays) and a date of each, by first date. `values` has a value for
    each date that has one."""
    dates = collections.defaultdict(list)
    for day in sorted(values):
        dates[values[day]].append(day)
    periods = [(period, days[0]) for days in dates.values() for period in cover(days)]
    return sorted(periods, key=lambda found: found[0][0])


def period_line(designator, period):
    first, last, weekdays = period
    days = "".join(digit if place in weekdays else "." for place, digit in enumerate(WEEKDAYS))
    return f"{designator} {date(first)} {date(last)} {days}"


# ---- list

def is_marked(leg, others):
    return any(other != leg and other.line == leg.line for other in others)


def chosen(table, flights):
    """All flights, or those given, each as it is printed and with its dates."""
    for flight in sorted(set(flights)) if flights is not None else table.flights:
        yield table.designator(flight), table.flights.get(flight, {})


def listed(table, flights=None):
    """The lines of `list`, of all flights or of those given."""
    lines = []
    for name, days in chosen(table, flights):
        lines += [] if days else [f"{name} no flight"]
        all_legs = {leg for legs in days.values() for leg in legs}
        for period, day in divided(days):
            lines += [period_line(name, period), *(f"  {leg.line}" + " *" * is_marked(leg, all_legs) for leg in days[day])]
    return lines


def listed_dates(table, flights=None):
    """The lines of `list --dates`."""
    lines = []
    for name, days in chosen(table, flights):
        lines += [f"{name} {date(day)} {leg.line}" for day in sorted(days) for leg in days[day]] or [f"{name} no flight"]
    return lines


def rows(table, flights=None, dates=False):
    """The lines of `list --csv`, with or without `--dates`."""
    lines = [HEADER]
    for name, days in chosen(table, flights):
        periods = [((day, day, {day.weekday()}), day) for day in sorted(days)] if dates else divided(days)
        lines += [row(name, period, leg) for period, day in periods for leg in days[day]]
    return lines


def row(designator, period, leg):
    return cells(period_fields(designator, period) + leg_fields(leg))


def period_fields(designator, period):
    first, last, weekdays = period
    days = "".join(digit for place, digit in enumerate(WEEKDAYS) if place in weekdays)
    return [designator, first.isoformat(), last.isoformat(), days]


def leg_fields(leg):
    return [leg.sequence, leg.at(37, 39), clock(leg.at(40, 43)), clock(leg.at(44, 47)), leg.at(48, 52),
            leg.at(55, 57), clock(leg.at(58, 61)), clock(leg.at(62, 65)), leg.at(66, 70), leg.at(193, 193), leg.at(194, 194),
            leg.at(14, 14), leg.at(73, 75), leg.at(76, 95), leg.at(173, 192), leg.at(53, 54), leg.at(71, 72)]


def cells(fields):
    """A row of CSV of these fields."""
    return ",".join(quoted(field.strip(" ")) for field in fields)


def clock(time):
    return f"{time[:2]}:{time[2:]}" if time.strip() else ""


def quoted(field):
    return '"' + field.replace('"', '""') + '"' if any(byte in field for byte in ',"\r\n') else field


# ---- board

def movement(table, leg, day, arrives):
    """The station, local date and local time at which a leg departs or arrives, and whether this is in doubt."""
    station, time, variation, shift = (55, 58, 66, 194) if arrives else (37, 44, 48, 193)
    later, zone = leg.at(shift, shift), leg.at(variation, variation + 4)
    doubt = not (later.isdigit() or later == " ") or not zone.strip() and table.mode == "U"
    local = leg.at(time, time + 3)
    days = int(later) if later.isdigit() else 0
    moved = (int(zone[1:3]) * 60 + int(zone[3:])) * (-1 if zone[0] == "-" else 1) if zone.strip() and table.mode == "U" else 0
    if moved:
        more, minute = divmod(int(local[:2]) * 60 + int(local[2:]) + moved, 1440)
        days, local = days + more, f"{minute // 60:02}{minute % 60:02}"
    return leg.at(station, station + 2), day + days * DAY, local, doubt


def board(table, station, day):
    """The lines of `board`."""
    return [line for line, _ in movements(table, station, day)] or ["no flight"]


def movements(table, station, day):
    """The lines of `board` and their rows of CSV, in order."""
    found = []
    for flight, days in table.flights.items():
        for origin, legs in days.items():
            if not -1 <= (day - origin).days <= 10:
                continue
            for leg in legs:
                ends = [movement(table, leg, origin, arrives) for arrives in (False, True)]
                found += [board_entry(table, flight, origin, leg, ends, arrives, day)
                          for arrives in (False, True) if ends[arrives][:2] == (station, day)]
    return [shown for _, *shown in sorted(found)]


def board_entry(table, flight, origin, leg, ends, arrives, day):
    here, there = ends[arrives], ends[not arrives]
    apart = (there[1] - day).days
    line = (f"{here[2]} {'arr' if arrives else 'dep'} {table.designator(flight):8} {date(origin)} {leg.sequence} "
            f"{leg.at(73, 75).replace(' ', '.')} {there[0]} {there[2]}")
    doubt = "?" * (here[3] or there[3])
    line += (f" {apart:+}" if apart else "") + f" {doubt}" * bool(doubt)
    fields = [here[0], day.isoformat(), clock(here[2]), "arr" if arrives else "dep", table.designator(flight), origin.isoformat(),
              leg.sequence, leg.at(73, 75), there[0], clock(there[2]), str(apart), doubt]
    return (here[2], arrives, flight, origin, leg.sequence), line, cells(fields)


# ---- calendar

LETTERS = "ABCDEFGHIJKLMNOPQRSTUVWXYZabcdefghijklmnopqrstuvwxyz"
EARLIEST = datetime.date(2000, 1, 1)
WEEKS = 53


def calendar(table, flight):
    """The lines of `calendar`."""
    days = table.flights.get(flight, {})
    if not days:
        return [f"{table.designator(flight)} no flight"]
    itineraries = list(dict.fromkeys(days[day] for day in sorted(days)))
    letters = {key: LETTERS[place] if place < len(LETTERS) else "#" for place, key in enumerate(itineraries)}
    cells = {day: letters[legs] for day, legs in days.items()}
    first, last = min(days), max(days)
    monday, lines = first - first.weekday() * DAY, []
    while monday <= last:
        weeks = min(WEEKS, (last - monday).days // 7 + 1)
        lines += block_lines(table.designator(flight), cells, monday, weeks, first, last)
        monday += 7 * weeks * DAY
    return lines + legend_lines(days, cells)


def block_lines(designator, cells, monday, weeks, first, last):
    """The picture of some weeks from a Monday on."""
    mondays = [monday + 7 * week * DAY for week in range(weeks)]
    shown = [max(day, EARLIEST) for day in mondays]
    named = [week for week in range(weeks) if week == 0 or shown[week].month != shown[week - 1].month]
    months = [" "] * (weeks + 3)
    for week, later in zip(named, named[1:] + [weeks + 4]):
        if later - week >= 4:
            months[week : week + 3] = date(shown[week])[2:5]
    lines = [f"{designator} {date(max(first, monday))} {date(min(last, mondays[-1] + 6 * DAY))}", "  " + "".join(months)]
    lines += ["  " + "".join(f"{day.day:02}"[place] for day in shown) for place in (0, 1)]
    for weekday, digit in enumerate(WEEKDAYS):
        dates = [day + weekday * DAY for day in mondays]
        lines.append(f"{digit} " + "".join(cells.get(day, "." if first <= day <= last else " ") for day in dates))
    return [line.rstrip(" ") for line in lines] + [""]


def legend_lines(days, cells):
    """Each letter with the number of its dates and its legs."""
    counts = collections.Counter(cells.values())
    width = len(str(max(count for letter, count in counts.items() if letter != "#")))
    legs_of = {cells[day]: days[day] for day in reversed(sorted(days))}
    all_legs = {leg for legs in days.values() for leg in legs}
    lines = []
    for letter in filter(counts.get, LETTERS):
        head = f"{letter} {counts[letter]:{width}}"
        for leg in legs_of[letter]:
            lines.append(f"{head} {leg.line}" + " *" * is_marked(leg, all_legs))
            head = " " * len(head)
    return lines + [f"# {counts['#']} more"] * bool(counts["#"])


# ---- page

def page_lines(table):
    """The lines of `page` that are not how it looks: its title, and its timetable."""
    mode = "UTC" if table.mode == "U" else "local times"
    all_days = {day for days in table.flights.values() for day in days}
    ends = f" {date(min(all_days))} {date(max(all_days))}" if all_days else ""
    lines = [f"<header><h1>{table.airline} {escaped(table.season)}, {mode}</h1>", f'<section id="timetable"><h2>Timetable{ends}</h2>']
    for flight, days in table.flights.items():
        name = table.designator(flight)
        lines += [f'<article id="{name}"><h3>{name}</h3><pre>', *flight_lines(days), "</pre></article>"]
    return lines + ["</section>"]


def section_lines(name, articles):
    """The section of these articles, in lines; nothing if there is none."""
    head = f'<section id="{name.lower()}"><h2>{name}</h2>'
    return [head, *(line for article in articles for line in article), "</section>"] if articles else []


def link(name):
    return f'<a href="#{name}">{name}</a>'


def changes(old, new):
    """An article for each period of `diff`, with its lines."""
    articles = []
    for line in differing(old, new)[:-1]:
        if line[:2] in ("- ", "+ ", "  "):
            articles[-1].insert(-1, escaped(line))
        else:
            name, _, period = line.partition(" ")
            articles.append([f"<article><h3>{link(name)} {period}</h3><pre>", "</pre></article>"])
    return articles


def messages(texts, findings, season):
    """An article for each message: a line for each sub-message with the dates that it resolves to, and its text. `texts` and `findings`
    are what these commands print."""
    found = [FINDING.fullmatch(line).groups() for line in findings]
    articles = []
    for text in texts:
        begins_at = 3 + text.startswith(".")
        head, *subs = text.split("\n//\n")
        subs = ["\n".join(head.split("\n")[begins_at:]), *(sub for sub in subs if not sub.startswith("SI"))]
        rows = []
        for sub in subs:
            reference, action, name, results = found.pop(0)
            rows.append(f"<li>{action} {link(name)} {resolved(season, sub.split(chr(10)))} {results}")
        title = f'<article id="{reference.replace(" ", "-")}"><h3>{reference}</h3><ol>'
        articles.append([title, *rows, "</ol><pre>", *map(escaped, text.split("\n")), "</pre></article>"])
    return articles


def resolved(season, lines):
    """The period of a sub-message with its years, as `list` prints it. An ASM has its date twice, and all days of operation."""
    words = lines[1].split("/")[1:] * 2 + [WEEKDAYS] if "/" in lines[1] else lines[2].split()
    first = on_or_after(words[0], season.first)
    last = season.last if words[1] == OPEN_END else on_or_after(words[1], first)
    return f"{date(first)} {date(last)} " + "".join(digit if digit in words[2] else "." for digit in WEEKDAYS)


def on_or_after(text, day):
    """The date of a text; the first one on or after a day, if the text has no year."""
    if len(text) == 7:
        return day_of(text)
    while date(day)[:5] != text:
        day += DAY
    return day


def flight_lines(days):
    """The legs of each different itinerary, and the periods, each with the key of its itinerary."""
    periods = divided(days)
    itineraries = list(dict.fromkeys(days[day] for _, day in periods))
    keys = {legs: LETTERS[place] if place < len(LETTERS) else str(place + 1) for place, legs in enumerate(itineraries)}
    all_legs = {leg for legs in itineraries for leg in legs}
    rows = {leg: page_row(leg) for leg in all_legs}
    lines = []
    for legs in itineraries:
        for leg in legs:
            is_like_one = any(other != leg and rows[other] == rows[leg] for other in all_legs)
            lines.append(f"{keys[legs]} {rows[leg]}" + " *" * is_like_one)
    return lines + [period_line(keys[days[day]], period) for period, day in periods]


def page_row(leg):
    """The line of `show`, and four fields as words."""
    words = (leg.at(*field).rstrip(" ").replace(" ", ".") or "." for field in ((53, 54), (71, 72), (76, 95), (173, 192)))
    return escaped(" ".join([leg.line, *words]))


def escaped(text):
    return "".join({"&": "&amp;", "<": "&lt;", ">": "&gt;"}.get(byte, byte if byte < "\x7f" else "&#65533;") for byte in text)


# ---- diff

def changed_dates(old, new):
    """The flights of two timetables, each with the dates on which it differs and its two itineraries on them."""
    for flight in sorted(set(old.flights) | set(new.flights)):
        before, after = old.flights.get(flight, {}), new.flights.get(flight, {})
        values = {day: (before.get(day, ()), after.get(day, ())) for day in set(before) | set(after)}
        yield flight, before, after, {day: pair for day, pair in values.items() if pair[0] != pair[1]}


def differing(old, new):
    """The lines of `diff`."""
    lines, flights, dates = [], 0, 0
    for flight, before, after, values in changed_dates(old, new):
        flights, dates = flights + bool(values), dates + len(values)
        for period, day in divided(values):
            lines.append(period_line(old.designator(flight), period))
            lines += change_lines(before.get(day, ()), after.get(day, ()))
    return lines + [f"different flights {flights} dates {dates}" if dates else "same"]


def change_lines(old, new):
    before, after = ({leg.sequence: leg for leg in legs} for legs in (old, new))
    lines = [] if old else ["- no flight"]
    for sequence in sorted(set(before) | set(after)):
        first, second = before.get(sequence), after.get(sequence)
        if first and second and first == second:
            lines.append("  " + first.line)
            continue
        mark = " *" if first and second and first.line == second.line else ""
        lines += [f"- {first.line}{mark}"] if first else []
        lines += [f"+ {second.line}{mark}"] if second else []
    return lines + ([] if new else ["+ no flight"])


def differing_rows(old, new, kind_of):
    """The rows of `diff --csv`; `kind_of` gives the kind of a change."""
    lines = [DIFF_NAMES]
    for flight, _, _, values in changed_dates(old, new):
        for period, day in divided(values):
            head = period_fields(old.designator(flight), period) + [kind_of(*values[day])]
            lines += [cells([*head, side, *leg_fields(leg)]) for side, leg in sides(*values[day])]
    return lines


def sides(old, new):
    """The legs of two itineraries by sequence, each with the side that has it."""
    before, after = ({leg.sequence: leg for leg in legs} for legs in (old, new))
    for sequence in sorted(set(before) | set(after)):
        first, second = before.get(sequence), after.get(sequence)
        if first == second:
            yield "both", first
            continue
        yield from ((side, leg) for side, leg in (("old", first), ("new", second)) if leg)
