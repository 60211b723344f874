"""What `publish` has to say, by a plain model over lists of dates.

The timetables are those of flight_dates.py. `actions` are the sub-messages that make of the itinerary of a date another one, or None if
no messages can: what messages can make is no flight, a whole new flight, or the flight of before with other equipment and other times.
`planned` has the sub-messages of all flights and the dates that cannot be said, `texts_of` the texts, and `unsaid_lines` the printed lines.
Nothing here reads a message.
"""
import collections
import re

from chapter7 import date
from flight_dates import cover, period_line
from messages import written

BLANK_FIELDS = [(53, 54), (71, 72), (96, 127), (129, 172)]
EQUIPMENT_FIELDS = [(14, 14), (73, 75), (76, 95), (173, 192)]
TIME_FIELDS = [(40, 43), (44, 47), (58, 61), (62, 65), (193, 194)]
STATION_FIELDS = [(37, 39), (55, 57)]
VARIATION_FIELDS = [(48, 52), (66, 70)]
FIELDS = sorted(BLANK_FIELDS + EQUIPMENT_FIELDS + TIME_FIELDS + STATION_FIELDS + VARIATION_FIELDS)
MOST_SUBS, MOST_BYTES, MOST_LEGS, MOST_SEGMENTS = 250, 65_536, 20, 99


# ---- what the lines of a message can say

def equipment_line(leg):
    """The equipment line of a leg, or None if there is none."""
    service, aircraft, booking, configuration = leg.fields(EQUIPMENT_FIELDS)
    booking, configuration = booking.rstrip(" "), configuration.rstrip(" ")
    if not re.fullmatch("[A-Z]", service) or not re.fullmatch("[A-Z0-9]{3}", aircraft):
        return None
    if not re.fullmatch("[A-Z]*", booking) or not re.fullmatch("[A-Z0-9]*", configuration):
        return None
    third = booking + ("." + configuration if configuration else "")
    return f"{service} {aircraft} {third}".rstrip(" ")


def leg_line(leg):
    """The leg line of a leg, or None if there is none."""
    passenger, aircraft, arrival, off, later = leg.fields(TIME_FIELDS)
    if not re.fullmatch("[0-7][0-7]", later) or " " in passenger + off:
        return None
    ends = []
    for field, time, customer, days in ((37, 39), aircraft, passenger, later[0]), ((55, 57), arrival, off, later[1]):
        ends.append(leg.at(*field) + time + ("/" + days if days != "0" else "") + ("/" + customer if customer != time else ""))
    return " ".join(ends)


def segment_line(tail, legs, place):
    """The segment line of a tail of the leg at a place, or None if there is none."""
    letters, identifier, board, off, text = tail[13:15], tail[15:18], tail[18:21], tail[21:24], tail[24:].rstrip(" ")
    if tail[:13].strip(" ") or not re.fullmatch("[0-9]{3}", identifier) or not re.fullmatch("[A-Z]{6}", board + off) or board + off == "QQQQQQ":
        return None
    if not text or any(not " " <= byte <= "~" for byte in text):
        return None
    for first, leg in enumerate(legs):
        last = next((last for last in range(first, len(legs)) if legs[last].at(55, 57) == off), None)
        if leg.at(37, 39) == board and last is not None:
            fits = (first, letters) == (place, chr(65 + first) + chr(66 + last))
            return f"{board}{off} {int(identifier)}/{text}" if fits else None
    return None


def whole_lines(legs, day, stations):
    """The lines of a NEW or RPL that gives the legs on a day, or None if there are none."""
    segments = [segment_line(tail, legs, place) for place, leg in enumerate(legs) for tail in leg.tails]
    lines = [equipment_line(legs[0])] + [leg_line(leg) for leg in legs] + segments
    if not is_counted(legs) or len(legs) > MOST_LEGS or len(segments) > MOST_SEGMENTS:
        return None
    for leg in legs:
        if leg.fields(EQUIPMENT_FIELDS) != legs[0].fields(EQUIPMENT_FIELDS) or "".join(leg.fields(BLANK_FIELDS)).strip(" "):
            return None
        if leg.fields(VARIATION_FIELDS) != [stations.at(station, day) for station in leg.fields(STATION_FIELDS)]:
            return None
    return None if None in lines else lines


def is_counted(legs):
    """Whether the leg sequences are 1, 2, .."""
    return [int(leg.sequence) for leg in legs] == list(range(1, len(legs) + 1))


def routes(legs):
    return [(leg.sequence, *leg.fields(STATION_FIELDS)) for leg in legs]


def parts_actions(old, new):
    """The EQT and the TIMs that make the new legs of the old ones, or None if there are none."""
    rest = [field for field in FIELDS if field not in EQUIPMENT_FIELDS + TIME_FIELDS]
    if routes(old) != routes(new) or any((one.fields(rest), one.tails) != (two.fields(rest), two.tails) for one, two in zip(old, new)):
        return None
    found = []
    if any(one.fields(EQUIPMENT_FIELDS) != two.fields(EQUIPMENT_FIELDS) for one, two in zip(old, new)):
        if len({tuple(leg.fields(EQUIPMENT_FIELDS)) for leg in new}) > 1 or equipment_line(new[0]) is None:
            return None
        found.append(("EQT", (equipment_line(new[0]),)))
    lines = []
    for place, (one, two) in enumerate(zip(old, new)):
        if one.fields(TIME_FIELDS) != two.fields(TIME_FIELDS):
            is_first = routes(new)[place][1:] not in [route[1:] for route in routes(new)[:place]]
            if not is_first or leg_line(two) is None:
                return None
            lines.append(leg_line(two))
    return found + [("TIM", tuple(lines[place : place + MOST_LEGS])) for place in range(0, len(lines), MOST_LEGS)]


def actions(old, new, day, stations):
    """The actions, each with its lines, that make the new itinerary of the old one, in order; None if no messages can."""
    if old == new:
        return []
    if not new:
        return [("CNL", ())]
    whole = whole_lines(new, day, stations)
    if not old:
        return None if whole is None else [("NEW", tuple(whole))]
    parts = parts_actions(old, new)
    if parts is not None and len({action for action, _ in parts}) == 1:
        return parts
    return parts if whole is None else [("RPL", tuple(whole))]


# ---- why a date is unsaid

def name_of(field):
    first, last = field
    return str(first) if first == last else f"{first}-{last}"


def bad_equipment(legs):
    """For each leg the equipment fields that no equipment line gives, or not with those of the first leg."""
    allowed = dict(zip(EQUIPMENT_FIELDS, ["[A-Z]", "[A-Z0-9]{3}", "[A-Z]* *", "[A-Z0-9]* *"]))
    return [[field for field in EQUIPMENT_FIELDS if not re.fullmatch(allowed[field], leg.at(*field)) or leg.at(*field) != legs[0].at(*field)]
            for leg in legs]


def bad_times(leg):
    """The time fields of a leg that no leg line gives."""
    return [field for field in TIME_FIELDS if not re.fullmatch("[0-7]{2}|[0-9]{4}", leg.at(*field))]


def reason(old, new, day, stations):
    """The words of an unsaid date. EQT and TIM are enough for legs of the same route, whatever their leg sequences are."""
    if old and routes(old) == routes(new):
        return " ".join(part_words(old, new))
    if not is_counted(new) or len(new) > MOST_LEGS:
        return "sequence"
    return " ".join(whole_words(new, day, stations))


def leg_words(leg, fields, words):
    found = [name_of(field) for field in sorted(fields)] + words
    return [leg.sequence, *found] if found else []


def part_words(old, new):
    """For each leg what differs and neither EQT nor TIM gives."""
    equipped = any(one.fields(EQUIPMENT_FIELDS) != two.fields(EQUIPMENT_FIELDS) for one, two in zip(old, new))
    pairs, found = [route[1:] for route in routes(new)], []
    for place, (one, two, equipment) in enumerate(zip(old, new, bad_equipment(new))):
        retimed = one.fields(TIME_FIELDS) != two.fields(TIME_FIELDS)
        fields = [field for field in VARIATION_FIELDS + BLANK_FIELDS if one.at(*field) != two.at(*field)]
        fields += (equipment if equipped else []) + (bad_times(two) if retimed else [])
        words = ["segments"] if one.tails != two.tails else []
        words += ["second"] if retimed and pairs[place] in pairs[:place] else []
        found += leg_words(two, fields, words)
    return found


def whole_words(new, day, stations):
    """For each leg what NEW and RPL do not give."""
    found, segments = [], 0
    for place, (leg, equipment) in enumerate(zip(new, bad_equipment(new))):
        fields = [field for field in BLANK_FIELDS if leg.at(*field).strip(" ")] + equipment + bad_times(leg)
        fields += [field for field, station in zip(VARIATION_FIELDS, leg.fields(STATION_FIELDS)) if leg.at(*field) != stations.at(station, day)]
        segments += len(leg.tails)
        bad = leg.tails and segments > MOST_SEGMENTS or any(segment_line(tail, new, place) is None for tail in leg.tails)
        found += leg_words(leg, fields, ["segments"] if bad else [])
    return found


def unsaid_lines(table, unsaid, stations):
    """The lines of the unsaid dates: for each flight its periods, divided by the words."""
    lines = []
    for flight, days in unsaid.items():
        dates = collections.defaultdict(list)
        for day in sorted(days):
            dates[reason(*days[day], day, stations)].append(day)
        periods = sorted(((period, words) for words, found in dates.items() for period in cover(found)), key=lambda each: each[0][0])
        lines += [f"unsaid {period_line(table.designator(flight), period)} {words}" for period, words in periods]
    return lines


# ---- all flights

def planned(old, new, stations):
    """The sub-messages as (flight, period, action, lines), and the unsaid dates as {flight: {date: (old, new)}}."""
    subs, unsaid = [], {}
    for flight in sorted(set(old.flights) | set(new.flights)):
        before, after = old.flights.get(flight, {}), new.flights.get(flight, {})
        said, left, known = {}, {}, {}
        for day in set(before) | set(after):
            pair = before.get(day, ()), after.get(day, ())
            if pair[0] == pair[1]:
                continue
            zones = tuple(stations.at(station, day) for leg in pair[1] for station in leg.fields(STATION_FIELDS))
            key = id(pair[0]), id(pair[1]), zones
            if key not in known:
                known[key] = actions(*pair, day, stations)
            if known[key] is None:
                left[day] = pair
            else:
                said[day] = tuple(known[key])
        if left:
            unsaid[flight] = left
        dates = collections.defaultdict(list)
        for day in sorted(said):
            dates[said[day]].append(day)
        periods = sorted(((period, found) for found, days in dates.items() for period in cover(days)), key=lambda each: each[0][0])
        subs += [(flight, period, action, lines) for period, found in periods for action, lines in found]
    return subs, unsaid


def sub_lines(airline, sub):
    (number, suffix), (first, last, weekdays), action, lines = sub
    days = "".join(str(place + 1) for place in sorted(weekdays))
    return [action, f"{airline}{number:03}{suffix.strip()}", f"{date(first)} {date(last)} {days}", *lines]


class Reference:
    """REFERENCE, as `02JUN00001E001` or `.ZRHRMLX/02JUN00001E001/REF`."""

    def __init__(self, word):
        parts = word.split("/", 1) if word.startswith(".") else ["", word]
        self.originator, line = parts
        self.day, self.group, self.end = line[:5], int(line[5:10]), line[10:]

    def lines(self, mode, group):
        first = [self.originator] if self.originator else []
        return [*first, "SSM", {"U": "UTC", "L": "LT"}[mode], f"{self.day}{group:05}{self.end}"]

    def shown(self, group, year):
        """As it is printed."""
        return f"SSM {self.day}{year:02} {group:05} {self.end[1:4]}" + (f" {self.originator[1:]}" if self.originator else "")


def texts_of(table, subs, reference):
    """The texts with the sub-messages, each as (bytes, how many); None if the group serial would pass 99999."""
    texts, lines, count, group = [], [], 0, reference.group
    size = 0
    for sub in subs:
        new = sub_lines(table.airline, sub)
        more = sum(len(line) + 1 for line in new) + 3
        if count == 0 or count == MOST_SUBS or size + more > MOST_BYTES:
            if count:
                texts.append((lines, count))
                group += 1
            lines = reference.lines(table.mode, group) + new
            size, count = sum(len(line) + 1 for line in lines), 1
        else:
            lines += ["//", *new]
            size, count = size + more, count + 1
    texts += [(lines, count)] if count else []
    if reference.group + len(texts) - 1 > 99_999:
        return None
    return [(written(lines), count) for lines, count in texts]
