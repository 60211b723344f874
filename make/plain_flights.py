"""Data sets with flights of legs that messages can give, and with a few columns that none can; and what planners change in them."""
import datetime

from chapter7 import DAY, blocks_of_season, carrier, clock, date, days, header, leg, segment, trailer
from messages import Stations

# Single columns of a leg and of a segment record, in the spelling of messages and in others.
LEG_TEXTS = {14: "JZa 1-", 40: ["    ", "2400", "0100"], 44: ["2400", "0555"], 58: ["2400", "0001"], 62: ["    ", "2400", "0100"],
             48: ["     ", "-0000", "+0000", "+1500"], 66: ["     ", "-0000", "+0000", "+0200"], 53: ["1 ", " 1", "  "], 71: ["AB", "  "],
             73: ["ABC", "3 0", "32a", "   "], 76: ["A B", "AB1", "A" * 20, "a", ""], 96: [" X", "Y" * 32], 129: ["Z", "-" * 44],
             173: ["C1 2", "C1Y2", "9" * 20, "C.1"], 193: ["00", "07", "70", "08", "80", "A0", "0 ", "  "], 37: ["PDL"], 55: ["PDL"]}
TAIL_TEXTS = {14: "JX", 15: ["X", " " * 12 + "X"], 29: ["AB", "AC", "BC", "  ", "ab"], 31: ["010", "000", " 10", "1A0", "999"],
              34: ["ZRH", "LHR", "QQQ", "zrh"], 37: ["LHR", "ZRH", "QQQ", "   "],
              40: ["X", " X", "", "A" * 155, "VIA \xe9", "A" + " " * 153 + "B"]}
AIRCRAFT = [("320", "CY", "C12Y138"), ("321", "CY", "C12Y180"), ("77W", "FCY", ""), ("E90", "", "Y100"), ("AT7", "", "")]


class Plain:
    """Flights of legs that messages can give, with a few columns that none can."""

    def __init__(self, rng):
        self.rng = rng
        self.first = datetime.date(2024, 1, 1) + rng.randrange(900) * DAY
        self.total = rng.randrange(20, 300)
        self.created = self.first - rng.randrange(200) * DAY
        self.mode = rng.choice("UL")
        middle = self.first + rng.randrange(self.total) * DAY
        zones = {name: rng.choice(["+0200", "+0000", "-0500", "-0000", "+0530"]) for name in ("ZRH", "LHR", "JFK", "PDL", "FDH")}
        self.rows = [f"{name} {date(self.first - 9 * DAY)} {date(middle)} {zone}" for name, zone in zones.items()]
        self.rows += [f"{name} {date(middle + DAY)} {date(self.first + 999 * DAY)} {rng.choice([zone, '+0100'])}" for name, zone in zones.items()]
        self.stations = Stations(self.rows)
        rng.shuffle(self.rows)

    def itinerary(self):
        """The legs, each as its columns without variations."""
        rng = self.rng
        points = [rng.choice(["ZRH", "LHR", "JFK", "PDL", "FDH"]) for _ in range(rng.choice([2, 2, 2, 3, 4]))]
        aircraft, booking, configuration = rng.choice(AIRCRAFT)
        minute, legs = rng.randrange(0, 1200, 5), []
        for board, off in zip(points, points[1:]):
            end = minute + rng.randrange(30, 600, 5)
            columns = {37: board, 40: clock(minute), 44: clock(minute), 55: off, 58: clock(end), 62: clock(end), 14: "J", 73: aircraft,
                       76: booking, 173: configuration, 193: f"{minute // 1440 % 8}{end // 1440 % 8}"}
            legs.append(columns)
            minute = end + 45
        return legs

    def varied(self, legs):
        """The legs with a change that a planner makes, or with one that no message can say."""
        rng = self.rng
        legs = [dict(columns) for columns in legs]
        kind = rng.choice(["times", "times", "equipment", "both", "passenger", "terminal", "one equipment", "route", "variation"])
        for columns in legs if rng.random() < 0.6 else [rng.choice(legs)]:
            if kind in ("times", "both"):
                minute = rng.randrange(0, 1440, 5)
                columns.update({40: clock(minute), 44: clock(minute)})
            if kind == "passenger":
                columns[rng.choice([40, 62])] = rng.choice(["    ", "0100", columns[44]])
            if kind == "terminal":
                columns[rng.choice([53, 71, 96, 129])] = rng.choice(["1 ", "  ", "2E"])
            if kind == "variation":
                columns[193] = rng.choice(["00", "01", "A0", "  ", "17"])
        if kind in ("equipment", "both", "one equipment"):
            aircraft, booking, configuration = rng.choice(AIRCRAFT)
            for columns in legs if kind != "one equipment" else legs[:1]:
                columns.update({14: rng.choice("JJC"), 73: aircraft, 76: booking, 173: configuration})
        return self.itinerary() if kind == "route" else legs

    def tail(self, legs):
        """A segment record, as its columns: mostly that of a segment line."""
        first = self.rng.randrange(len(legs))
        last = self.rng.randrange(first, len(legs))
        columns = {14: "J", 29: chr(65 + first) + chr(66 + last), 31: "106", 34: legs[first][37], 37: legs[last][55],
                   40: self.rng.choice(["X", "LX 9"])}
        if self.rng.random() < 0.4:
            column = self.rng.choice(list(TAIL_TEXTS))
            columns[column] = self.rng.choice(TAIL_TEXTS[column])
        return first, columns

    def long_itinerary(self):
        """An itinerary with repeated pairs of stations, with segment records, or with many legs."""
        rng = self.rng
        legs = self.itinerary()
        kind = rng.random()
        if kind < 0.3:
            legs = [dict(columns) for columns in (legs * 9)[: rng.choice([2, 4, 20, 21, 25])]]
        elif kind < 0.5:
            legs = [{**legs[place % len(legs)], 37: ["ZRH", "LHR"][place % 2], 55: ["LHR", "ZRH"][place % 2]} for place in range(rng.choice([3, 4]))]
        for _ in range(rng.choice([0, 0, 1, 3, 99, 100]) if len(legs) < 5 else 0):
            first, columns = self.tail(legs)
            legs[first].setdefault("tails", []).append(columns)
        return legs

    def directed(self, legs):
        """The legs with single columns changed."""
        rng = self.rng
        legs = [{**columns, "tails": list(columns.get("tails", []))} for columns in legs]
        for _ in range(rng.choice([1, 1, 1, 2, 3])):
            columns, kind = rng.choice(legs), rng.random()
            if kind < 0.7:
                column = rng.choice(list(LEG_TEXTS))
                for each in legs if rng.random() < 0.3 else [columns]:
                    each[column] = rng.choice(LEG_TEXTS[column])
            elif kind < 0.9:
                first, tail = self.tail(legs)
                tails = rng.choice([columns, legs[first]])["tails"]
                if tails and rng.random() < 0.5:
                    del tails[rng.randrange(len(tails))]
                else:
                    tails.append(tail)
            else:
                step = rng.choice([1, 2])
                for place, each in enumerate(legs):
                    each["sequence"] = 1 + step * place + rng.choice([0, 0, 1]) * (step - 1)
        return rng.choice([legs, legs, legs[:-1] or legs, self.varied(legs)])

    def all_directed(self, pieces):
        """The flights with changes of single columns, or of legs."""
        found = {}
        for name, periods in pieces.items():
            found[name] = [(period, self.directed(legs) if self.rng.random() < 0.8 else legs) for period, legs in periods if self.rng.random() < 0.95]
        return found

    def pieces(self):
        """For each flight its periods with their legs."""
        names = {(self.rng.choice([7, 44, 544, 9999]), self.rng.choice("   AZ")) for _ in range(self.rng.randrange(1, 5))}
        found = {}
        for name in sorted(names):
            legs = self.itinerary()
            found[name] = []
            for period in blocks_of_season(self.rng, self.first, self.total, self.rng.randrange(1, 7)):
                legs = self.rng.choice([legs, self.varied(legs), self.itinerary()])
                found[name].append((period, legs))
        return found

    def long_pieces(self):
        """For each flight its periods with their legs, many of which no message gives."""
        found = {}
        for name in [(544, " "), (7, "A")]:
            found[name] = []
            for period in blocks_of_season(self.rng, self.first, self.total, self.rng.randrange(1, 7)):
                legs = self.long_itinerary()
                found[name].append((period, self.rng.choice([legs, self.directed(legs)])))
        return found

    def many(self):
        """Flights with a date each of legs of its own."""
        found = {}
        for number in range(self.rng.choice([3, 4, 6])):
            found[number, " "] = []
            for place in range(self.rng.choice([80, 99])):
                day = self.first + place * DAY
                legs = self.itinerary()
                found[number, " "].append(((day, day, 127), legs))
        return found

    def changed(self, pieces):
        """The flights of a planner a week later: periods with other legs, gone ones, and dates of their own."""
        rng, found = self.rng, {}
        share = rng.choice([0.1, 0.4, 0.8])
        for name, periods in pieces.items():
            found[name] = []
            for (first, last, mask), legs in periods:
                if rng.random() > share:
                    found[name].append(((first, last, mask), legs))
                    continue
                middle = first + rng.randrange((last - first).days + 1) * DAY
                for begin, end in ((first, middle), (middle + DAY, last)):
                    if begin <= end and rng.random() < 0.8:
                        found[name].append(((begin, end, rng.choice([mask, mask, mask & 0b1010101 or mask])), rng.choice([legs, self.varied(legs)])))
        if rng.random() < 0.3:
            found[8888, " "] = [((self.first, self.first + self.total * DAY, 127), self.itinerary())]
        return found

    def records(self, pieces):
        """The records; a leg has the UTC variations of its stations, so a period is divided where they change."""
        last = self.first + (self.total - 1) * DAY
        found = [header(), carrier("LX ", date(self.first), date(last), date(self.created), self.mode)]
        for (number, suffix), periods in sorted(pieces.items()):
            for (first, end, mask), legs in periods:
                begin = first
                while begin <= end:
                    zones = self.zones(legs, begin)
                    later = begin
                    while later < end and self.zones(legs, later + DAY) == zones:
                        later += DAY
                    for place, columns in enumerate(legs):
                        pairs = {48: zones[2 * place], 66: zones[2 * place + 1], **columns}
                        sequence, tails = f"{pairs.pop('sequence', place + 1):02}", pairs.pop("tails", [])
                        flight = suffix, "LX ", f"{number:04}"
                        found.append(leg(flight, "01", sequence, date(begin), date(later), days(mask), latin(pairs)))
                        found += [segment(flight, "01", sequence, latin(tail)) for tail in tails]
                    begin = later + DAY
        return found + [trailer("LX ", date(self.created), 0)]

    def zones(self, legs, day):
        return [self.stations.at(columns[column], day) or "     " for columns in legs for column in (37, 55)]


def latin(columns):
    return [(column, text.encode("latin-1")) for column, text in columns.items()]
