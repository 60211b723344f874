#!/usr/bin/env python3
"""Writes the season, the planner's season and the station table of samples/: sample_season.py FOLDER

FOLDER/season.ssim, FOLDER/planned.ssim and FOLDER/stations.txt are those of an invented airline with two offices, at
Friedrichshafen and at Hamburg. The three files in samples/ are what this script writes.
"""
import os
import sys

from chapter7 import OPEN_END, header, leg, record, segment, trailer, write

AIRLINE = "Z7 "
FIRST, LAST, CREATED = "28MAR27", "30OCT27", "01FEB27"
WINTER = ("31OCT27", "25MAR28")

# UTC variations of the stations, in summer and in winter.
ZONES = {
    "+0200 +0100": "AMS BER BUD CPH FDH GDN HAM OSL PMI STR TOS VIE",
    "+0100 +0000": "LHR LIS TFS",
    "+0300 +0200": "ATH LCA RIX TLL",
    "+0000 +0000": "KEF",
    "+0400 +0400": "DXB",
}
AIRCRAFT = {"AT7": ("Y", "Y70"), "E90": ("CYBM", "C8Y88"), "320": ("CYBMHQ", "C12Y150"), "32N": ("CYBMHQ", "C16Y148")}

# A line a flight: number, aircraft, then the legs as STATION HHMM STATION HHMM, `+1` after a time of the next day; a flight
# with a suffix has it at its number. After it, a line a period: first date, last date, days, and new times if there are any.
FLIGHTS = """
101 E90 FDH 0630 HAM 0755
  28MAR27 30JUN27 12345
  01JUL27 - 12345
102 E90 HAM 0835 FDH 1000
  - - 12345
103 AT7 FDH 1730 HAM 1920
  - - 12345 7
104 AT7 HAM 1955 FDH 2145
  - - 12345 7
111 AT7 FDH 0700 BER 0840
  - - 12345
112 AT7 BER 0910 FDH 1050
  - - 12345
113 AT7 FDH 1630 BER 1810
  - 02JUL27 1234567
  03JUL27 15AUG27 12345
  16AUG27 - 1234567
114 AT7 BER 1845 FDH 2025
  - 02JUL27 1234567
  03JUL27 15AUG27 12345
  16AUG27 - 1234567
121 E90 FDH 1040 LHR 1125
  - - 1234567
122 E90 LHR 1215 FDH 1450
  - - 1234567
131 E90 FDH 1520 CPH 1715
  - - 1 3 5
132 E90 CPH 1800 FDH 1955
  - - 1 3 5
141 AT7 FDH 0640 AMS 0835
  - - 123456
142 AT7 AMS 0910 FDH 1105
  - - 123456
151 E90 FDH 1115 VIE 1225 VIE 1300 BUD 1350
  - - 12345
152 E90 BUD 1430 VIE 1520 VIE 1600 FDH 1715
  - - 12345
201 320 FDH 0610 PMI 0800
  - 25JUN27 67
  26JUN27 12SEP27 1 3  67
  13SEP27 - 67
202 320 PMI 0850 FDH 1040
  - 25JUN27 67
  26JUN27 12SEP27 1 3  67
  13SEP27 - 67
211 32N FDH 1200 LIS 1400
  - - 2 4 6
212 32N LIS 1450 FDH 1835
  - - 2 4 6
221 32N FDH 1915 ATH 2250 ATH 2340 LCA 0120+1
  01MAY27 30SEP27 2 5
222 32N LCA 0210 ATH 0355 ATH 0450 FDH 0640
  02MAY27 01OCT27 3 6
231 320 FDH 0820 HAM 0945 HAM 1040 KEF 1200
  15MAY27 15SEP27 1 4 6
232 320 KEF 1300 HAM 1805 HAM 1900 FDH 2025
  15MAY27 15SEP27 1 4 6
241 32N FDH 0700 TFS 1055
  - - 7
242 32N TFS 1150 FDH 1755
  - - 7
301 E90 HAM 0810 LHR 0850
  - 18JUL27 123456
  19JUL27 - 123456 HAM 0825 LHR 0905
302 E90 LHR 0940 HAM 1220
  - 18JUL27 123456
  19JUL27 - 123456 LHR 1000 HAM 1240
311 E90 HAM 2015 OSL 2145 OSL 2220 TOS 0010+1
  01JUN27 31AUG27 5 7
312 E90 TOS 0530 OSL 0720 OSL 0800 HAM 0930
  02JUN27 01SEP27 1 6
321 AT7 HAM 1215 GDN 1345
  - - 12345
322 AT7 GDN 1420 HAM 1550
  - - 12345
331 AT7 HAM 1000 RIX 1325 RIX 1355 TLL 1450
  12APR27 15OCT27 3 6
332 AT7 TLL 1530 RIX 1625 RIX 1655 HAM 1820
  12APR27 15OCT27 3 6
341 320 HAM 0540 PMI 0825
  - - 1 3 567
342 320 PMI 0915 HAM 1205
  - - 1 3 567
401 32N FDH 2130 DXB 0540+1
  - - 2 5
402 32N DXB 0720 FDH 1200
  - - 3 6
501 AT7 FDH 1145 STR 1225 STR 1250 HAM 1415 HAM 1450 CPH 1545
  - - 6
502 AT7 CPH 1625 HAM 1720 HAM 1750 STR 1915 STR 1940 FDH 2020
  - - 6
101D E90 FDH 1030 HAM 1155
  18JUN27 18JUN27 5
"""

# The flights that the planner changes or adds.
PLANNED = """
113 AT7 FDH 1630 BER 1810
  - 02JUL27 1234567
  03JUL27 15AUG27 12345
  16AUG27 31AUG27 1234567
  01SEP27 - 1234567 FDH 1650 BER 1830
161 E90 FDH 1830 OSL 2030
  01JUN27 31AUG27 1 5
241 320 FDH 0700 TFS 1055
  - - 7
242 320 TFS 1150 FDH 1755
  - - 7
331 AT7 HAM 1000 RIX 1325 RIX 1355 TLL 1450
  12APR27 30SEP27 3 6
332 AT7 TLL 1530 RIX 1625 RIX 1655 HAM 1820
  12APR27 30SEP27 3 6
401 32N FDH 2130 DXB 0540+1
  - - 2 5
"""

# The terminals of these; every other leg has terminal 1 at both ends.
TERMINALS = {"161": {"FDH": "", "OSL": ""}, "401": {"DXB": "3"}}

# Segment records: flight, identifier, the letters of the board and off point, the stations, and the data.
SEGMENTS = [
    ("151", "010", "AC", "FDHBUD", "OS 7151"),
    ("151", "106", "AB", "FDHVIE", "OS 7153"),
    ("152", "010", "AC", "BUDFDH", "OS 7152"),
    ("231", "010", "BC", "HAMKEF", "FI 4231"),
    ("232", "010", "AB", "KEFHAM", "FI 4232"),
    ("501", "109", "AD", "FDHCPH", "S"),
]


def variations():
    """The UTC variations of each station, in summer and in winter."""
    return {name: both.split() for both, names in ZONES.items() for name in names.split()}


def clocks(words):
    """The legs of a line, each as (board, departure, off, arrival, days after the flight's date)."""
    found = []
    for place in range(0, len(words), 4):
        board, departure, off, arrival = words[place : place + 4]
        arrival, _, later = arrival.partition("+")
        found.append((board, departure, off, arrival, later or "0"))
    return found


def days_of(word):
    return "".join(digit if digit in word else " " for digit in "1234567")


def leg_columns(place, aircraft, terminals):
    board, departure, off, arrival, later = place
    zones = variations()
    booking, configuration = AIRCRAFT[aircraft]
    return [(37, board), (40, departure), (44, departure), (48, zones[board][0]), (53, terminals.get(board, "1")), (55, off),
            (58, arrival), (62, arrival), (66, zones[off][0]), (71, terminals.get(off, "1")), (73, aircraft), (76, booking), (173, configuration),
            (193, f"0{later}")]


def periods(lines):
    """The periods of a flight, as (first, last, days, new legs or none)."""
    for line in lines:
        words = line.split()
        count = 2
        while count < len(words) and words[count].isdigit():
            count += 1
        first, last = words[:2]
        first, last = FIRST if first == "-" else first, OPEN_END if last == "-" else last
        yield first, last, "".join(words[2:count]), clocks(words[count:])


def flight_records(head, lines, terminals):
    """The leg and segment records of a flight."""
    name, aircraft, *legs = head.split()
    number, suffix = name.rstrip("D"), "D" if name.endswith("D") else " "
    flight = (suffix, AIRLINE, f"{int(number):04}")
    for place, (first, last, operates, new) in enumerate(periods(lines), 1):
        for sequence, each in enumerate(new or clocks(legs), 1):
            columns = leg_columns(each, aircraft, terminals)
            yield leg(flight, f"{place:02}", f"{sequence:02}", first, last, days_of(operates), columns)
            for whose, identifier, letters, pair, data in SEGMENTS:
                if whose == name and letters[0] == "ABC"[sequence - 1]:
                    columns = [(29, letters), (31, identifier), (34, pair), (40, data)]
                    yield segment(flight, f"{place:02}", f"{sequence:02}", columns)


def flights_of(table):
    """The lines of each flight of a table, by its name."""
    found = {}
    for line in table.strip().split("\n"):
        if not line.startswith(" "):
            lines = found[line.split()[0]] = [line]
        else:
            lines.append(line)
    return found


def records(flights, terminals):
    yield header()
    yield record((1, "2"), (2, "L"), (3, AIRLINE), (11, "S27"), (15, FIRST), (22, LAST), (29, CREATED),
                 (36, "SUMMER 2027"), (65, CREATED), (191, "0900"))
    for name, (head, *lines) in flights.items():
        yield from flight_records(head, lines, terminals.get(name, {}))
    yield trailer(AIRLINE, CREATED, 0)


def stations():
    lines = []
    for name, (summer, winter) in sorted(variations().items()):
        if summer == winter:
            lines.append(f"{name} {FIRST} {WINTER[1]} {summer}")
        else:
            lines += [f"{name} {FIRST} {LAST} {summer}", f"{name} {WINTER[0]} {WINTER[1]} {winter}"]
    return "\n".join(lines) + "\n"


def main():
    if len(sys.argv) != 2:
        sys.exit(__doc__)
    os.makedirs(sys.argv[1], exist_ok=True)
    flights = flights_of(FLIGHTS)
    write(os.path.join(sys.argv[1], "season.ssim"), records(flights, {}))
    write(os.path.join(sys.argv[1], "planned.ssim"), records({**flights, **flights_of(PLANNED)}, TERMINALS))
    with open(os.path.join(sys.argv[1], "stations.txt"), "w", encoding="ascii") as file:
        file.write(stations())


if __name__ == "__main__":
    main()
