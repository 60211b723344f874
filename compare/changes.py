"""`diff` with a choice of flight dates, as lines, as numbers and as CSV, beside a plain list of flight dates.

A case of `changes` has two files FROM and TO, as in `days`. `diff` with a choice has to print what follows from the dates that differ and of
which the itinerary in FROM or that in TO is chosen, each taken or left by itself; and `diff --summary` how many of them are of each kind, which
add up, and turned round are the same but for `added` and `cancelled`; and `diff --csv` a row for each leg of each period, with the kind and the
side. With `--status` the status has to be 3 if there are such dates. In a case of `change words` some words are invalid.
"""
import copy

import parts
from flight_dates import Timetable, differing, differing_rows
from room import Answer, lines_of, said

EQUIPMENT = [(14, 14), (73, 95), (173, 192)]
BY_COLUMNS = {"rerouted": [(37, 39), (55, 57)], "retimed": [(40, 47), (58, 65), (193, 194)], "equipment": EQUIPMENT}
SUMMARIES = ["added", "cancelled", *BY_COLUMNS, "other"]
NO_COMMAND = Answer(2, b"", "error: the words name no command\n")


def taken_of_both(old, new, chosen):
    """The two timetables without the flight dates of which neither itinerary is chosen."""
    both = []
    for table in old, new:
        left = copy.copy(table)
        dates = {flight: {day: legs for day, legs in found.items()
                          if any(chosen.takes(flight, day, side.flights.get(flight, {}).get(day, ())) for side in (old, new))}
                 for flight, found in table.flights.items()}
        left.flights = {flight: found for flight, found in dates.items() if found}
        both.append(left)
    return both


def kind_of(before, after):
    """The kind of a change of a flight date."""
    if not before or not after:
        return "cancelled" if before else "added"
    columns = {kind: [[leg.fields(fields) for leg in legs] for legs in (before, after)] for kind, fields in BY_COLUMNS.items()}
    return next((kind for kind, (one, other) in columns.items() if one != other), "other")


def summary(old, new):
    """The lines of `diff --summary`."""
    found = {kind: [] for kind in SUMMARIES}
    for flight in {**old.flights, **new.flights}:
        before, after = (table.flights.get(flight, {}) for table in (old, new))
        for day in {**before, **after}:
            pair = before.get(day, ()), after.get(day, ())
            if pair[0] != pair[1]:
                found[kind_of(*pair)].append(flight)
    return [f"{kind} flights {len(set(flights))} dates {len(flights)}" for kind, flights in found.items() if flights] + differing(old, new)[-1:]


def of_summary(room, words, old, new):
    """What is compared of the numbers of each kind of change."""
    answer = room("diff", "--summary", *words)
    lines = summary(old, new)
    for line in lines[:-1]:
        room.counts[f"changes: {line.split()[0]}"] += 1
    yield f"diff --summary {words}", answer, said(lines)
    wanted = said(lines)._replace(status=0 if lines == ["same"] else 3)
    yield f"diff --summary --status {words}", room("diff", "--summary", *words, "--status"), wanted
    dates = [int(line.split()[-1]) for line in lines_of(answer) if line != "same"]
    yield f"dates of diff --summary {words}", sum(dates[:-1]), sum(dates[-1:])
    turned = {"added": "cancelled", "cancelled": "added"}
    back = [" ".join([turned.get(word, word) for word in line.split()]) for line in lines_of(answer)]
    there = [{"FROM": "TO", "TO": "FROM"}.get(word, word) for word in words]
    yield f"diff --summary turned round {words}", sorted(lines_of(room("diff", *there, "--summary"))), sorted(back)


def of_changes(rng, room):
    """What is compared of two timetables and of choices of what one of them has."""
    exports = [room.exported(name) for name in ("FROM", "TO")]
    if None in exports:
        room.counts["not exported"] += 1
        return
    old, new = map(Timetable, exports)
    if (old.airline, old.mode) != (new.airline, new.mode):
        fault = "41 Airline" if old.airline != new.airline else "40 TimeMode"
        yield "diff", room("diff", "--from", "1jan99", "FROM", "TO", "Z7A", "--to", "1jan00"), Answer(1, b"", f"refused {fault} sub 0\n")
        return
    whole = differing(old, new)
    yield "diff", room("diff", "FROM", "TO"), said(whole)
    yield "diff --csv", room("diff", "--csv", "FROM", "TO"), said(differing_rows(old, new, kind_of))
    for words in ["--csv", "--summary", "FROM", "TO"], ["FROM", "--summary", "TO", "--csv"]:
        yield f"diff {words}", room("diff", *words), NO_COMMAND
    yield "diff --csv twice", room("diff", "--csv", "--csv", "FROM", "TO").status, 2
    yield from of_summary(room, ["FROM", "TO"], old, new)
    for _ in range(4):
        chosen = parts.choice(rng, rng.choice([old, new]))
        before, after = chosen.words(rng, old)
        wanted = differing(*taken_of_both(old, new, chosen))
        room.counts["all changes" if wanted == whole else "no change" if wanted == ["same"] else "some changes"] += 1
        yield f"diff {before} {after}", room("diff", *before, "FROM", "TO", *after), said(wanted)
        found = said(wanted)._replace(status=0 if wanted == ["same"] else 3)
        yield f"diff --status {before} {after}", room("diff", *before, "FROM", "--status", "TO", *after), found
        in_rows = said(differing_rows(*taken_of_both(old, new, chosen), kind_of))
        yield f"diff --csv {before} {after}", room("diff", *before, "FROM", "TO", *after, "--csv"), in_rows
        yield f"diff --csv --status {before} {after}", room("diff", "--status", "--csv", *before, "FROM", "TO", *after), in_rows._replace(status=found.status)
        yield from of_summary(room, [*before, "FROM", "TO", *after], *taken_of_both(old, new, chosen))
