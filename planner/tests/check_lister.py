#!/usr/bin/env python3
"""Compares `lister.py` with the program, on small random timetables that are the same at each run.

Usage: check_lister.py [PROGRAM]

Of each timetable the program says which pairing is best, how many there are, and which its fronts show. The
lister has to list as many, and one of the program's best's base, walk, pay and minutes away, which costs
what the program says it does and no more than any other; and the same pairings of fronts, in the same
order, all of them and the first three; and of these the ones of which so many at most fly a flight, for
several limits. Ends with status 0 where all timetables agree.
"""

import os
import random
import re
import subprocess
import sys
from collections.abc import Iterator
from dataclasses import dataclass
from datetime import datetime, timedelta

import lister

HERE = os.path.dirname(os.path.abspath(__file__))
PATIENCE = 60.0
SEED = 114
# How many timetables, and of how many flights each: few, and so many that pairings share them.
TIMETABLES = ((40, (4, 9)), (20, (16, 28)))

ZONES = {
    "YYT": "NST3:30NDT,M3.2.0,M11.1.0",
    "JFK": "EST5EDT,M3.2.0,M11.1.0",
    "DEN": "MST7MDT,M3.2.0,M11.1.0",
    "PHX": "MST7",
    "LAX": "PST8PDT,M3.2.0,M11.1.0",
}
# A day in summer, the eves of both changes of the clock, and the eve of a year.
DAYS = (datetime(2025, 7, 1), datetime(2025, 3, 8), datetime(2025, 11, 1), datetime(2025, 12, 31))
SETTINGS = (
    {},
    {"max_duties": 2},
    {"connect": 45, "sit": 120, "lead": 45},
    {"duty_rig": 14, "duty_min": 0, "guarantee": 0},
    {"trip_rig": 2, "guarantee": 0},
    {"trip_rig": 14, "max_rest": 900, "debrief": 15},
    {"fdp_cap": 660},
    {"fly_cap": 480, "away_cap": 1800},
    {"deadheads": 1},
    {"deadheads": 1, "max_duties": 3, "guarantee": 0, "duty_rig": 0},
    {"away_cap": 14400, "max_rest": 8280, "max_duties": 12, "fdp_cap": 1200},
    {"away_cap": 14400, "max_duties": 12, "fdp_total": 2400},
)
# Twenty under which pairings may take more than 138 hours, and of timetables that are small: how many of each.
LONG = tuple({"away_cap": away, "max_rest": rest, **others} for away in (8281, 14400) for rest in (3000, 8280)
             for others in ({"max_duties": 12}, {"max_duties": 7, "fdp_cap": 1200},
                            {"max_duties": 12, "fdp_cap": 900, "fly_cap": 600},
                            {"max_duties": 12, "fdp_total": 2000},
                            {"max_duties": 6, "deadheads": 1, "guarantee": 0}))
LONG_TIMETABLES, LONG_FLIGHTS = 8, (5, 7)
SHORT = lister.DEFAULTS["away_cap"]
LENGTHS = (45, 45, 60, 75, 75, 130, 160, 240, 240, 241, 300)  # of a flight: pairs of some reach Table A
# Of `pairings,LIMIT` and of `pairings,LIMIT,SHARE`.
LIMITS = (10000, 3)
SHARES = ((10000, 1), (10000, 2), (10000, 3), (1, 1), (2, 1), (4, 2), (7, 3), (5, 10000))
PERIODS = (540, 600, 660, 690, 720, 750, 780, 840)  # from report to an arrival: the limits of Table B

BEST = re.compile(r"best ([A-Z]{3}) cost (-?\d+) pay (\d+) away (\d+) ([\dd -]+)")
AUDIT = re.compile(r"audit partials \d+ pairings (\d+) cost (?:-?\d+|none)")


@dataclass
class Crew:
    """Where a crew is as it flies from one flight to the next, to make flights that connect."""

    place: str
    report: datetime
    arrival: datetime | None = None


def minutes(count: int) -> timedelta:
    return timedelta(minutes=count)


def departure(draw: random.Random, crew: Crew, limits: dict[str, int]) -> datetime:
    """After a time on the ground or a rest, often the least or the most that is legal, or a minute past it."""
    if crew.arrival is None:
        return crew.report + minutes(limits["lead"])
    is_long = limits["away_cap"] > SHORT
    if draw.random() < (0.2 if is_long else 0.6):
        least, most = limits["connect"], limits["sit"]
        return crew.arrival + minutes(draw.choice((least - 1, least, least + 5, least + 20, most, most + 1)))
    least, most = lister.LEAST_REST, limits["max_rest"]
    long = (lister.LONG_REST - 1, lister.LONG_REST, most - 1200, most, most) if is_long else ()
    rest = draw.choice((least - 1, least, least + 45, least + 130, *long, most, most + 1))
    crew.report = crew.arrival + minutes(limits["debrief"] + rest)
    return crew.report + minutes(limits["lead"])


def arrival(draw: random.Random, crew: Crew, leaves: datetime) -> datetime:
    """After a flight of some length, or at the end of a limit of Table B or a minute past it."""
    ends = crew.report + minutes(draw.choice(PERIODS) + draw.choice((0, 1)))
    if draw.random() < 0.4 and minutes(30) <= ends - leaves <= minutes(540):
        return ends
    return leaves + minutes(draw.choice(LENGTHS))


def timetable(draw: random.Random, settings: dict[str, int], flights: tuple[int, int]) -> str:
    """The records of so many flights, of one crew or more, among two or three airports."""
    limits = lister.DEFAULTS | settings
    is_long = limits["away_cap"] > SHORT
    airports = draw.sample(sorted(ZONES), 2 if is_long else draw.choice((2, 3)))
    bases = draw.sample(airports, draw.choice((1, 2)))
    numbers = draw.sample(range(1, 1000), draw.randint(*flights))
    day = draw.choice(DAYS)
    lines = [f'zone,{airport},"{ZONES[airport]}"' for airport in airports]
    lines += [f"base,{base},{draw.randrange(-1000, 1001, 500)}" for base in bases]
    crew = None
    for number in numbers:
        if crew is None or draw.random() < (0.05 if is_long else 0.2):
            # A report on the hour or the half, where rows of the tables begin, or a minute before.
            crew = Crew(draw.choice(bases), day + minutes(30 * draw.randrange(48) - draw.choice((0, 1))))
        leaves = departure(draw, crew, limits)
        crew.arrival = arrival(draw, crew, leaves)
        target = draw.choice([airport for airport in airports if airport != crew.place])
        times = f"{leaves:%Y-%m-%dT%H:%M},{crew.arrival:%Y-%m-%dT%H:%M}"
        lines.append(f"flight,{number},{crew.place},{target},{times},{draw.randrange(-1500, 6001, 500)}")
        crew.place = target
    return "\n".join(lines) + "\n"


def answers(program: str, text: str, settings: dict[str, int]) -> list[str]:
    """The lines that the program writes for the version, its best, its audit and its pairings."""
    words = [word for name, value in settings.items() for word in ("--" + name.replace("_", "-"), str(value))]
    asked = ["settle", "best", "audit,100000", *(f"pairings,{limit}" for limit in LIMITS),
             *(f"pairings,{limit},{share}" for limit, share in SHARES)]
    ended = subprocess.run([program, "run", *words], input=text + "".join(record + "\n" for record in asked),
                           capture_output=True, text=True, timeout=PATIENCE)
    lines = ended.stdout.splitlines()
    if ended.returncode != 0 or ended.stderr or len(lines) < 5:
        raise RuntimeError(f"status {ended.returncode}, faults {ended.stderr!r}, lines {lines}")
    return lines


def pairings_lines(pairings: list[lister.Pairing], timetable: lister.Timetable) -> list[str]:
    """The lines of an answer that has all of them."""
    return [f"pairings {len(pairings)}"] + [
        f"pairing {pairing.base} cost {lister.cost(pairing, timetable)} pay {pairing.pay} away {pairing.away} "
        + words_of(pairing.walk) for pairing in pairings]


def words_of(walk: lister.Walk) -> str:
    return " ".join("-".join(f"{number}{'d' * ridden}" for number, ridden in duty) for duty in walk)


def sharing(pairings: list[lister.Pairing], share: int) -> list[lister.Pairing]:
    """Goes through the pairings in order, and takes each unless so many taken ones fly a flight that it flies."""
    taken: list[lister.Pairing] = []
    for pairing in pairings:
        if all(sum(flight in other.flown for other in taken) < share for flight in pairing.flown):
            taken.append(pairing)
    return taken


def difference(lines: list[str], text: str, settings: dict[str, int]) -> str | None:
    """Where the program's lines differ from the lister's pairings; None where they agree."""
    listed = lister.pairings(text, settings)
    least = lister.best(text, settings)
    read = lister.read(text, settings)
    shown = lister.shown(text, settings)
    wanted = [shown[:limit] for limit in LIMITS] + [sharing(shown, share)[:limit] for limit, share in SHARES]
    wanted_lines = [line for pairings in wanted for line in pairings_lines(pairings, read)]
    if lines[3:] != wanted_lines:
        return f"{lines[3:]!r}, and of fronts are listed {wanted_lines!r}"
    audit = AUDIT.fullmatch(lines[2])
    if audit is None or int(audit[1]) != len(listed):
        return f"{lines[2]!r}, and {len(listed)} are listed"
    if least is None:
        return None if lines[1] == "best none" else f"{lines[1]!r}, and none is listed"
    line = BEST.fullmatch(lines[1])
    if line is None:
        return f"{lines[1]!r}, and {least} is listed"
    best = next((pairing for pairing in listed if (pairing.base, words_of(pairing.walk)) == (line[1], line[5])), None)
    if best is None or (best.pay, best.away) != (int(line[3]), int(line[4])):
        return f"{lines[1]!r} is not listed; the best that is: {least}"
    if not lister.cost(best, read) == int(line[2]) == lister.cost(least, read):
        return f"{lines[1]!r}, and {least} is listed at {lister.cost(least, read)}"
    return None


def timetables(draw: random.Random, kinds: tuple) -> Iterator[tuple[str, dict[str, int]]]:
    """The records of timetables, of so many of each kind, with settings in turn, and of those with long pairings."""
    for count, flights in kinds:
        for place in range(count):
            settings = SETTINGS[place % len(SETTINGS)]
            yield timetable(draw, settings, flights), settings
    for settings in LONG:
        for _ in range(LONG_TIMETABLES):
            yield timetable(draw, settings, LONG_FLIGHTS), settings


def main(program: str) -> int:
    agreed, listed, overnight, left_out, riding, long = 0, 0, 0, 0, 0, 0
    for place, (text, settings) in enumerate(timetables(random.Random(SEED), TIMETABLES), 1):
        found = difference(answers(program, text, settings), text, settings)
        if found is None:
            agreed += 1
        else:
            print(f"timetable {place}, settings {settings}: {found}\n{text}", file=sys.stderr)
        pairings, shown = lister.pairings(text, settings), lister.shown(text, settings)
        listed += len(pairings)
        overnight += any(len(pairing.walk) > 1 for pairing in pairings)
        long += any(pairing.away > SHORT for pairing in pairings)
        left_out += len(sharing(shown, 3)) < len(shown)
        riding += any("d" in words_of(pairing.walk) for pairing in sharing(shown, 3))
    print(f"{agreed} of {place} timetables agreed: {listed} pairings, with a rest in them in {overnight} timetables, "
          f"more than 138 hours of them in {long}, "
          f"more than three that share a flight in {left_out}, and a crew that rides in one of those taken in {riding}")
    return 0 if agreed == place else 1


if __name__ == "__main__":
    sys.exit(main(sys.argv[1] if len(sys.argv) > 1 else os.path.join(HERE, "..", "..", "crewprice")))
