#!/usr/bin/env python3
"""Compares the program with the lister where timetables have turns and follow-ons.

Usage: check_bonds.py [PROGRAM]

The timetables are those of check_lister.py, the same at each run. Of each some pairs of flights that meet at an airport
are drawn by lot: for turns, often of the minutes that there are between the two or one more or fewer, and for
follow-ons. In half of them these come after a first settle, so that the engine goes on from what it has. All that
check_lister.py compares has to agree. Ends with status 0 where it does.
"""
from __future__ import annotations

import os
import random
import sys

import check_lister
import lister

HERE = os.path.dirname(os.path.abspath(__file__))
SEED, TIMETABLES = 733, ((120, (6, 14)), (40, (16, 28)))
FORBIDDEN = 1441


def pairs_of(flights: dict[int, lister.Flight]) -> list[tuple[lister.Flight, lister.Flight]]:
    return [(one, other) for one in flights.values() for other in flights.values()
            if one.target == other.origin and one.arr <= other.dep]


def turns(draw: random.Random, pairs: list[tuple[lister.Flight, lister.Flight]]) -> list[str]:
    told = []
    for one, other in draw.sample(pairs, min(len(pairs), draw.randint(0, 8))):
        gap = other.dep - one.arr
        minutes = draw.choice((0, gap - 1, gap, gap, gap + 1, gap + 1, FORBIDDEN))
        told.append(f"turn,{one.number},{other.number},{max(0, min(minutes, FORBIDDEN))}")
    return told


def follow_ons(draw: random.Random, pairs: list[tuple[lister.Flight, lister.Flight]]) -> list[str]:
    told, before, after = [], set(), set()
    for one, other in draw.sample(pairs, min(len(pairs), draw.randint(0, 4))):
        if one.number not in before and other.number not in after:
            before.add(one.number)
            after.add(other.number)
            told.append(f"follow,{one.number},{other.number}")
    return told


def main(program: str) -> int:
    draw = random.Random(SEED)
    agreed, turned, followed, other_pairings = 0, 0, 0, 0
    for place, (text, settings) in enumerate(check_lister.timetables(draw, TIMETABLES), 1):
        flights, _ = lister.read(text, settings)
        pairs, is_late = pairs_of(flights), draw.random() < 0.5
        bonds = turns(draw, pairs), follow_ons(draw, pairs)
        records = "".join(record + "\n" for told in bonds for record in told)
        lines = check_lister.answers(program, text + "settle\n" * is_late + records, settings)[is_late:]
        found = check_lister.difference(lines, text + records, settings)
        if found is None:
            agreed += 1
        else:
            print(f"timetable {place}, settings {settings}: {found}\n{text}{records}", file=sys.stderr)
        turned, followed = turned + len(bonds[0]), followed + len(bonds[1])
        other_pairings += lister.pairings(text, settings) != lister.pairings(text + records, settings)
    print(f"{agreed} of {place} timetables agreed under {turned} turns and {followed} follow-ons, which leave other "
          f"pairings in {other_pairings}")
    return 0 if agreed == place else 1


if __name__ == "__main__":
    sys.exit(main(sys.argv[1] if len(sys.argv) > 1 else os.path.join(HERE, "..", "..", "crewprice")))
