#!/usr/bin/python3
"""Checks plans of whole pairings against brute force, and which flights no legal pairing flies.

On small random timetables, the same at each run: every legal pairing is listed plainly from the rules, and the best plan of
them is found by an integer program over all. A plan by dives and integer programs has to fly each flight once at most, by
pairings that the list has, at their pay; it must not cost less than the best plan or than its own bound; and the report's
figures have to be those of the plan. The flights told as out of reach have to be those that the list has in no pairing.
"""
from __future__ import annotations

import random
import sys
from collections import Counter
from pathlib import Path

import numpy
from scipy.optimize import Bounds, LinearConstraint, milp

TESTS = Path(__file__).resolve().parent
sys.path[:0] = [str(TESTS), str(TESTS.parent)]

import check_lister
import lister
from check_relaxation import options_of
from crewplan.cli import parser, plan
from crewplan.progress import Progress
from crewplan.report import Report, csv_of, json_of
from crewplan.page import page_of
from crewplan.timetable import read_text

SEED, TIMETABLES = 77, ((48, (6, 14)), (24, (16, 28)))
PENALTY = 100_000


def best_cost(numbers: list[int], listed: list[lister.Pairing], capacity: int | None) -> float:
    """What the best plan costs, of all legal pairings."""
    bases = sorted({pairing.base for pairing in listed})
    costs = numpy.array([PENALTY] * len(numbers) + [pairing.pay for pairing in listed], float)
    cover = numpy.zeros((len(numbers) + len(bases), len(costs)))
    cover[:len(numbers), :len(numbers)] = numpy.eye(len(numbers))
    for column, pairing in enumerate(listed, len(numbers)):
        cover[[numbers.index(number) for number in pairing.flown], column] = 1
        cover[len(numbers) + bases.index(pairing.base), column] = 1
    lower = [1.0] * len(numbers) + [0.0] * len(bases)
    upper = [1.0] * len(numbers) + [len(numbers) if capacity is None else capacity] * len(bases)
    return milp(costs, constraints=LinearConstraint(cover, lower, upper), integrality=numpy.ones(len(costs)),
                bounds=Bounds(0, 1)).fun


def walk_of(pairing: lister.Pairing) -> str:
    return check_lister.words_of(pairing.walk)


def faults_of(report: Report, text: str, settings: dict[str, int], listed: list[lister.Pairing],
              capacity: int | None) -> list[str]:
    pays = {(pairing.base, walk_of(pairing)): (pairing.pay, pairing.away) for pairing in listed}
    flown: Counter[int] = Counter()
    faults = []
    for line in report.lines:
        walk = ' '.join('-'.join(f'{leg.flight.number}{"d" * leg.rides}' for leg in duty.legs) for duty in line.duties)
        if pays.get((line.base, walk)) != (line.pay, line.away):
            faults.append(f'{line.base} {walk} pays {line.pay}, and the list has {pays.get((line.base, walk))}')
        flown.update(leg.flight.number for duty in line.duties for leg in duty.legs if not leg.rides)
    numbers = list(report.timetable.flights)
    reached = {number for pairing in listed for number in pairing.flown}
    out_of_reach = {it.number for it in report.unreachable}
    if out_of_reach != set(numbers) - reached:
        faults.append(f'out of reach are told {out_of_reach}, and are {set(numbers) - reached}')
    told = sorted([*flown, *out_of_reach, *(flight.number for flight in report.by_choice)])
    if max(flown.values(), default=0) > 1 or told != sorted(numbers):
        faults.append(f'flights are flown so often: {flown}')
    if capacity and max(Counter(line.base for line in report.lines).values(), default=0) > capacity:
        faults.append('a base has more pairings than it may')
    pay = sum(line.pay for line in report.lines)
    if pay != report.figures.pay or report.figures.pay < report.figures.bound - 1e-4:
        faults.append(f'pay {pay}, of the figures {report.figures.pay}, bound {report.figures.bound}')
    return faults


def main(program: str) -> int:
    draw = random.Random(SEED)
    best, above, bad, plans = 0, 0, 0, 0
    for text, settings in check_lister.timetables(draw, TIMETABLES):
        listed = lister.pairings(text, settings)
        if not listed:
            continue
        capacity = draw.choice((None, None, 2))
        words = ['-', '--program', program, '--quiet', '--seconds', '5']
        given = parser().parse_args(words + ([] if capacity is None else ['--capacity', str(capacity)]))
        report = plan(read_text(text), given, options_of(settings), Progress(is_quiet=True))
        faults = faults_of(report, text, settings, listed, capacity)
        reached = sorted({number for pairing in listed for number in pairing.flown})
        cost = report.figures.pay + PENALTY * len(report.by_choice)
        least = best_cost(reached, listed, capacity)
        if cost < least - 1e-4:
            faults.append(f'the plan costs {cost}, and the best {least}')
        for made in (csv_of(report), json_of(report), page_of(report, 'plan')):
            if not made:
                faults.append('an empty report')
        plans += 1
        best += abs(cost - least) < 1e-4
        above += cost > least + 1e-4
        for fault in faults:
            print(f'{fault}: settings {settings}, capacity {capacity}, over\n{text}', file=sys.stderr)
        bad += bool(faults)
    print(f'{plans - bad} of {plans} plans are as they should be: {best} of them the best of all legal pairings, '
          f'{above} cost more')
    return 0 if bad == 0 else 1


if __name__ == '__main__':
    sys.exit(main(sys.argv[1] if len(sys.argv) > 1 else str(TESTS.parent.parent / 'crewprice')))
