#!/usr/bin/python3
"""Compares the linear optimum by column generation with that over all legal pairings.

On small random timetables, the same at each run: every legal pairing is listed plainly from the rules, and the master
problem is solved over all of them by SciPy. Column generation has to come to the same optimum, or with a gap to within
it, and its bound must not lie above it.
"""
from __future__ import annotations

import random
import sys
from dataclasses import replace
from itertools import product
from pathlib import Path

import numpy
from scipy.optimize import linprog

TESTS = Path(__file__).resolve().parent
sys.path[:0] = [str(TESTS), str(TESTS.parent)]

import check_lister
import lister
from crewplan.engine import Engine
from crewplan.relaxation import Result, Ways, relax
from crewplan.timetable import Timetable, read_text

SEED, TIMETABLES = 2003, ((40, (4, 9)), (10, (16, 28)))
# How a run goes: one pairing a settle and many, with and without a share, by masters that take few columns and many, with
# columns dropped as soon as may be, by both solvers; and to within a gap. Beside it the most pairings of a base.
PLAIN = Ways(most=200, share=0, take=200, spread=0)
DROPPED = {'dear': 0, 'patience': 1}
RUNS = ((replace(PLAIN, most=1), None), (PLAIN, None), (replace(PLAIN, most=3), 1), (replace(PLAIN, share=1), None),
        (replace(PLAIN, share=3), 1), (replace(PLAIN, most=2, share=2, take=1), None), (replace(PLAIN, take=2, spread=1), 2),
        (replace(PLAIN, most=1, **DROPPED), None), (replace(PLAIN, take=1, **DROPPED), 1), (Ways(), None), (Ways(), 1),
        (replace(PLAIN, most=10_000, share=60, take=3, spread=1, **DROPPED), None), (Ways(master='highs'), None),
        (Ways(master='highs', take=2, **DROPPED), 1), (replace(PLAIN, most=1, gap=0.05), None),
        (Ways(most=2, gap=0.3), 1))
# Of a flight that stays uncovered: far more than pairings pay for one, and less than some do.
PENALTIES = (100_000.0, 3_000.0)
CLOSE = 1e-4


def options_of(settings: dict[str, int]) -> list[str]:
    return [word for name, value in settings.items() for word in ('--' + name.replace('_', '-'), str(value))]


def optimum(timetable: Timetable, text: str, settings: dict[str, int], penalty: float, capacity: int | None) -> float:
    """The linear optimum over all legal pairings."""
    rows = {number: row for row, number in enumerate(timetable.flights)}
    found = lister.pairings(text, settings)
    costs = numpy.array([penalty] * len(rows) + [pairing.pay for pairing in found], float)
    cover = numpy.zeros((len(rows), len(costs)))
    cover[:, :len(rows)] = numpy.eye(len(rows))
    counts = numpy.zeros((len(timetable.bases), len(costs)))
    for column, pairing in enumerate(found, len(rows)):
        cover[[rows[number] for number in pairing.flown], column] = 1
        counts[timetable.bases.index(pairing.base), column] = 1
    limits = {} if capacity is None else {'A_ub': counts, 'b_ub': numpy.full(len(counts), capacity)}
    return linprog(costs, A_eq=cover, b_eq=numpy.ones(len(rows)), method='highs-ds', **limits).fun


def agrees(program: str, text: str, settings: dict[str, int], ways: Ways, penalty: float,
           capacity: int | None) -> bool:
    timetable = read_text(text)
    with Engine(program, options_of(settings), timetable) as engine:
        result = relax(timetable, engine, ways, penalty=penalty, capacity=capacity)
    whole = optimum(timetable, text, settings, penalty, capacity)
    places = len(timetable.flights) + len(timetable.bases) * (capacity or 0)
    if ways.gap:
        return is_near(result, ways.gap, whole)
    is_bound = result.bound <= whole + CLOSE and whole - result.bound < places
    return is_bound and result.is_optimal and abs(result.relaxed.cost.all - whole) < CLOSE


def is_near(result: Result, gap: float, whole: float) -> bool:
    """Whether a run ended with the first round within the gap, or at the optimum, and has it between what it says."""
    within = [turn.cost.all <= turn.bound + gap * abs(turn.bound) for turn in result.rounds]
    objective = result.relaxed.cost.all
    is_end = (within[-1] or abs(objective - whole) < CLOSE) and not any(within[:-1])
    return is_end and result.bound - CLOSE <= whole <= objective + CLOSE


def main(program: str) -> int:
    agreed, runs, few = 0, 0, sum(count for count, _ in TIMETABLES)
    for place, (text, settings) in enumerate(check_lister.timetables(random.Random(SEED), TIMETABLES)):
        # All ways on the first ones, and on those with long pairings two, in turn.
        ways_here = RUNS if place < few else (RUNS[place % len(RUNS)], RUNS[place // 7 % len(RUNS)])
        for (ways, capacity), penalty in product(ways_here, PENALTIES):
            runs += 1
            if agrees(program, text, settings, ways, penalty, capacity):
                agreed += 1
            else:
                print(f'another optimum by {ways}, penalty {penalty}, capacity {capacity}, settings {settings}, '
                      f'over\n{text}', file=sys.stderr)
    print(f'{agreed} of {runs} runs came to the optimum over all pairings')
    return 0 if agreed == runs else 1


if __name__ == '__main__':
    sys.exit(main(sys.argv[1] if len(sys.argv) > 1 else str(TESTS.parent.parent / 'crewprice')))
