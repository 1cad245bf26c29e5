#!/usr/bin/python3
"""Compares what follow-ons leave of a timetable's pairings with a plain list of all of them.

On small random timetables, the same at each run, some of them with a leg that the crew may ride: follow-ons drawn by lot
are enforced, some are undone, and others enforced in their place. The engine's audit then has to count the pairings that a
plain list keeps, at the same least cost: those in which each pair of flights comes one directly after the other, or neither
comes. Where no crew rides, a master problem in which the flights of a chain of follow-ons share a row has to have the
optimum of one with a row for each.
"""
from __future__ import annotations

import random
import sys
from pathlib import Path

TESTS = Path(__file__).resolve().parent
sys.path[:0] = [str(TESTS), str(TESTS.parent)]

import numpy

import check_lister
import lister
from check_relaxation import CLOSE, PENALTIES, options_of
from crewplan.enforce import FollowOns, Pair
from crewplan.engine import Engine
from crewplan.pairing import Pairing
from crewplan.prices import Prices
from crewplan.problem import Problem, Relaxed
from crewplan.settings import settings_of
from crewplan.timetable import read_text

SEED, TIMETABLES, AUDIT = 431, ((40, (6, 14)), (20, (16, 28))), 10_000_000


def legs_of(pairing: lister.Pairing) -> list[int]:
    return [number for duty in pairing.walk for number, _ in duty]


def keeps(legs: list[int], pair: Pair) -> bool:
    first, second = pair
    if first not in legs and second not in legs:
        return True
    return first in legs and second in legs and legs.index(second) == legs.index(first) + 1


def check(program: str, draw: random.Random, text: str, settings: dict[str, int]) -> tuple[str, int]:
    """What is wrong, and how many follow-ons were enforced."""
    listed = [pairing for pairing in lister.pairings(text, settings)]
    pairs = sorted({pair for pairing in listed for pair in zip(legs_of(pairing), legs_of(pairing)[1:])})
    if not pairs:
        return '', 0
    timetable, options = read_text(text), options_of(settings)
    flights, bases = lister.read(text, settings)
    with Engine(program, options, timetable) as engine:
        engine.set_prices(Prices({number: flight.price for number, flight in flights.items()}, bases))
        follow_ons = FollowOns(settings_of(options), engine)
        first = follow_ons.enforce(draw.sample(pairs, min(len(pairs), draw.randint(1, 5))))
        follow_ons.release(draw.sample(first, len(first) // 2))
        follow_ons.enforce(draw.sample(pairs, min(len(pairs), draw.randint(1, 5))))
        engine.session.settle()
        audit = engine.session.audit(AUDIT)
        kept = [pairing for pairing in listed if all(keeps(legs_of(pairing), pair) for pair in follow_ons.pairs)]
        wanted = len(kept), min((lister.cost(pairing, (flights, bases)) for pairing in kept), default=None)
        found = audit.pairings, audit.cost
        count = len(follow_ons.pairs)
        follow_ons.release(follow_ons.pairs)
        engine.session.settle()
        if engine.session.audit(AUDIT).pairings != len(listed):
            return 'not all pairings are back after all is undone', count
    return ('' if wanted == found else f'wanted {wanted}, found {found}'), count


def check_rows(draw: random.Random, text: str, settings: dict[str, int]) -> str:
    """What is wrong with an optimum over rows of chains."""
    listed = lister.pairings(text, settings)
    pairs = sorted({pair for pairing in listed for pair in zip(legs_of(pairing), legs_of(pairing)[1:])})
    after: dict[int, int] = {}
    for first, second in draw.sample(pairs, draw.randint(0, len(pairs))):
        if first not in after and second not in after.values():
            after[first] = second
    whole = Problem.of(read_text(text), draw.choice(PENALTIES), draw.choice((None, 2)), 'auto')
    whole.take_in([Pairing(it.base, check_lister.words_of(it.walk), it.pay, it.away) for it in listed])
    kept = ~whole.pool.against(after, {second: first for first, second in after.items()})
    none = numpy.zeros(len(whole.pool.rows.limits))
    chained, plain = (whole.part(bound, kept, none, len(listed)) for bound in (after, {}))
    one, other = chained.relax(), plain.relax()
    if abs(one.cost.all - other.cost.all) > CLOSE:
        return f'the optimum is {one.cost.all} by chains, and {other.cost.all} by flights'
    return fault_of(chained, one)


def fault_of(problem: Problem, relaxed: Relaxed) -> str:
    """What of an optimum isn't so."""
    rows, count = problem.pool.rows, problem.count
    covered = problem.pool.matrix.T @ relaxed.values
    if abs(covered[:count] + relaxed.uncovered - 1).max() > CLOSE or (covered - rows.limits).max() > CLOSE:
        return 'flights are not covered once, or a base has too many'
    reduced = numpy.append(problem.pool.reduced(relaxed.duals), problem.penalty - relaxed.duals[:count])
    if reduced.min() < -CLOSE or abs(relaxed.duals @ rows.limits - relaxed.cost.all) > CLOSE:
        return 'duals are not those of the optimum'
    return ''


def main(program: str) -> int:
    draw, other_draw = random.Random(SEED), random.Random(SEED + 1)
    bad, enforced, riding, place = 0, 0, 0, 0
    for place, (text, settings) in enumerate(check_lister.timetables(draw, TIMETABLES), 1):
        fault, count = check(program, draw, text, settings)
        enforced, riding = enforced + count, riding + (count > 0 and 'deadheads' in settings)
        if fault := fault or ('deadheads' not in settings and check_rows(other_draw, text, settings)):
            bad += 1
            print(f'{fault}: settings {settings}, over\n{text}', file=sys.stderr)
    print(f'{place - bad} of {place} timetables keep the pairings of a plain list under {enforced} follow-ons; '
          f'{riding} of them with crews that ride')
    return 0 if bad == 0 else 1


if __name__ == '__main__':
    sys.exit(main(sys.argv[1] if len(sys.argv) > 1 else str(TESTS.parent.parent / 'crewprice')))
