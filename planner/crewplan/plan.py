"""Plans of whole pairings, by their places in the pool."""
from __future__ import annotations

from dataclasses import dataclass

import numpy

from .problem import Cost, Problem


@dataclass(frozen=True)
class Whole:
    """Pairings of a pool that fly each flight once at most, and the rows of the flights that none flies."""
    places: tuple[int, ...]
    uncovered: tuple[int, ...]
    cost: Cost


def whole_of(problem: Problem, places: list[int]) -> Whole:
    """The plan of these pairings. They fly no flight twice."""
    covered = numpy.zeros(problem.count, int)
    for place in places:
        for number in problem.pool.pairings[place].flights:
            covered[problem.pool.rows.flights[number]] += 1
    if covered.max(initial=0) > 1:
        raise ValueError('a plan flies a flight twice')
    uncovered = numpy.flatnonzero(covered == 0)
    pay = float(problem.pool.pays[places].sum())
    return Whole(tuple(sorted(places)), tuple(uncovered.tolist()), Cost(pay, len(uncovered), problem.penalty))
