"""Column generation to the optimum of the linear relaxation.

A settle lists many pairings; they go into the pool. Warm masters take from the pool until none in it improves; only then
the engine is asked again.
"""
from __future__ import annotations

import math
import time
from collections import Counter
from collections.abc import Callable
from dataclasses import dataclass

import numpy

from .engine import Engine
from .faults import Fault
from .prices import Prices
from .problem import PENALTY, Cost, Problem, Relaxed
from .timetable import Timetable

INNER = 100  # most masters between two settles


@dataclass(frozen=True)
class Ways:
    """How a run goes. A settle lists up to `most` pairings, of which no more than `share` fly a flight (any number for
    0). A master takes up to `take` columns at once, of which no more than `spread` fly a flight, and after the first one
    of a round only where the best improves by more than `enough` of what the settle's best did. A column that was
    dearer than `dear` in `patience` masters in a row is dropped, once. The run ends where the objective is at most
    `gap` of the bound above it, or after so many `seconds`."""
    most: int = 400
    share: int = 8
    take: int = 400
    spread: int = 8
    enough: float = 0.0
    dear: float = math.inf
    patience: int = 20
    gap: float = 0.0
    seconds: float = math.inf
    master: str = 'auto'


def ways_of(flights: int) -> Ways:
    """What was quickest of what was tried for so many flights."""
    if flights < 300:
        return Ways()
    return Ways(most=10_000, share=60, take=flights, spread=8)


@dataclass(frozen=True)
class Round:
    """One settle and the masters after it. `bound` is at most the optimum's `all`."""
    number: int
    cost: Cost
    bound: float
    least: float
    listed: int
    columns: int
    pool: int
    masters: int
    master_seconds: float
    pricing_seconds: float


Tell = Callable[[Round], None]


@dataclass
class Result:
    """`bound` is at most the optimum of the relaxation over all legal pairings, and the cost at least. `is_optimal`
    says that no legal pairing improves; else time or a gap ended the run."""
    problem: Problem
    relaxed: Relaxed
    bound: float
    rounds: list[Round]
    is_optimal: bool
    seconds: float


class Bound:
    """The greatest lower bound so far. Any prices give one, where no flight's is above the penalty: what they come to,
    and of each base, where the least cost under them is below 0, that cost once for each pairing of the base that a cover
    may have: each ends with a flight to the base, which no other covers."""

    def __init__(self, timetable: Timetable, capacity: int | None):
        arrivals = Counter(flight.destination for flight in timetable.flights.values())
        most = math.inf if capacity is None else capacity
        self.capacity = capacity or 0
        self.most = {base: min(arrivals[base], most) for base in timetable.bases}
        self.value = -math.inf

    def offer(self, prices: Prices, leasts: dict[str, int]) -> None:
        """With the least cost of each base that has a pairing."""
        value = sum(prices.flights.values()) + self.capacity * sum(prices.bases.values())
        value += sum(self.most[base] * min(least, 0) for base, least in leasts.items())
        self.value = max(self.value, value)


def relax(timetable: Timetable, engine: Engine, ways: Ways, *, penalty: float = PENALTY, capacity: int | None = None,
          tell: Tell = lambda _: None) -> Result:
    """Runs to the optimum of the linear relaxation over all legal pairings, or to where the ways end it.

    The engine takes whole points. Duals are rounded down: then a pairing that it calls improving is, and where it finds
    none the prices are feasible duals of the whole problem, whose value is a bound, less than a point for each flight
    (and for each place of a base) below the optimum. After that duals are rounded up, and what still improves is taken.
    """
    began = time.perf_counter()
    problem = Problem.of(timetable, penalty, capacity, ways.master)
    bound, rounds, is_up = Bound(timetable, capacity), [], False
    dropping = Dropping(problem, ways)
    relaxed = problem.relax()
    while True:
        priced = engine.seconds
        prices = problem.prices(relaxed.duals, numpy.ceil if is_up else numpy.floor)
        engine.set_prices(prices)
        listed = engine.cheapest(ways.most, ways.share)
        least = min(listed[0][1], 0) if listed else 0
        bound.offer(prices, engine.leasts())
        problem.take_in([pairing for pairing, _ in listed])
        before, spent = problem.masters, time.perf_counter()
        relaxed, took = feed(problem, relaxed, ways, dropping)
        rounds.append(Round(len(rounds) + 1, relaxed.cost, bound.value, least, len(listed), len(problem.places),
                            len(problem.pool), problem.masters - before, time.perf_counter() - spent,
                            engine.seconds - priced))
        tell(rounds[-1])
        if relaxed.cost.all < bound.value - 0.01 - 1e-9 * abs(bound.value):
            raise Fault('the master problem fell below the bound: its solver is at fault; try --master highs')
        near = relaxed.cost.all <= bound.value + ways.gap * abs(bound.value)
        late = time.perf_counter() - began > ways.seconds
        if late or (near and ways.gap) or (not took and is_up):
            return Result(problem, relaxed, bound.value, rounds, not took and is_up, time.perf_counter() - began)
        is_up = is_up or not took


def feed(problem: Problem, relaxed: Relaxed, ways: Ways, dropping: Dropping | None = None) -> tuple[Relaxed, int]:
    """Masters that take from the pool until none in it improves enough; the last optimum, and how many columns came."""
    took, enough = 0, 0.0
    for _ in range(INNER):
        places, least = problem.improving(relaxed.duals, ways.take, ways.spread)
        if not len(places) or least > enough:
            break
        enough = enough or ways.enough * least
        problem.add(places)
        took += len(places)
        relaxed = problem.relax()
        if dropping:
            dropping.look(relaxed)
    return relaxed, took


class Dropping:
    """Columns that stay dear leave the master problem. One that comes back from the pool stays: so each leaves once at
    most, and no run goes round in a circle."""

    def __init__(self, problem: Problem, ways: Ways):
        self.problem, self.ways = problem, ways
        self.dear = numpy.zeros(0, int)  # for how many masters in a row, by pairing of the pool
        self.left = numpy.zeros(0, bool)

    def look(self, relaxed: Relaxed) -> None:
        if math.isinf(self.ways.dear):
            return
        count = len(self.problem.pool)
        grown = count - len(self.dear)
        self.dear = numpy.concatenate((self.dear, numpy.zeros(grown, int)))
        self.left = numpy.concatenate((self.left, numpy.zeros(grown, bool)))
        is_dear = self.problem.is_column() & (self.problem.pool.reduced(relaxed.duals) > self.ways.dear)
        self.dear = numpy.where(is_dear, self.dear + 1, 0)
        leaving = (self.dear >= self.ways.patience) & ~self.left
        if leaving.any():
            self.left |= leaving
            self.problem.drop(leaving[self.problem.places])
