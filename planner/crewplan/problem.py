"""The restricted master problem over a pool, and its optima.

Where follow-ons are enforced from the start, the pairings left cover all flights of a chain of them or none. So a chain
has one row in the master problem: that of its first flight.
"""
from __future__ import annotations

import math
import time
from collections.abc import Callable, Mapping
from dataclasses import dataclass, field

import numpy

from .master import Master, master_of
from .pairing import Pairing
from .pool import Pool, Rows
from .prices import Prices
from .timetable import Timetable

PENALTY = 100_000.0  # points that an uncovered flight costs in a master problem
CLOSE = 1e-7  # so near to a whole number a dual is one


@dataclass(frozen=True)
class Cost:
    """An objective told apart: points of pay, and flights that are left uncovered at the penalty (in a relaxation, parts
    of flights too)."""
    pay: float
    uncovered: float
    penalty: float = PENALTY

    @property
    def all(self) -> float:
        return self.pay + self.penalty * self.uncovered


@dataclass
class Relaxed:
    """An optimum of a master problem: duals by row of the pool, and a value for each column of the pool (0 where the
    master doesn't have it) and for each flight's own column, which leaves it uncovered."""
    cost: Cost
    duals: numpy.ndarray
    values: numpy.ndarray
    uncovered: numpy.ndarray


class Chains:
    """The rows of a master problem: `row` has that of each row of the pool, which flights of a chain share, `is_first`
    says which of these stands for all, and `lengths` how many flights each row of a chain has."""

    def __init__(self, rows: Rows, after: Mapping[int, int]):
        bound = {rows.flights[other]: rows.flights[one] for one, other in after.items()}
        self.is_first = numpy.ones(len(rows.limits), bool)
        self.is_first[list(bound)] = False
        self.row = numpy.cumsum(self.is_first) - 1
        for other in bound:
            first = other
            while first in bound:
                first = bound[first]
            self.row[other] = self.row[first]
        self.lengths = numpy.bincount(self.row[:len(rows.flights)])
        self.limits = [limit for limit, is_first in zip(rows.limits, self.is_first) if is_first]

    def __len__(self) -> int:
        return len(self.lengths)


@dataclass
class Problem:
    """The restricted master problem over a pool: which of its pairings are columns, and in which order.

    `left_out` are pairings of the pool that a follow-on forbids. `processor_seconds` is what masters and pool took."""
    timetable: Timetable
    pool: Pool
    chains: Chains
    master: Master
    penalty: float
    solver: str = 'auto'
    places: numpy.ndarray = field(default_factory=lambda: numpy.zeros(0, int))
    left_out: numpy.ndarray = field(default_factory=lambda: numpy.zeros(0, bool))
    processor_seconds: float = 0.0
    masters: int = 0

    @classmethod
    def of(cls, timetable: Timetable, penalty: float, capacity: int | None, solver: str) -> Problem:
        return cls.over(timetable, Pool(Rows(timetable, capacity)), {}, penalty, solver)

    @classmethod
    def over(cls, timetable: Timetable, pool: Pool, after: Mapping[int, int], penalty: float, solver: str) -> Problem:
        """Over this pool, with a column of its own for each chain of these follow-ons."""
        chains = Chains(pool.rows, after)
        master = master_of(chains.limits, len(chains), solver)
        master.add((penalty * chains.lengths).tolist(), [[row] for row in range(len(chains))])
        return cls(timetable, pool, chains, master, penalty, solver)

    def part(self, after: Mapping[int, int], wanted: numpy.ndarray, duals: numpy.ndarray, most: int) -> Problem:
        """Another problem over a pool of its own: these pairings, which keep those follow-ons. Its first columns are those
        whose reduced cost under these duals is least, up to so many. `most` of them leave out what a dive hardly wants,
        and what it does comes back from the pool."""
        other = Problem.over(self.timetable, self.pool.part(wanted), after, self.penalty, self.solver)
        other.add(numpy.argsort(other.pool.reduced(duals), kind='stable')[:most])
        return other

    @property
    def count(self) -> int:
        return len(self.pool.rows.flights)

    def is_column(self) -> numpy.ndarray:
        found = numpy.zeros(len(self.pool), bool)
        found[self.places] = True
        return found

    def take_in(self, found: list[Pairing]) -> int:
        """Adds to the pool, and says how many were new."""
        began = time.process_time()
        new = self.pool.add(found)
        self.processor_seconds += time.process_time() - began
        return new

    def add(self, places: numpy.ndarray) -> None:
        """Makes pairings of the pool columns."""
        rows, is_first = self.chains.row.tolist(), self.chains.is_first.tolist()
        self.master.add(self.pool.pays[places], [[rows[row] for row in self.pool.rows_of[place] if is_first[row]]
                                                 for place in places])
        self.places = numpy.concatenate((self.places, places))

    def drop(self, dropped: numpy.ndarray) -> None:
        """Takes columns out again, by a mask over `places`."""
        self.master.drop(numpy.concatenate((numpy.zeros(len(self.chains), bool), dropped)))
        self.places = self.places[~dropped]

    def leave_out(self, left_out: numpy.ndarray) -> None:
        """Holds these pairings of the pool at 0, and no others."""
        self.left_out = left_out
        self.master.forbid(numpy.concatenate((numpy.zeros(len(self.chains), bool), left_out[self.places])))

    def relax(self) -> Relaxed:
        began = time.process_time()
        solved = self.master.solve()
        self.processor_seconds += time.process_time() - began
        self.masters += 1
        chains = self.chains
        values = numpy.zeros(len(self.pool))
        values[self.places] = solved.values[len(chains):]
        uncovered = solved.values[:len(chains)]
        missing = float(chains.lengths @ uncovered)
        cost = Cost(solved.objective - self.penalty * missing, missing, self.penalty)
        shared = numpy.concatenate((chains.lengths, numpy.ones(len(chains.limits) - len(chains), int)))
        return Relaxed(cost, (solved.duals / shared)[chains.row], values, uncovered[chains.row[:self.count]])

    def improving(self, duals: numpy.ndarray, most: int, share: int) -> tuple[numpy.ndarray, float]:
        """Up to so many pairings of the pool for the next master, and the least reduced cost of them."""
        began = time.process_time()
        self.left_out = numpy.concatenate((self.left_out, numpy.zeros(len(self.pool) - len(self.left_out), bool)))
        found = self.pool.improving(duals, most, share, self.is_column() | self.left_out)
        self.processor_seconds += time.process_time() - began
        return found

    def prices(self, duals: numpy.ndarray, whole: Callable[[float], float]) -> Prices:
        """Duals as whole points: so near to a whole number they are that. No price is above the penalty, nor that of
        a base above 0."""
        near = numpy.round(duals)
        points = numpy.where(numpy.abs(duals - near) < CLOSE, near, whole(duals))
        flights = numpy.minimum(points[:self.count], math.floor(self.penalty))
        bases = numpy.minimum(points[self.count:], 0)
        names = self.pool.rows.bases or dict.fromkeys(self.timetable.bases)
        return Prices(dict(zip(self.pool.rows.numbers, flights.astype(int).tolist())),
                      dict(zip(names, bases.astype(int).tolist())) if self.pool.rows.bases else dict.fromkeys(names, 0))
