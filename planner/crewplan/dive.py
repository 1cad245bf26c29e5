"""A dive: from the relaxation to whole pairings by follow-ons.

In an optimum of the relaxation much is whole already: many flights are followed by one other in all pairings that fly
them. Those follow-ons are enforced, and then the greatest others, a few at a time. After each step the masters are solved
again and the engine is asked for pairings that keep what is enforced. Where few columns are left that a plan can have
which is near enough, an integer program over them ends the dive.
"""
from __future__ import annotations

import math
import time
from collections.abc import Callable
from dataclasses import dataclass

import numpy

from .enforce import FollowOns, Pair
from .engine import Engine
from .pairing import Pairing
from .plan import Whole, whole_of
from .programs import least_cover
from .problem import Cost, Problem, Relaxed
from .relaxation import Ways, feed

WHOLE = 1e-6  # so near to 0 or 1 a value is that
NEXT = 0.999  # pays are whole points, so a better plan costs a point less at least


@dataclass(frozen=True)
class Steps:
    """How a dive goes. A step takes follow-ons of at least the `least` weight, up to a `part` of the flights; where
    there is none the few of `few` or more, and where there is none the greatest alone. Weights differ by a lot of this
    `spread`. Between two steps there are up to `settles` settles, and no further one where the least cost is above
    `-close` points. Once no more than `last` columns keep what is enforced at a reduced cost of `near` of the pay, an
    integer program over the `core`, so many of least reduced cost, is tried for so many `seconds`, and again at half as
    many columns. The dive's own master problem begins with so many `columns` for each flight."""
    part: float = 0.05
    least: float = 0.75
    few: float = 0.6
    spread: float = 0.0
    settles: int = 3
    close: float = 200.0
    most: int = 2_000
    share: int = 20
    last: int = 5_000
    core: int = 1_500
    near: float = 0.003
    seconds: float = 4.0
    columns: int = 5


@dataclass(frozen=True)
class Step:
    """What a step came to: how many follow-ons are enforced, the objective, and how many columns lie between 0 and 1."""
    number: int
    enforced: int
    cost: Cost
    split: int


Tell = Callable[[Step], None]


class Dive:
    """One dive, from duals of the relaxation, over a master problem and a pool of its own. Its follow-ons stay enforced, for
    the next one, which changes what differs."""

    def __init__(self, problem: Problem, duals: numpy.ndarray, engine: Engine, follow_ons: FollowOns, steps: Steps,
                 ways: Ways, tell: Tell, deadline: float, below: float, draw: numpy.random.Generator):
        self.whole, self.duals = problem, duals
        self.engine, self.follow_ons, self.steps, self.ways, self.tell = engine, follow_ons, steps, ways, tell
        self.deadline, self.below, self.draw = deadline, below, draw
        self.last = steps.last
        self.is_proved = False  # whether no plan of the pool's pairings costs less than what it ended at, or had to be below

    def run(self, kept: list[Pair]) -> Whole | None:
        """The plan that the dive ends at, from where these follow-ons are enforced; none where it stopped: at its
        deadline, where no plan below a cost can come any more, or where nothing was left to enforce."""
        self.follow_ons.change_to(kept)
        wanted = ~self.broken(self.whole)
        self.problem = self.whole.part(self.merged(), wanted, self.duals, self.steps.columns * self.whole.count)
        self.first = len(self.problem.pool)
        try:
            found = self.descend()
            return found and self.in_whole(found)
        finally:
            self.whole.masters += self.problem.masters
            self.whole.processor_seconds += self.problem.processor_seconds

    def descend(self) -> Whole | None:
        """The plan, by the dive's own pool."""
        relaxed, number = self.settle(), 0
        while self.split(relaxed):
            found, is_end = self.finish(relaxed)
            if is_end:
                return found
            if time.perf_counter() > self.deadline or relaxed.cost.all > self.below - NEXT:
                return None
            if not self.follow_ons.enforce(self.next_pairs(relaxed)):
                return None
            self.problem.leave_out(self.broken(self.problem))
            relaxed, number = self.settle(), number + 1
            self.tell(Step(number, len(self.follow_ons.pairs), relaxed.cost, self.split(relaxed)))
        return whole_of(self.problem, numpy.flatnonzero(relaxed.values > 0.5).tolist())

    def in_whole(self, found: Whole) -> Whole:
        """The plan in the pool that all dives share."""
        pairings = [self.problem.pool.pairings[place] for place in found.places]
        self.whole.take_in(pairings)
        return whole_of(self.whole, self.whole.pool.places(pairings))

    def listed(self, most: float) -> list[Pairing]:
        """The pairings that came in this dive whose reduced cost under the duals is at most that."""
        pool = self.problem.pool
        places = numpy.flatnonzero(pool.reduced(self.duals)[self.first:] <= most)
        return [pool.pairings[self.first + place] for place in places]

    def merged(self) -> dict[int, int]:
        """The follow-ons whose flights may share a row: all, where no crew rides one of both and flies the other."""
        return {} if self.follow_ons.settings.deadheads else self.follow_ons.after

    def broken(self, problem: Problem) -> numpy.ndarray:
        """Which pairings of the problem's pool break a follow-on that is enforced."""
        return problem.pool.against(self.follow_ons.after, self.follow_ons.before)

    def split(self, relaxed: Relaxed) -> int:
        """How many columns, and flights, are neither taken nor left."""
        values = numpy.concatenate((relaxed.values, relaxed.uncovered))
        return int(numpy.count_nonzero((values > WHOLE) & (values < 1 - WHOLE)))

    def finish(self, relaxed: Relaxed) -> tuple[Whole | None, bool]:
        """The plan of an integer program over the columns that a plan near enough can have, where they are few, or over the
        cheapest of these; and whether the dive is at its end: with a plan that is near and costs less than it has to, or
        the best of all these columns, or where there is none below that cost."""
        near = relaxed.cost.all + self.steps.near * abs(relaxed.cost.pay)
        gap = min(self.below - NEXT, near) - relaxed.cost.all
        problem = self.problem
        reduced = numpy.where(problem.left_out, math.inf, problem.pool.reduced(relaxed.duals))
        count = numpy.count_nonzero(reduced <= gap)
        if gap < 0 or count > self.last:
            return None, False
        self.last = count // 2
        places = numpy.sort(numpy.argsort(reduced, kind='stable')[:min(count, self.steps.core)])
        dear = problem.penalty - relaxed.duals[:problem.count]
        may_miss = numpy.flatnonzero((dear <= gap) | (relaxed.uncovered > WHOLE))
        began = time.process_time()
        seconds = min(self.steps.seconds, self.deadline - time.perf_counter())
        found, is_whole = least_cover(problem, places, may_miss, seconds)
        problem.processor_seconds += time.process_time() - began
        is_whole = is_whole and len(places) == count
        self.is_proved = is_whole and self.below <= near and not self.follow_ons.pairs
        if found is None:
            return None, is_whole and self.below <= near
        plan = whole_of(problem, found)
        return plan, is_whole or plan.cost.all <= min(near, self.below - NEXT)

    def next_pairs(self, relaxed: Relaxed) -> list[Pair]:
        """Those that are whole, and then some others, the greatest first."""
        weighed = [(weight, pair) for weight, pair in self.problem.pool.follow_ons(relaxed.values)
                   if self.follow_ons.fits(pair)]
        sure = [pair for weight, pair in weighed if weight > 1 - WHOLE]
        others = [(weight + self.steps.spread * self.draw.normal(), pair) for weight, pair in weighed if weight <= 1 - WHOLE]
        others.sort(key=lambda it: -it[0])
        most = max(1, int(self.steps.part * self.problem.count))
        great = [pair for weight, pair in others if weight >= self.steps.least][:most]
        few = [pair for weight, pair in others if weight >= self.steps.few][:4]
        return sure + (great or few or [pair for _, pair in others[:1]])

    def settle(self) -> Relaxed:
        """An optimum of the master with what is enforced, after a few settles."""
        relaxed, _ = feed(self.problem, self.problem.relax(), self.ways)
        for _ in range(self.steps.settles):
            self.engine.set_prices(self.problem.prices(relaxed.duals, numpy.floor))
            listed = self.engine.cheapest(self.steps.most, self.steps.share)
            self.problem.take_in([pairing for pairing, _ in listed])
            relaxed, took = feed(self.problem, relaxed, self.ways)
            if not took or listed[0][1] > -self.steps.close:
                break
        return relaxed


def follow_ons_of(problem: Problem, plan: Whole) -> list[Pair]:
    """Each flight and the next of each pairing of a plan, where the crew flies both."""
    pairings = (problem.pool.pairings[place] for place in plan.places)
    return [pair for pairing in pairings for pair in zip(pairing.legs, pairing.legs[1:])
            if not pairing.ridden.intersection(pair)]
