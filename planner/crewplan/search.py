"""From the relaxation to the best plan that some time finds.

A dive from the relaxation comes to a first plan. A descent betters it: it gives up a part of the plan's follow-ons all over
the schedule and dives again from what is left. That has a relaxation just below the plan, and few columns can be in a
better one, so an integer program over the cheapest of these soon finds it. Given up are those that fewest of the good
plans have that this search and others came to, or those of least weight in the relaxation, where lots change the weights
a little. Where a few dives in a row were in vain, a leap gives up more of the best plan and takes what it comes to, and a
descent follows from there.
"""
from __future__ import annotations

import math
import time
from collections import Counter
from collections.abc import Callable, Sequence
from dataclasses import dataclass, replace

import numpy

from .dive import NEXT, Dive, Step, Steps, follow_ons_of
from .enforce import FollowOns, Pair
from .engine import Engine
from .pairing import Pairing
from .plan import Whole, whole_of
from .problem import Problem, Relaxed
from .relaxation import Ways
from .settings import Settings

FIRST = (Steps(settles=1), Steps(settles=1, spread=0.05), Steps(part=0.1, least=0.6, spread=0.05),
         Steps(settles=1, part=0.03, spread=0.1))
LEAP = Steps(spread=0.05)
PART = 0.4  # of a plan's follow-ons that a descent gives up at first
LEAPS = 0.5, 0.8  # .. and a leap
SPREADS = 0.1, 0.4  # of the lots that change weights
SMALL = 3_000  # columns of an integer program that has all that a better plan can have
LONG, LEAST = 0.01, 1.5  # of the time, and least seconds: where a dive took more, less is given up
SHORT = 0.6  # of that: where a dive in vain took less, more
GROWS, SHRINKS = 1.06, 0.95  # that part, then
CHOSEN = 0.7  # of the good plans that are compared
ENDS = 4  # of descents, the last ones, that count as good plans
ALONE_VAIN, VAIN = 4, 8  # dives of a descent in a row without a better plan, by weights alone and by other plans as well
AGAIN = 3  # .. from a plan that a descent ended at before
PATIENCE = 12  # leaps in a row without a better plan
ALONE = 0.5  # of the time: later leaps are from the best plan of all searches


@dataclass
class Exchange:
    """How searches side by side tell each other of plans: `tell` is given each good plan, and `hear` gives for each other
    search its best and its last one."""
    tell: Callable[[str, Whole, list[Pairing]], None]
    hear: Callable[[], list[list[Pairing]]] = list


@dataclass
class Search:
    """What a search goes on: the problem with the relaxation's optimum, the engine, and whom it tells. Searches of other
    numbers go other ways."""
    settings: Settings
    engine: Engine
    problem: Problem
    relaxed: Relaxed
    ways: Ways
    tell_step: Callable[[str, Step], None]
    exchange: Exchange
    number: int = 0

    def __post_init__(self) -> None:
        self.follow_ons = FollowOns(self.settings, self.engine)
        self.ways = replace(self.ways, gap=0.0)
        self.draw = numpy.random.default_rng(self.number)
        self.weights = {pair: weight for weight, pair in self.problem.pool.follow_ons(self.relaxed.values)}
        self.plan = self.best = whole_of(self.problem, [])
        self.ends: list[Whole] = []  # what the last descents came to by weights alone
        self.spent: set[tuple[int, ...]] = set()  # the places of plans that descents ended at
        self.dives = 0
        self.is_proved = False

    def run(self, seconds: float) -> Whole:
        """The best plan that is found in so many seconds; the first dive is run to its end. It ends before where no plan
        can cost less, or where many leaps in a row led to none that does."""
        began = time.perf_counter()
        deadline = began + seconds
        self.long = max(LONG * seconds, LEAST)
        first = replace(FIRST[self.number % len(FIRST)], seconds=self.long)
        self.dive(first, [], math.inf, math.inf)
        self.descend(deadline, is_alone=self.number % 2 == 1)
        in_vain = 0
        while not self.is_done() and time.perf_counter() < deadline and in_vain < PATIENCE:
            if time.perf_counter() > began + ALONE * seconds:
                self.best = min([self.best, *self.hear()], key=lambda it: it.cost.all)
            before = self.best
            self.plan = self.best
            self.dive(LEAP, self.kept(self.draw.uniform(*LEAPS)), deadline, math.inf)
            self.descend(deadline)
            in_vain = in_vain + 1 if self.best is before else 0
        return self.best

    @property
    def name(self) -> str:
        """Of the dive under way, or the last one."""
        return f'dive {self.dives}' if not self.number else f'dive {self.dives}, {self.number + 1}'

    def is_done(self) -> bool:
        """Whether no plan can cost a point less, or none of the pairings that were listed."""
        return self.is_proved or self.best.cost.all - self.relaxed.cost.all < NEXT

    def descend(self, deadline: float, is_alone: bool = True) -> None:
        """Dives from parts of the plan, each from the better one that the last one came to: by weights alone, if that is
        wanted first, and then by other good plans as well. Where one integer program takes all columns that a better plan
        can have, that goes before."""
        if self.is_small():
            self.dive(Steps(core=SMALL, seconds=self.long), [], deadline, self.plan.cost.all)
        if is_alone:
            self.descend_by(self.kept, ALONE_VAIN, deadline)
        self.ends = [*self.ends, self.plan][-ENDS:]
        self.tell()
        self.descend_by(lambda part: self.kept(part, self.good_plans() if self.draw.integers(2) else []), VAIN, deadline)
        self.spent.add(self.plan.places)

    def descend_by(self, kept: Callable[[float], list[Pair]], vain: int, deadline: float) -> None:
        """Such dives, until so many in a row were in vain."""
        steps, part, in_vain = Steps(seconds=self.long), PART, 0
        while not self.is_done() and time.perf_counter() < deadline:
            if in_vain >= (AGAIN if self.plan.places in self.spent else vain):
                break
            before, began = self.plan, time.perf_counter()
            self.dive(steps, kept(part), deadline, before.cost.all)
            took = time.perf_counter() - began
            in_vain = in_vain + 1 if self.plan is before else 0
            if took > self.long:
                part *= SHRINKS
            elif in_vain and took < SHORT * self.long:
                part = min(1.0, GROWS * part)

    def is_small(self) -> bool:
        """Whether one integer program takes all columns that a better plan can have."""
        gap = self.plan.cost.all - self.relaxed.cost.all
        return numpy.count_nonzero(self.problem.pool.reduced(self.relaxed.duals) <= gap) <= SMALL

    def dive(self, steps: Steps, kept: list[Pair], deadline: float, below: float) -> None:
        """A dive from where these follow-ons are enforced, to a plan that costs less than that."""
        self.dives += 1
        dive = Dive(self.problem, self.relaxed.duals, self.engine, self.follow_ons, steps, self.ways,
                    lambda it: self.tell_step(self.name, it), deadline, below, self.draw)
        found = dive.run(kept)
        self.is_proved = dive.is_proved
        if found and found.cost.all < below:
            self.plan = found
        self.problem.take_in(dive.listed(self.best.cost.all - self.relaxed.cost.all))
        if self.plan.cost.all < self.best.cost.all:
            self.best = self.plan
            self.tell()

    def tell(self) -> None:
        """Tells others of the plan, if there is one."""
        if self.plan.places:
            self.exchange.tell(self.name, self.plan, [self.problem.pool.pairings[place] for place in self.plan.places])

    def hear(self) -> list[Whole]:
        """The plans of other searches."""
        heard = self.exchange.hear()
        for pairings in heard:
            self.problem.take_in(pairings)
        return [whole_of(self.problem, self.problem.pool.places(pairings)) for pairings in heard]

    def good_plans(self) -> list[Whole]:
        """Some good plans of this and other searches, by lot."""
        plans = {it.places: it for it in (self.best, *self.ends, *self.hear()) if it.places != self.plan.places}
        return [it for it in plans.values() if self.draw.random() < CHOSEN] or list(plans.values())

    def kept(self, part: float, plans: Sequence[Whole] = ()) -> list[Pair]:
        """The follow-ons of the plan without such a part: without those that fewest of these plans have, and of as many
        plans without those of least weight."""
        own = follow_ons_of(self.problem, self.plan)
        counts = Counter(pair for plan in plans for pair in follow_ons_of(self.problem, plan))
        spread = self.draw.uniform(*SPREADS)
        ranks = [(counts[pair], self.weights.get(pair, 0.0) + spread * self.draw.normal()) for pair in own]
        order = sorted(range(len(own)), key=lambda at: ranks[at], reverse=True)
        return [own[at] for at in order[:round((1 - part) * len(own))]]
