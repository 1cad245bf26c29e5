#!/usr/bin/python3
"""Compares Clp's masters with those of SciPy's HiGHS, on random programs that grow, are held and shrink.

After each step both have to have the same optimum, and what each says of it has to be true: values cover each row as it
should be covered, no column has a negative reduced cost under the duals but those held at 0, and duals and values come to
the same cost.
"""
from __future__ import annotations

import random
import sys
from pathlib import Path

import numpy

TESTS = Path(__file__).resolve().parent
sys.path[:0] = [str(TESTS), str(TESTS.parent)]

from crewplan import master as masters_module
from crewplan.master import ClpMaster, HighsMaster, Master, Solved, clp_library

SEED, PROGRAMS, STEPS, CLOSE = 17, 40, 12, 1e-5


class Twins:
    """Both programs, with their columns as the test knows them."""

    def __init__(self, draw: random.Random):
        self.draw = draw
        self.exact, self.bases = draw.randint(3, 12), draw.randint(0, 2)
        self.limits = [1.0] * self.exact + [float(draw.randint(1, 3)) for _ in range(self.bases)]
        self.masters: list[Master] = [ClpMaster(self.limits, self.exact), HighsMaster(self.limits, self.exact)]
        self.costs: list[float] = []
        self.rows: list[list[int]] = []
        self.held = numpy.zeros(0, bool)
        self.add([(100.0, [row]) for row in range(self.exact)])

    def add(self, columns: list[tuple[float, list[int]]]) -> None:
        for master in self.masters:
            master.add([cost for cost, _ in columns], [rows for _, rows in columns])
        self.costs += [cost for cost, _ in columns]
        self.rows += [rows for _, rows in columns]
        self.held = numpy.concatenate((self.held, numpy.zeros(len(columns), bool)))

    def change(self) -> None:
        """Adds columns, holds some at 0, or drops some, but none of the first ones, with which there is a solution."""
        kind = self.draw.choice(('add', 'add', 'add', 'hold', 'drop'))
        others = numpy.array([column >= self.exact and self.draw.random() < 0.3 for column in range(len(self.costs))])
        if kind == 'add':
            self.add([self.column() for _ in range(self.draw.randint(1, 20))])
        elif kind == 'hold':
            self.held = others
            for master in self.masters:
                master.forbid(others)
        else:
            self.costs = [cost for cost, goes in zip(self.costs, others) if not goes]
            self.rows = [rows for rows, goes in zip(self.rows, others) if not goes]
            self.held = self.held[~others]
            for master in self.masters:
                master.drop(others)

    def column(self) -> tuple[float, list[int]]:
        rows = self.draw.sample(range(self.exact), self.draw.randint(1, min(4, self.exact)))
        bases = [self.exact + self.draw.randrange(self.bases)] if self.bases else []
        return self.draw.uniform(5, 60) * len(rows), sorted(rows) + bases

    def wrong(self, solved: Solved) -> str:
        """What of an optimum isn't so."""
        matrix = numpy.zeros((len(self.limits), len(self.costs)))
        for column, rows in enumerate(self.rows):
            matrix[rows, column] = 1
        covered = matrix @ solved.values - self.limits
        reduced = numpy.array(self.costs) - matrix.T @ solved.duals
        if abs(covered[:self.exact]).max() > CLOSE or covered[self.exact:].max(initial=0) > CLOSE:
            return 'rows'
        if solved.values.min() < -CLOSE or abs(solved.values[self.held]).max(initial=0) > CLOSE:
            return 'values'
        if reduced[~self.held].min() < -CLOSE or solved.duals[self.exact:].max(initial=0) > CLOSE:
            return 'duals'
        is_same = abs(solved.duals @ self.limits - solved.objective) < CLOSE and abs(
            numpy.array(self.costs) @ solved.values - solved.objective) < CLOSE
        return '' if is_same else 'cost'


def main(_: str = '') -> int:
    if clp_library() is None:
        print('masters: left out, since Clp is not installed')
        return 0
    draw, bad, optima = random.Random(SEED), 0, 0
    for place in range(PROGRAMS):
        # On every second program an interior point method goes first wherever columns are new.
        masters_module.FEW, masters_module.MANY = (500, 0.3) if place % 2 else (0, 0.0)
        twins = Twins(draw)
        for _ in range(STEPS):
            twins.change()
            found = [master.solve() for master in twins.masters]
            optima += 1
            told = [twins.wrong(solved) for solved in found]
            if any(told) or abs(found[0].objective - found[1].objective) > CLOSE:
                bad += 1
                print(f'masters: {told} {[solved.objective for solved in found]}', file=sys.stderr)
    print(f'masters: {optima - bad} of {optima} optima are the same, and as they should be')
    return 1 if bad else 0


if __name__ == '__main__':
    sys.exit(main())
