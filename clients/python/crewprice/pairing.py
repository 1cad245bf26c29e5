"""Pairings and entries of fronts, as the engine shows them."""
from __future__ import annotations

from dataclasses import dataclass
from functools import cached_property
from typing import NamedTuple

from .faults import NotUnderstood

NUMBERS = (7, 8)  # of a vector


class Leg(NamedTuple):
    """A flight, by its number, that the crew flies, or rides as passengers."""
    flight: int
    deadhead: bool = False

    def __str__(self) -> str:
        return f'{self.flight}d' if self.deadhead else str(self.flight)


Duty = tuple[Leg, ...]


def duty_text(duty: Duty) -> str:
    """A duty as records and lines have it: `101d-102`."""
    return '-'.join(map(str, duty))


def duties_of(walk: str) -> tuple[Duty, ...]:
    """The duties of a walk: they stand apart by a space, legs by `-`, and a leg that the crew rides has a `d`."""
    return tuple(tuple(Leg(int(leg.removesuffix('d')), leg.endswith('d')) for leg in duty.split('-'))
                 for duty in walk.split(' '))


@dataclass(frozen=True)
class Pairing:
    """A legal pairing: its base, its duties, its cost and its pay in points, its minutes from the first report to the
    last release. The cost is the pay less the prices of the flights flown and of the base: the reduced cost of a
    column, where prices are duals."""
    base: str
    walk: str
    cost: int
    pay: int
    away: int

    @cached_property
    def duties(self) -> tuple[Duty, ...]:
        return duties_of(self.walk)

    @cached_property
    def flights(self) -> tuple[int, ...]:
        """The flights that the crew flies, in order: the rows that the column covers."""
        return tuple(leg.flight for duty in self.duties for leg in duty if not leg.deadhead)

    @classmethod
    def of_words(cls, base: str, words: str) -> Pairing:
        """From `cost C pay P away A WALK`."""
        try:
            one, cost, two, pay, three, away, walk = words.split(' ', 6)
            if (one, two, three) != ('cost', 'pay', 'away'):
                raise ValueError
            return cls(base, walk, int(cost), int(pay), int(away))
        except ValueError:
            raise NotUnderstood(f'no pairing: {words!r}') from None


@dataclass(frozen=True)
class Entry:
    """A partial pairing of a front: its vector of seven numbers, of eight where pairings may have more than 138 hours
    away, and its duties."""
    vector: tuple[int, ...]
    walk: str

    @cached_property
    def duties(self) -> tuple[Duty, ...]:
        return duties_of(self.walk)

    @property
    def cost(self) -> int:
        return max(self.vector[:3])

    @classmethod
    def of_words(cls, words: str) -> Entry:
        """From `V1 .. Vn WALK`. How many numbers there are is told by the sixth, the duties of the walk."""
        found = words.split(' ')
        try:
            numbers = len(found) - int(found[5])
            if numbers not in NUMBERS:
                raise ValueError
            return cls(tuple(map(int, found[:numbers])), ' '.join(found[numbers:]))
        except (ValueError, IndexError):
            raise NotUnderstood(f'no entry: {words!r}') from None
