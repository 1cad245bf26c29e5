"""Pairings, as the engine shows them."""
from __future__ import annotations

from dataclasses import dataclass
from functools import cached_property


@dataclass(frozen=True)
class Pairing:
    """A legal pairing: its base, its walk as the engine writes it, its pay in points and its minutes away. In a walk
    duties stand apart by a space and flights by `-`; a flight with a `d` after it is ridden by the crew as passengers.
    Of one base a walk has one pay and one time away."""
    base: str
    walk: str
    pay: int
    away: int

    @cached_property
    def duties(self) -> tuple[tuple[int, ...], ...]:
        """The flights of each duty, those that are ridden among them."""
        return tuple(tuple(int(leg.removesuffix('d')) for leg in duty.split('-')) for duty in self.walk.split())

    @cached_property
    def legs(self) -> tuple[int, ...]:
        """All flights in order, those that are ridden among them."""
        return tuple(number for duty in self.duties for number in duty)

    @cached_property
    def ridden(self) -> frozenset[int]:
        return frozenset(int(leg[:-1]) for leg in self.walk.replace(' ', '-').split('-') if leg.endswith('d'))

    @cached_property
    def flights(self) -> tuple[int, ...]:
        """Those that the crew flies: what the pairing covers."""
        return tuple(number for number in self.legs if number not in self.ridden) if self.ridden else self.legs
