"""Prices of flights and bases, in points: duals of the master problem, or what the engine is given."""
from __future__ import annotations

from collections.abc import Callable
from dataclasses import dataclass

from .pairing import Pairing


@dataclass(frozen=True)
class Prices:
    flights: dict[int, float]
    bases: dict[str, float]

    def reduced(self, pairing: Pairing) -> float:
        """The pairing's pay less the prices of what it covers."""
        return pairing.pay - sum(self.flights[number] for number in pairing.flights) - self.bases[pairing.base]

    def each(self, change: Callable[[float], float]) -> Prices:
        return Prices({number: change(price) for number, price in self.flights.items()},
                      {base: change(price) for base, price in self.bases.items()})
