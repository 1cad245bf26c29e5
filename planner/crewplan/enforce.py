"""Follow-ons: 'b directly after a, or neither', on the same duty or after a rest, enforced by records of the engine."""
from __future__ import annotations

from collections.abc import Iterable, Sequence

from .engine import Engine
from .settings import Settings

Pair = tuple[int, int]


class FollowOns:
    """The follow-ons that are enforced. `after` and `before` have the flight that comes next and the one before."""

    def __init__(self, settings: Settings, engine: Engine):
        self.settings = settings
        self.engine = engine
        self.after: dict[int, int] = {}
        self.before: dict[int, int] = {}

    @property
    def pairs(self) -> list[Pair]:
        return list(self.after.items())

    def fits(self, pair: Pair) -> bool:
        """Whether neither flight is bound already."""
        return pair[0] not in self.after and pair[1] not in self.before

    def enforce(self, pairs: Iterable[Pair]) -> list[Pair]:
        """Enforces those that fit; gives those that it did."""
        done = []
        for pair in pairs:
            if self.fits(pair):
                self.after[pair[0]], self.before[pair[1]] = pair[1], pair[0]
                done.append(pair)
        self.engine.bind(done)
        return done

    def change_to(self, pairs: Sequence[Pair]) -> None:
        """Undoes those that are not of these, and enforces these."""
        wanted = set(pairs)
        self.release([pair for pair in self.pairs if pair not in wanted])
        self.enforce(pairs)

    def release(self, pairs: Iterable[Pair]) -> None:
        """Undoes follow-ons."""
        released = list(pairs)
        for first, second in released:
            del self.after[first], self.before[second]
        self.engine.unbind(released)
