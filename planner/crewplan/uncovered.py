"""Flights that no legal pairing flies, and why.

Which they are is asked of the engine: each flight that no pairing has shown yet has a price far above any pay, and all
else a price of 0. As long as some legal pairing flies one of them the cheapest does. So when it flies none, none can.
"""
from __future__ import annotations

from collections import defaultdict
from dataclasses import dataclass

from .engine import Engine
from .prices import Prices
from .settings import LEAST_REST, Settings
from .timetable import Flight, Timetable

PRIZE = 10_000_000  # points: 32 of them are within the engine's range, and no pairing pays so much
MOST = 2_000


@dataclass(frozen=True)
class Unreachable:
    """A flight that no legal pairing of the schedule flies, and why, in words that end a sentence."""
    number: int
    cause: str


def unreachable(timetable: Timetable, engine: Engine) -> set[int]:
    """The flights that no legal pairing flies, by a few settles."""
    left = set(timetable.flights)
    nothing = dict.fromkeys(timetable.bases, 0)
    while left:
        engine.set_prices(Prices({number: PRIZE if number in left else 0 for number in timetable.flights}, nothing))
        shown = {number for pairing, _ in engine.cheapest(MOST, 1) for number in pairing.flights} & left
        if not shown:
            break
        left -= shown
    return left


def causes(timetable: Timetable, settings: Settings, numbers: set[int]) -> list[Unreachable]:
    """Why each of these is flown by no legal pairing, as far as waits between flights tell."""
    ways_in = Ways(timetable, settings, is_in=True)
    ways_out = Ways(timetable, settings, is_in=False)
    found = []
    for number in sorted(numbers, key=lambda it: (timetable.flights[it].departure, it)):
        told = [cause for ways in (ways_in, ways_out) if (cause := ways.cause(number))]
        found.append(Unreachable(number, '; and '.join(told) or 'the limits on duty, rest and time away leave no '
                                         'pairing that comes to it and goes home from it'))
    return found


class Ways:
    """How a crew comes to flights from a base (or, where not `is_in`, goes home from them), by waits alone: as if all
    other limits were met. `open` are the flights with such a way."""

    def __init__(self, timetable: Timetable, settings: Settings, is_in: bool):
        self.timetable, self.settings, self.is_in = timetable, settings, is_in
        self.at: dict[str, list[Flight]] = defaultdict(list)
        for flight in timetable.flights.values():
            self.at[flight.destination if is_in else flight.origin].append(flight)
        self.open: set[int] = set()
        order = sorted(timetable.flights.values(), key=lambda it: it.departure if is_in else -it.arrival)
        for flight in order:
            if self.end(flight) in timetable.bases or any(it.number in self.open for it in self.beside(flight)):
                self.open.add(flight.number)

    def end(self, flight: Flight) -> str:
        return flight.origin if self.is_in else flight.destination

    def beside(self, flight: Flight) -> list[Flight]:
        """The flights before it (after it) from which (to which) a crew may go on."""
        return [it for it in self.at[self.end(flight)] if self.settings.may_follow(*self.wait(flight, it))]

    def wait(self, flight: Flight, other: Flight) -> tuple[int, int]:
        """From which arrival to which departure."""
        return (other.arrival, flight.departure) if self.is_in else (flight.arrival, other.departure)

    def cause(self, number: int) -> str:
        """Why there is no way; nothing where there is one."""
        flight = self.timetable.flights[number]
        if number in self.open:
            return ''
        airport = self.end(flight)
        if beside := self.beside(flight):
            other = min(beside, key=lambda it: abs(it.departure - flight.departure))
            return (f'a crew comes to it only off flights that no crew comes to, as {other.label}' if self.is_in else
                    f'a crew goes on from it only to flights that lead to no base, as {other.label}')
        waits = [departure - arrival for it in self.at[airport]
                 for arrival, departure in [self.wait(flight, it)] if departure >= arrival]
        if not waits:
            return (f'it begins at {airport}, which is no base, and nothing arrives there before it' if self.is_in else
                    f'it ends at {airport}, which is no base, and nothing leaves there after it')
        return f'at {airport} {self.bad_wait(min(waits))}'

    def bad_wait(self, wait: int) -> str:
        """Why a wait is neither one on duty nor a rest. It is the shortest."""
        settings, what = self.settings, 'after the last arrival' if self.is_in else 'until the next departure'
        rest = wait - settings.debrief - settings.lead
        if wait < settings.connect:
            return f'the {wait} minutes {what} are less than --connect {settings.connect}'
        if rest > settings.max_rest:
            return f'the rest {what}, of {hours(rest)}, is longer than --max-rest {settings.max_rest}'
        return (f'the {hours(wait)} {what} are more than --sit {settings.sit} and less than a rest of {LEAST_REST} '
                f'minutes wants')


def hours(minutes: float) -> str:
    return f'{int(minutes) // 60}:{int(minutes) % 60:02}'


