"""Timetables: the zones, bases and flights that a session begins with."""
from __future__ import annotations

import csv
from collections.abc import Iterable, Iterator
from dataclasses import dataclass, field
from datetime import datetime, timezone
from os import PathLike

TIME_FORM = '%Y-%m-%dT%H:%M'


def time_text(at: datetime) -> str:
    """An instant as records have it, in UTC; one without a zone is taken to be in UTC. The engine knows whole minutes,
    so one with seconds is refused."""
    if at.tzinfo is not None:
        at = at.astimezone(timezone.utc)
    if at.second or at.microsecond:
        raise ValueError(f'{at}: the engine knows whole minutes')
    return at.strftime(TIME_FORM)


def time_of(text: str) -> datetime:
    return datetime.strptime(text, TIME_FORM).replace(tzinfo=timezone.utc)


@dataclass(frozen=True)
class Flight:
    """A flight between two airports, from one instant to another, and what it is worth in points to have it covered."""
    number: int
    origin: str
    destination: str
    departure: datetime
    arrival: datetime
    price: int = 0

    @property
    def record(self) -> str:
        return (f'flight,{self.number},{self.origin},{self.destination},{time_text(self.departure)},'
                f'{time_text(self.arrival)},{self.price}')


@dataclass
class Timetable:
    """The POSIX rule of local time of each airport that a flight leaves, the crew bases with their prices, and the
    flights by number."""
    zones: dict[str, str] = field(default_factory=dict)
    bases: dict[str, int] = field(default_factory=dict)
    flights: dict[int, Flight] = field(default_factory=dict)

    def records(self) -> Iterator[str]:
        """As a session takes them: zones before the flights that need them."""
        yield from (f'zone,{code},"{rule}"' for code, rule in self.zones.items())
        yield from (f'base,{code},{price}' for code, price in self.bases.items())
        yield from (flight.record for flight in self.flights.values())

    @classmethod
    def read(cls, path: str | PathLike[str]) -> Timetable:
        """The records `zone`, `base` and `flight` of a file of a session, up to its first record of another kind."""
        with open(path, encoding='utf-8', newline='') as file:
            return cls.of_rows(csv.reader(file))

    @classmethod
    def of_rows(cls, rows: Iterable[list[str]]) -> Timetable:
        timetable = cls()
        for row in rows:
            match row:
                case []:
                    continue
                case ['zone', code, rule]:
                    timetable.zones[code] = rule
                case ['base', code, price]:
                    timetable.bases[code] = int(price)
                case ['flight', number, origin, destination, departure, arrival, price]:
                    timetable.flights[int(number)] = Flight(int(number), origin, destination, time_of(departure),
                                                            time_of(arrival), int(price))
                case _:
                    break
        return timetable
