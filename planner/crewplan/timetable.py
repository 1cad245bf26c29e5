"""Schedules as the engine takes them: the records of a session up to its first settle."""
from __future__ import annotations

import csv
import io
import struct
from collections.abc import Iterator
from dataclasses import dataclass, field
from datetime import datetime, timedelta, timezone
from functools import lru_cache
from pathlib import Path
from zoneinfo import ZoneInfo

from .faults import ScheduleFault, UnreadFault

Minutes = int  # after 1970-01-01T00:00 UTC, or a length of time
POINTS = 14  # a paid minute
TIME_FORM = '%Y-%m-%dT%H:%M'


@dataclass(frozen=True)
class Flight:
    """`name` is the airline's own number with the date, where there is one."""
    number: int
    origin: str
    destination: str
    departure: Minutes
    arrival: Minutes
    name: str = ''

    @property
    def block(self) -> Minutes:
        return self.arrival - self.departure

    @property
    def label(self) -> str:
        return self.name or str(self.number)


@dataclass
class Timetable:
    """The POSIX rule of local time of each airport, the crew bases, and the flights by number."""
    rules: dict[str, str] = field(default_factory=dict)
    bases: list[str] = field(default_factory=list)
    flights: dict[int, Flight] = field(default_factory=dict)

    def local(self, airport: str, minute: Minutes) -> datetime:
        """An instant on the clock of an airport, or in UTC where it has no zone."""
        rule = self.rules.get(airport)
        at = datetime.fromtimestamp(60 * minute, timezone.utc)
        return (at if rule is None else at.astimezone(zone_of(rule))).replace(tzinfo=None)

    def without(self, numbers: set[int]) -> Timetable:
        """The same without some flights."""
        return Timetable(self.rules, self.bases, {number: flight for number, flight in self.flights.items()
                                                  if number not in numbers})


@lru_cache
def zone_of(rule: str) -> ZoneInfo:
    """The clock of a POSIX rule: a zone's file that has no changes but those of the rule at its end."""
    header = b'TZif2' + bytes(15) + struct.pack('>6l', 0, 0, 0, 0, 1, 4)
    nothing = struct.pack('>lbb', 0, 0, 0) + b'LMT\0'
    return ZoneInfo.from_file(io.BytesIO(2 * (header + nothing) + b'\n' + rule.encode() + b'\n'), key=rule)


def instant(minute: Minutes) -> datetime:
    return datetime(1970, 1, 1) + timedelta(minutes=minute)


def minutes_of(text: str) -> Minutes:
    return (datetime.strptime(text, TIME_FORM) - datetime(1970, 1, 1)) // timedelta(minutes=1)


def record_of(flight: Flight, price: int = 0) -> str:
    """The record that gives a flight to the engine."""
    times = (instant(minute).strftime(TIME_FORM) for minute in (flight.departure, flight.arrival))
    return f'flight,{flight.number},{flight.origin},{flight.destination},{",".join(times)},{price}'


def read(path: Path) -> Timetable:
    """The schedule of a session's file, with the airline's own numbers where a table of flights lies beside it. Raises
    ScheduleFault where the file can't be read, or has no base or no flight."""
    try:
        text = path.read_text(encoding='utf-8-sig')
    except OSError as fault:
        raise UnreadFault(f'{path}: {fault.strerror}: name a schedule as planner/ssim writes it') from None
    except UnicodeError:
        raise ScheduleFault(f'{path}: it is not text') from None
    timetable = read_text(text, str(path))
    if not timetable.bases or not timetable.flights:
        wanting = 'base' if not timetable.bases else 'flight'
        raise ScheduleFault(f'{path}: there is no {wanting}; a schedule has a base and a flight at least')
    for number, name in read_names(names_beside(path)):
        if flight := timetable.flights.get(number):
            timetable.flights[number] = Flight(flight.number, flight.origin, flight.destination, flight.departure,
                                               flight.arrival, name)
    return timetable


def read_text(text: str, where: str = 'schedule') -> Timetable:
    """The zones, bases and flights of a session's records up to its first settle. Prices in it don't matter."""
    timetable = Timetable()
    for place, record in enumerate((it for it in csv.reader(text.splitlines()) if it), 1):
        match record:
            case ['settle', *_]:
                break
            case ['zone', code, rule]:
                timetable.rules[code] = rule
            case ['base', code, _]:
                timetable.bases.append(code)
            case ['flight', *fields]:
                flight = flight_of(fields, f'{where}, record {place}')
                if flight.number in timetable.flights:
                    raise ScheduleFault(f'{where}, record {place}: flight {flight.number} is there already')
                if flight.origin not in timetable.rules:
                    raise ScheduleFault(f'{where}, record {place}: {flight.origin} has no zone before it')
                timetable.flights[flight.number] = flight
            case _:
                raise ScheduleFault(f'{where}, record {place}: a schedule has the records zone, base and flight, '
                                    f'and not {",".join(record)[:40]!r}')
    return timetable


def flight_of(fields: list[str], where: str) -> Flight:
    try:
        number, origin, destination, departure, arrival, _ = fields
        return Flight(int(number), origin, destination, minutes_of(departure), minutes_of(arrival))
    except ValueError:
        raise ScheduleFault(f'{where}: a flight is flight,ID,FROM,TO,DEPARTURE,ARRIVAL,PRICE with times as '
                            f'2026-06-09T12:00 in UTC') from None


def names_beside(path: Path) -> Path:
    """Where the table of the airline's own numbers lies: beside the session, under its name with `.flights.csv`."""
    return path.with_name(path.name.removesuffix('.session') + '.flights.csv')


def read_names(path: Path) -> Iterator[tuple[int, str]]:
    """Each number of a session with the airline's own, of a table of flights; nothing where there is no table."""
    if not path.is_file():
        return
    with path.open(newline='', encoding='utf-8') as file:
        for row in csv.DictReader(file):
            try:
                number = int(row['id'])
                name = row['flight']
            except (KeyError, TypeError, ValueError):
                raise ScheduleFault(f'{path}: a table of flights has the columns id and flight') from None
            yield number, name
