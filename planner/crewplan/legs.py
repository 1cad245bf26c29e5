"""An airline's legs, and the session and the table of flights that they make."""
from __future__ import annotations

import csv
import io
from collections import defaultdict
from collections.abc import Sequence
from dataclasses import dataclass
from datetime import date, datetime, timedelta

from .faults import ScheduleFault
from .timetable import Flight, Minutes, record_of
from .zones import rule_for

MOST_FLIGHTS, MOST_BASES = 5_000, 16
MOST_BLOCK = 1_440
LEAD = 24 * 60  # minutes before the first departure and after the last arrival at which clocks are read


@dataclass(frozen=True)
class AirlineLeg:
    """One leg on one day. `number` is the airline's own, as ZZ701; `day` the flight's date, which the airline gives it;
    `leg` its place in the flight, from 1. Departure and arrival are of the aircraft, local and in UTC. `where` is the
    line that it came from."""
    number: str
    day: date
    leg: int
    origin: str
    destination: str
    leaves: datetime
    arrives: datetime
    departure: Minutes
    arrival: Minutes
    equipment: str
    where: str

    @property
    def told(self) -> str:
        return f'{self.number} of {self.day} {self.origin}-{self.destination} ({self.where})'


def session_of(legs: Sequence[AirlineLeg], bases: Sequence[str], zones: dict[str, str]) -> tuple[str, str]:
    """The records of a session, with flights numbered from 1 by departure, and the table that says for each number the
    airline's own. Raises ScheduleFault where a session can't hold them."""
    ordered = sorted(legs, key=lambda leg: (leg.departure, leg.number, leg.day, leg.leg))
    check(ordered, bases, zones)
    first, last = ordered[0].departure - LEAD, max(leg.arrival for leg in ordered) + LEAD
    ends = sorted({end for leg in ordered for end in (leg.origin, leg.destination)} | set(bases))
    records = [f'zone,{code},"{rule_for(code, zones[code], first, last)}"' for code in ends]
    records += [f'base,{base},0' for base in bases]
    records += [record_of(Flight(number, leg.origin, leg.destination, leg.departure, leg.arrival))
                for number, leg in enumerate(ordered, 1)]
    return ''.join(record + '\n' for record in records), table_of(ordered)


def table_of(ordered: Sequence[AirlineLeg]) -> str:
    file = io.StringIO()
    writer = csv.writer(file, lineterminator='\n')
    writer.writerow(('id', 'flight', 'date', 'leg', 'from', 'leaves', 'to', 'arrives', 'equipment', 'source'))
    for number, leg in enumerate(ordered, 1):
        writer.writerow((number, leg.number, leg.day, leg.leg, leg.origin, f'{leg.leaves:%Y-%m-%dT%H:%M}',
                         leg.destination, f'{leg.arrives:%Y-%m-%dT%H:%M}', leg.equipment, leg.where))
    return file.getvalue()


def check(legs: Sequence[AirlineLeg], bases: Sequence[str], zones: dict[str, str]) -> None:
    if not legs:
        raise ScheduleFault('no leg is left: look at --from, --to, --airline and --fleet, and at what was left out')
    if not bases or len(bases) > MOST_BASES:
        raise ScheduleFault(f'a session has 1 to {MOST_BASES} bases, and these are {len(bases)}: name them by --base')
    if len(legs) > MOST_FLIGHTS:
        raise ScheduleFault(f'these are {len(legs)} legs, and a session holds {MOST_FLIGHTS}: take fewer days or one '
                            'fleet')
    used = {end for leg in legs for end in (leg.origin, leg.destination)}
    if idle := [base for base in bases if base not in used]:
        raise ScheduleFault(f'no leg comes to or leaves the base {idle[0]}')
    if missing := sorted(used - zones.keys()):
        raise ScheduleFault(f'no table has a zone for {", ".join(missing)}: give a table of lines CODE,ZONE by --zones')
    faults = [f'{leg.told}: {why}' for leg in legs if (why := wrong_with(leg))]
    faults += [f'{twice[0].told}: the same flight, date and leg again as {twice[1].told}; variations may not overlap'
               for twice in same(legs)]
    if faults:
        raise ScheduleFaults(faults)


def wrong_with(leg: AirlineLeg) -> str:
    block = leg.arrival - leg.departure
    if not 1 <= block <= MOST_BLOCK:
        return f'it arrives {block} minutes after it leaves, and a flight takes 1 to {MOST_BLOCK}'
    return 'it arrives where it leaves' if leg.origin == leg.destination else ''


def same(legs: Sequence[AirlineLeg]) -> list[tuple[AirlineLeg, AirlineLeg]]:
    """Each leg that is there twice, beside the first of it."""
    by_name: dict[tuple[str, date, int], list[AirlineLeg]] = defaultdict(list)
    for leg in legs:
        by_name[leg.number, leg.day, leg.leg].append(leg)
    return [(other, held[0]) for held in by_name.values() for other in held[1:]]


class ScheduleFaults(ScheduleFault):
    """Several lines that can't be taken."""

    def __init__(self, faults: Sequence[str]):
        super().__init__(faults[0])
        self.faults = list(faults)


def minutes(at: datetime, ahead: timedelta) -> Minutes:
    """The instant at which a clock that is so far ahead of UTC shows that."""
    return (at - ahead - datetime(1970, 1, 1)) // timedelta(minutes=1)
