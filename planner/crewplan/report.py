"""A plan as a planner reads it: pairings, duties and legs with their clocks and limits, totals by base and by day, and
what is not covered; as text, CSV and JSON."""
from __future__ import annotations

import csv
import io
import json
from collections.abc import Sequence
from dataclasses import asdict, dataclass
from datetime import date, datetime

from .pairing import Pairing
from .rules import duty_pay, flight_duty_limit, flight_time_limit, paid_by
from .settings import Settings
from .timetable import POINTS, Flight, Minutes, Timetable
from .uncovered import Unreachable

TIME = '%Y-%m-%dT%H:%M'


@dataclass(frozen=True)
class Leg:
    """A flight that the crew flies or rides, on the clocks of its airports."""
    flight: Flight
    name: str
    rides: bool
    leaves: datetime
    arrives: datetime


@dataclass(frozen=True)
class Duty:
    """From report to release, with the limits that the tables give it. `rest` is the time from the release of the duty
    before, if there is one; the pay is the duty's own, in points."""
    legs: tuple[Leg, ...]
    report: Minutes
    release: Minutes
    flight_time: Minutes
    flight_time_limit: Minutes
    flight_duty: Minutes
    flight_duty_limit: Minutes
    rest: Minutes | None
    pay: int

    @property
    def origin(self) -> str:
        return self.legs[0].flight.origin

    @property
    def destination(self) -> str:
        return self.legs[-1].flight.destination


@dataclass(frozen=True)
class Line:
    """A pairing of the plan: `pay` is the credit in points, `paid_by` which of the three sums it is."""
    number: int
    base: str
    duties: tuple[Duty, ...]
    block: Minutes
    pay: int
    paid_by: str
    away: Minutes

    @property
    def name(self) -> str:
        return f'{self.base} {self.number:03}'

    @property
    def report(self) -> Minutes:
        return self.duties[0].report

    @property
    def release(self) -> Minutes:
        return self.duties[-1].release


@dataclass(frozen=True)
class Figures:
    """What the plan comes to. Pays are in points. `bound` is the least pay that any plan can have that leaves as many
    flights uncovered; `relaxation` the pay of the relaxation, with parts of flights that it leaves uncovered, and
    `above_relaxation` how far the plan lies above it, as a part of its pay, uncovered flights at their penalty."""
    flights: int
    pay: float
    bound: float
    relaxation: float
    relaxation_uncovered: float
    above_relaxation: float
    is_optimal: bool

    @property
    def above(self) -> float:
        """How far the pay lies above the bound, as a part of it; 0 where both are none."""
        return self.pay / self.bound - 1 if self.bound > 0 else 0.0


@dataclass(frozen=True)
class Run:
    """What a run took: rounds of the relaxation, settles of all phases, columns of the master problem and pairings of the
    pool, solves of the master problem, and seconds. Those of masters and pool are of a processor; the engine's are by the
    clock, and of all processors that it used."""
    solver: str
    rounds: int
    settles: int
    dives: int
    columns: int
    pool: int
    masters: int
    master_processor_seconds: float
    engine_seconds: float
    engine_processor_seconds: float
    relaxation_seconds: float
    seconds: float


@dataclass(frozen=True)
class Report:
    """`by_choice` are flights that some legal pairing flies and the plan doesn't: what they cost elsewhere is more."""
    timetable: Timetable
    lines: tuple[Line, ...]
    by_choice: tuple[Flight, ...]
    unreachable: tuple[Unreachable, ...]
    figures: Figures
    run: Run


def report_of(timetable: Timetable, settings: Settings, pairings: Sequence[Pairing], by_choice: Sequence[int],
              unreachable: Sequence[Unreachable], figures: Figures, run: Run) -> Report:
    def begins(pairing: Pairing) -> tuple[str, int, str]:
        return pairing.base, timetable.flights[pairing.legs[0]].departure, pairing.walk

    lines = tuple(line_of(timetable, settings, number, pairing)
                  for number, pairing in enumerate(sorted(pairings, key=begins), 1))
    left = sorted((timetable.flights[number] for number in by_choice), key=lambda it: (it.departure, it.number))
    return Report(timetable, lines, tuple(left), tuple(unreachable), figures, run)


def line_of(timetable: Timetable, settings: Settings, number: int, pairing: Pairing) -> Line:
    duties: list[Duty] = []
    for numbers in pairing.duties:
        duties.append(duty_of(timetable, settings, numbers, pairing.ridden, duties[-1].release if duties else None))
    away = duties[-1].release - duties[0].report
    pay, by = paid_by(sum(duty.pay for duty in duties), len(duties), away, settings)
    if (pay, away) != (pairing.pay, pairing.away):
        raise ValueError(f'the engine says that {pairing.base} {pairing.walk} pays {pairing.pay} and is away '
                         f'{pairing.away} minutes, and by the rules it is {pay} and {away}')
    return Line(number, pairing.base, tuple(duties), sum(duty.flight_time for duty in duties), pay, by, away)


def duty_of(timetable: Timetable, settings: Settings, numbers: Sequence[int], ridden: frozenset[int],
            before: Minutes | None) -> Duty:
    legs = tuple(leg_of(timetable, timetable.flights[number], number in ridden) for number in numbers)
    first, last = legs[0].flight, legs[-1].flight
    report, release = first.departure - settings.lead, last.arrival + settings.debrief
    at_report = timetable.local(first.origin, report)
    clock = 60 * at_report.hour + at_report.minute
    flight_time = sum(leg.flight.block for leg in legs if not leg.rides)
    segments = sum(not leg.rides for leg in legs)
    return Duty(legs, report, release, flight_time, flight_time_limit(clock), last.arrival - report,
                flight_duty_limit(clock, segments), None if before is None else report - before,
                duty_pay(flight_time, release - report, settings))


def leg_of(timetable: Timetable, flight: Flight, rides: bool) -> Leg:
    return Leg(flight, flight.label, rides, timetable.local(flight.origin, flight.departure),
               timetable.local(flight.destination, flight.arrival))


def clock(minutes: float) -> str:
    """Minutes as hours and minutes."""
    return f'{int(minutes) // 60}:{int(minutes) % 60:02}'


def hours(points: float) -> str:
    """Points as hours and minutes of pay."""
    return clock(points / POINTS)


@dataclass(frozen=True)
class Total:
    """Of some pairings, or of the duties that report on one day."""
    pairings: int
    duties: int
    block: Minutes
    pay: int
    flight_duty: Minutes
    away: Minutes

    @property
    def credit(self) -> float:
        """Pay in minutes for each minute of flight; 0 where there is none."""
        return self.pay / POINTS / self.block if self.block else 0.0


def total_of(lines: Sequence[Line]) -> Total:
    duties = [duty for line in lines for duty in line.duties]
    return Total(len(lines), len(duties), sum(line.block for line in lines), sum(line.pay for line in lines),
                 sum(duty.flight_duty for duty in duties), sum(line.away for line in lines))


def by_base(report: Report) -> dict[str, Total]:
    return {base: total_of([line for line in report.lines if line.base == base])
            for base in sorted(report.timetable.bases)}


@dataclass(frozen=True)
class Day:
    """A base's duties that report on one day of its clock: how many, how many pairings begin, and their minutes."""
    duties: int
    begins: int
    block: Minutes
    flight_duty: Minutes


def by_day(report: Report) -> dict[tuple[str, date], Day]:
    found: dict[tuple[str, date], Day] = {}
    for line in report.lines:
        for place, duty in enumerate(line.duties):
            key = line.base, report.timetable.local(line.base, duty.report).date()
            held = found.get(key, Day(0, 0, 0, 0))
            found[key] = Day(held.duties + 1, held.begins + (place == 0), held.block + duty.flight_time,
                             held.flight_duty + duty.flight_duty)
    return dict(sorted(found.items()))


def csv_of(report: Report) -> str:
    """A row a leg. Report and release stand on the base's clock and on that of the airport; flights on the clocks of
    their airports; lengths as hours and minutes."""
    names = ('pairing', 'base', 'duty', 'report_at', 'report_base_clock', 'report_airport_clock', 'release_at',
             'release_base_clock', 'release_airport_clock', 'flight_time', 'flight_time_limit', 'flight_duty_period',
             'flight_duty_period_limit', 'rest_after', 'leg', 'flight', 'session_flight', 'role', 'from', 'leaves',
             'to', 'arrives', 'block', 'pairing_pay', 'pairing_pay_by', 'pairing_block', 'pairing_away')
    file = io.StringIO()
    writer = csv.writer(file, lineterminator='\n')
    writer.writerow(names)
    for line in report.lines:
        for place, duty in enumerate(line.duties, 1):
            writer.writerows(leg_row(report.timetable, line, place, duty, at, leg)
                             for at, leg in enumerate(duty.legs, 1))
    return file.getvalue()


def leg_row(timetable: Timetable, line: Line, place: int, duty: Duty, at: int, leg: Leg) -> tuple:
    return (line.name, line.base, place, duty.origin, f'{timetable.local(line.base, duty.report):{TIME}}',
            f'{timetable.local(duty.origin, duty.report):{TIME}}', duty.destination,
            f'{timetable.local(line.base, duty.release):{TIME}}',
            f'{timetable.local(duty.destination, duty.release):{TIME}}', clock(duty.flight_time),
            clock(duty.flight_time_limit), clock(duty.flight_duty), clock(duty.flight_duty_limit),
            rest_after(line, place), at, leg.name, leg.flight.number, 'rides' if leg.rides else 'flies',
            leg.flight.origin, f'{leg.leaves:{TIME}}', leg.flight.destination, f'{leg.arrives:{TIME}}',
            clock(leg.flight.block), hours(line.pay), line.paid_by, clock(line.block), clock(line.away))


def rest_after(line: Line, place: int) -> str:
    """The rest after a duty, by its place from 1; nothing after the last."""
    return clock(line.duties[place].rest) if place < len(line.duties) else ''


def json_of(report: Report) -> str:
    """All of it. Pay is in points (14 a paid minute), lengths in minutes, times in UTC and on the clocks that their names
    tell."""
    timetable = report.timetable
    days = [{'base': base, 'day': f'{day}', **asdict(total)} for (base, day), total in by_day(report).items()]
    return json.dumps({
        'figures': asdict(report.figures) | {'above': report.figures.above, 'uncovered_by_choice': len(report.by_choice),
                                             'unreachable': len(report.unreachable)}, 'run': asdict(report.run),
        'pairings': [pairing_object(timetable, line) for line in report.lines],
        'by_base': {base: asdict(total) for base, total in by_base(report).items()}, 'by_day': days,
        'uncovered_by_choice': [flight_object(timetable, flight) for flight in report.by_choice],
        'unreachable': [flight_object(timetable, timetable.flights[it.number]) | {'cause': it.cause}
                        for it in report.unreachable]}, indent=1) + '\n'


def utc(minute: Minutes) -> str:
    return f'{datetime(1970, 1, 1) + minute * (datetime(1970, 1, 1, 0, 1) - datetime(1970, 1, 1)):{TIME}}Z'


def flight_object(timetable: Timetable, flight: Flight) -> dict:
    return {'flight': flight.label, 'session_flight': flight.number, 'from': flight.origin, 'to': flight.destination,
            'leaves': utc(flight.departure), 'arrives': utc(flight.arrival),
            'leaves_local': f'{timetable.local(flight.origin, flight.departure):{TIME}}',
            'arrives_local': f'{timetable.local(flight.destination, flight.arrival):{TIME}}', 'block': flight.block}


def pairing_object(timetable: Timetable, line: Line) -> dict:
    return {'pairing': line.name, 'base': line.base, 'pay': line.pay, 'paid_by': line.paid_by, 'block': line.block,
            'away': line.away, 'duties': [duty_object(timetable, line, place, duty)
                                          for place, duty in enumerate(line.duties, 1)]}


def duty_object(timetable: Timetable, line: Line, place: int, duty: Duty) -> dict:
    return {'report': utc(duty.report), 'release': utc(duty.release),
            'report_base_clock': f'{timetable.local(line.base, duty.report):{TIME}}',
            'report_airport_clock': f'{timetable.local(duty.origin, duty.report):{TIME}}',
            'release_base_clock': f'{timetable.local(line.base, duty.release):{TIME}}',
            'release_airport_clock': f'{timetable.local(duty.destination, duty.release):{TIME}}',
            'flight_time': duty.flight_time, 'flight_time_limit': duty.flight_time_limit,
            'flight_duty_period': duty.flight_duty, 'flight_duty_period_limit': duty.flight_duty_limit,
            'rest_after': line.duties[place].rest if place < len(line.duties) else None, 'pay': duty.pay,
            'legs': [flight_object(timetable, leg.flight) | {'role': 'rides' if leg.rides else 'flies'}
                     for leg in duty.legs]}


def text_of(report: Report) -> str:
    """Pairings by base and first report, on the clocks of the airports, and what is not covered."""
    parts = [pairing_text(line) for line in report.lines]
    if report.by_choice:
        parts.append('left uncovered by choice: ' + ', '.join(flight.label for flight in report.by_choice) + '\n')
    if report.unreachable:
        parts.append('no legal pairing flies\n' + ''.join(
            f'  {report.timetable.flights[it.number].label}: {it.cause}\n' for it in report.unreachable))
    return '\n'.join(parts)


def pairing_text(line: Line) -> str:
    duties = len(line.duties)
    lines = [f'pairing {line.name}: {duties} {"duty" if duties == 1 else "duties"}, pay {hours(line.pay)} by '
             f'{line.paid_by}, away {clock(line.away)}']
    for duty in line.duties:
        legs = [f'{leg.name:>8}  {leg.flight.origin} {leg.leaves:%a %d %H:%M}  {leg.flight.destination} '
                f'{leg.arrives:%a %d %H:%M}' + ('  rides' if leg.rides else '') for leg in duty.legs]
        lines.append('   duty ' + '\n        '.join(legs))
    return '\n'.join(lines) + '\n'
