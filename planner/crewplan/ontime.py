"""Schedules in the form of the US Department of Transportation's on-time data: a CSV with a row for each flight flown, its
scheduled times on the clocks of its airports."""
from __future__ import annotations

import csv
import io
from collections import Counter
from datetime import date, datetime, timedelta
from zoneinfo import ZoneInfo

from .legs import AirlineLeg, ScheduleFaults, minutes
from .ssim import Told, Wanted
from .timetable import instant
from .zones import offset

# Each column by the two names that it goes by, of the files by month and of those with columns of one's choice.
COLUMNS = {'day': ('FL_DATE', 'FlightDate'), 'airline': ('OP_UNIQUE_CARRIER', 'Reporting_Airline'),
           'number': ('OP_CARRIER_FL_NUM', 'Flight_Number_Reporting_Airline'), 'origin': ('ORIGIN', 'Origin'),
           'destination': ('DEST', 'Dest'), 'leaves': ('CRS_DEP_TIME', 'CRSDepTime'),
           'arrives': ('CRS_ARR_TIME', 'CRSArrTime'), 'elapsed': ('CRS_ELAPSED_TIME', 'CRSElapsedTime')}
DAYS = ('%Y-%m-%d', '%m/%d/%Y', '%m/%d/%Y %I:%M:%S %p')


def is_ontime(content: bytes) -> bool:
    """Whether a file begins with a row of such names."""
    first = content.split(b'\n', 1)[0].decode('latin-1')
    return any(name in first for name in COLUMNS['day'])


def read_ontime(content: bytes, name: str, wanted: Wanted, zones: dict[str, str]) -> tuple[list[AirlineLeg], Told]:
    """The legs of a file. Raises ScheduleFaults with each row that can't be read, by the number of its line."""
    rows = csv.DictReader(io.StringIO(content.decode('utf-8-sig', 'replace'), newline=''))
    names = columns_of(rows.fieldnames or [], name)
    told, legs, faults = Told(), [], []
    places: Counter[tuple[str, date]] = Counter()
    for row in rows:
        where = f'{name}, line {rows.line_num}'
        values = {field: (row[column] or '').strip() for field, column in names.items()}
        try:
            day = day_of(values['day'])
            if not wanted.first <= day <= wanted.last:
                continue
            if wanted.airlines and values['airline'] not in wanted.airlines:
                told.left_out['of another airline'] += 1
                continue
            number = f'{values["airline"]}{int(float(values["number"]))}'
            places[number, day] += 1
            leg, contradiction = leg_of(values, day, number, places[number, day], where, zones)
        except (ValueError, KeyError) as fault:
            faults.append(f'{where}: {told_of(fault, zones)}')
            continue
        faults += [f'{leg.told}: {contradiction}'] if contradiction and not wanted.offsets else []
        legs.append(leg)
    if faults:
        raise ScheduleFaults(faults)
    told.readings['arrival'] = (f'{name}: an arrival is the departure and the scheduled elapsed time; its own clock time '
                                'is compared')
    return legs, told


def told_of(fault: Exception, zones: dict[str, str]) -> str:
    if isinstance(fault, KeyError):
        return f'no table has a zone for {fault.args[0]}'
    return str(fault)


def columns_of(found: list[str], name: str) -> dict[str, str]:
    columns = {field: next((column for column in names if column in found), None) for field, names in COLUMNS.items()}
    if missing := [COLUMNS[field][0] for field, column in columns.items() if column is None]:
        raise ScheduleFaults([f'{name}, line 1: the columns {", ".join(missing)} are missing'])
    return columns


def day_of(text: str) -> date:
    for form in DAYS:
        try:
            return datetime.strptime(text, form).date()
        except ValueError:
            pass
    raise ValueError(f'{text!r} is no day, as 2025-03-09')


def clock_of(text: str) -> timedelta:
    """A time as 0650; 2400 is the midnight that ends the day."""
    number = int(float(text))
    if not (number // 100 < 24 and number % 100 < 60 or number == 2400):
        raise ValueError(f'the clock has no time {text}')
    return timedelta(hours=number // 100, minutes=number % 100)


def leg_of(values: dict[str, str], day: date, number: str, place: int, where: str,
           zones: dict[str, str]) -> tuple[AirlineLeg, str]:
    """The leg of a row, and where its arrival contradicts the zones. Raises ValueError or KeyError where a value can't
    be read or an airport has no zone."""
    origin, destination = values['origin'], values['destination']
    leaves = datetime(day.year, day.month, day.day) + clock_of(values['leaves'])
    departure = minutes(leaves, leaves.replace(tzinfo=ZoneInfo(zones[origin])).utcoffset())
    arrival = departure + int(float(values['elapsed']))
    arrives = instant(arrival) + offset(ZoneInfo(zones[destination]), instant(arrival))
    shown = clock_of(values['arrives'])
    is_so = shown % timedelta(days=1) == timedelta(hours=arrives.hour, minutes=arrives.minute)
    contradiction = '' if is_so else (
        f'it arrives at {values["arrives"]}, and by its elapsed time and {zones[destination]} at {arrives:%H%M}; '
        '--trust-offsets takes the elapsed time')
    leg = AirlineLeg(number, day, place, origin, destination, leaves, arrives, departure, arrival, '', where)
    return leg, contradiction
