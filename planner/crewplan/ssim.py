"""Airline schedules in the form of IATA's SSIM, chapter 7: records of 200 bytes, of which those of type 3 are legs.

`FIELDS` says where what is read stands; planner/README.md has the same table. A leg flies on the days of its period that
have its weekday; what that leaves open is read as the README says.
"""
from __future__ import annotations

import re
from collections import Counter
from collections.abc import Iterator, Sequence
from dataclasses import dataclass, field
from datetime import date, datetime, timedelta
from zoneinfo import ZoneInfo

from .legs import AirlineLeg, ScheduleFaults, minutes
from .timetable import instant
from .zones import offset

LENGTH = 200
# Of a record of type 3: bytes from 1, both ends in, and the form of what stands there.
FIELDS = {
    'suffix': (2, 2, '[A-Z ]'), 'airline': (3, 5, '[A-Z0-9]{2}[A-Z0-9 ]'), 'number': (6, 9, ' *[0-9]+'),
    'variation': (10, 11, '[0-9 ]{2}'), 'leg': (12, 13, '[0-9]{2}'), 'service': (14, 14, '[A-Z]'),
    'first': (15, 21, '[0-9]{2}[A-Z]{3}[0-9]{2}'), 'last': (22, 28, '[0-9]{2}[A-Z]{3}[0-9]{2}'),
    'days': (29, 35, '[1 ][2 ][3 ][4 ][5 ][6 ][7 ]'), 'frequency': (36, 36, '[12 ]'),
    'origin': (37, 39, '[A-Z]{3}'), 'passenger_leaves': (40, 43, '[0-9]{4}'), 'leaves': (44, 47, '[0-9]{4}'),
    'leaves_ahead': (48, 52, '[+-][0-9]{4}'), 'destination': (55, 57, '[A-Z]{3}'), 'arrives': (58, 61, '[0-9]{4}'),
    'passenger_arrives': (62, 65, '[0-9]{4}'), 'arrives_ahead': (66, 70, '[+-][0-9]{4}'),
    'equipment': (73, 75, '[A-Z0-9 ]{3}'), 'overflow': (128, 128, '[0-9 ]'), 'cockpit': (132, 134, '[A-Z0-9 ]{3}'),
    'disclosure': (149, 149, '[A-Z0-9 ]'), 'day_leaves': (193, 193, '[0-9J ]'), 'day_arrives': (194, 194, '[0-9J ]')}
MONTHS = {name: number for number, name in
          enumerate('JAN FEB MAR APR MAY JUN JUL AUG SEP OCT NOV DEC'.split(), 1)}
OPEN_END = '00XXX00'
CODESHARE = 'LSXZ'
DUPLICATE = '050'  # the element of a type 4 record which says that a leg is another's, sold under this number
SURFACE = {'BUS', 'TRN', 'RFS', 'LMO', 'ICE', 'TGV', 'LCH', 'HOV'}
MOST_TOLD = 20


@dataclass(frozen=True)
class Wanted:
    """Which legs are taken: of days from the first to the last, of these airlines and aircraft (any where there are
    none). `codeshares` takes those too that another airline flies, and `offsets` the file's own UTC variations where an
    airport's zone contradicts them."""
    first: date
    last: date
    airlines: frozenset[str] = frozenset()
    fleet: frozenset[str] = frozenset()
    codeshares: bool = False
    offsets: bool = False


@dataclass
class Told:
    """What is told of a file beside its legs: how many legs were left out by which cause, and readings taken."""
    left_out: Counter[str] = field(default_factory=Counter)
    readings: dict[str, str] = field(default_factory=dict)


@dataclass(frozen=True)
class Record:
    """A record of type 3, by the names of its fields, with what is known of its place in the file."""
    fields: dict[str, str]
    is_utc: bool
    ends: date | None  # of the carrier's own period, for a leg without an end
    where: str
    is_duplicate: bool = False

    def __getitem__(self, name: str) -> str:
        return self.fields[name]

    @property
    def number(self) -> str:
        return self['airline'].strip() + self['number'].strip().lstrip('0').zfill(1) + self['suffix'].strip()

    @property
    def key(self) -> str:
        """What the records of types 3 and 4 of one leg have alike."""
        return ''.join(self[name] for name in ('suffix', 'airline', 'number', 'variation', 'leg', 'service'))


def read_ssim(content: bytes, name: str, wanted: Wanted, zones: dict[str, str]) -> tuple[list[AirlineLeg], Told]:
    """The legs of a file. Raises ScheduleFaults with each line that can't be read, by its number."""
    told = Told()
    records = read_records(content, name, told)
    legs: list[AirlineLeg] = []
    faults: list[str] = []
    for record in records:
        if why := left_out(record, wanted):
            told.left_out[why] += 1
            continue
        note_readings(record, told)
        flights = list(flown(record, wanted))
        faults += contradictions(flights, record, zones) if not wanted.offsets else []
        legs += flights
    if faults:
        raise ScheduleFaults(faults)
    return legs, told


def read_records(content: bytes, name: str, told: Told) -> list[Record]:
    """The records of type 3, each checked in its form."""
    records: list[Record] = []
    faults: list[str] = []
    header = Header()
    for number, raw in enumerate(content.split(b'\n'), 1):
        line, where = raw.removesuffix(b'\r').decode('latin-1'), f'{name}, line {number}'
        kind = line[:1]
        if not line.strip('0 \x1a'):
            continue
        if fault := header.take(kind, line):
            faults.append(f'{where}: {fault}')
        elif kind == '3':
            found = {field: line[start - 1:end] for field, (start, end, _) in FIELDS.items()}
            bad = [wrong_form(field, text) for field, text in found.items()]
            faults += [f'{where}: {fault}' for fault in bad if fault][:1]
            records.append(Record(found, header.is_utc, header.ends, where))
        elif kind == '4' and records and line[30:33] == DUPLICATE and line[1:14] == records[-1].key:
            records[-1] = Record(records[-1].fields, header.is_utc, header.ends, records[-1].where, is_duplicate=True)
        header.note_serial(line, where, told)
    if not records and not faults:
        faults.append(f'{name}: it has no leg (no record of type 3)')
    if faults:
        raise ScheduleFaults(faults)
    return records


@dataclass
class Header:
    """What the records of types 1, 2 and 5 say of the legs between them."""
    is_open: bool = False
    is_utc: bool = False
    ends: date | None = None
    serial: int = 0

    def take(self, kind: str, line: str) -> str:
        """What is wrong with a record; nothing where it may stand here."""
        if kind not in '12345':
            return f'a record begins with its type, 1 to 5, and not with {kind!r}'
        if len(line) != LENGTH:
            return f'a record has {LENGTH} bytes, and this has {len(line)}'
        if kind == '2':
            if line[1] not in 'LU':
                return f'byte 2 is L for local times or U for UTC, and not {line[1]!r}'
            self.is_open, self.is_utc, self.ends = True, line[1] == 'U', None
            if re.fullmatch(FIELDS['last'][2], line[21:28]) and line[21:28] != OPEN_END:
                self.ends = day_of(line[21:28])
                if self.ends is None:
                    return f'the calendar has no day {line[21:28]} (bytes 22 to 28)'
        if kind in '34' and not self.is_open:
            return 'a leg stands before any record of type 2, which says whether its times are local'
        if kind == '5':
            self.is_open = False
        return ''

    def note_serial(self, line: str, where: str, told: Told) -> None:
        serial = line[194:200]
        if serial.isdigit():
            if self.serial and int(serial) != self.serial + 1 and line[:1] != '1':
                told.readings['serial'] = (f'{where}: its serial number is {int(serial)}, after {self.serial}: lines may '
                                           'be missing')
            self.serial = int(serial)


def wrong_form(name: str, text: str) -> str:
    """What is wrong with the text of a field; nothing where it has its form."""
    start, end, form = FIELDS[name]
    place = f'byte {start}' if start == end else f'bytes {start} to {end}'
    if not re.fullmatch(form, text) and text != (OPEN_END if name == 'last' else None):
        return f'{place}, {name}: {text!r} is not of its form'
    if name in ('first', 'last') and text != OPEN_END and day_of(text) is None:
        return f'{place}, {name}: the calendar has no day {text}'
    if name in ('leaves', 'arrives') and not (int(text[:2]) < 24 and int(text[2:]) < 60 or text == '2400'):
        return f'{place}, {name}: the clock has no time {text}'
    if name.endswith('_ahead') and not (int(text[1:3]) <= 14 and int(text[3:]) < 60):
        return f'{place}, {name}: no clock is {text} from UTC'
    return ''


def day_of(text: str) -> date | None:
    """A day as 05OCT26; none where the calendar has none such."""
    try:
        return date(2000 + int(text[5:]), MONTHS[text[2:5]], int(text[:2]))
    except (KeyError, ValueError):
        return None


def left_out(record: Record, wanted: Wanted) -> str:
    """Why a leg is left out; nothing where it isn't."""
    airline, equipment, cockpit = (record[name].strip() for name in ('airline', 'equipment', 'cockpit'))
    if wanted.airlines and airline not in wanted.airlines:
        return 'of another airline'
    if not wanted.codeshares and (record['disclosure'] in CODESHARE or record.is_duplicate):
        return 'flown by another airline under this number (codeshare)'
    if equipment in SURFACE:
        return 'no aircraft'
    if cockpit and cockpit != airline:
        return 'flown by the cockpit crew of another airline'
    return 'of another fleet' if wanted.fleet and equipment not in wanted.fleet else ''


def note_readings(record: Record, told: Told) -> None:
    """Keeps the first leg of each kind for which the format leaves a reading open."""
    notes = {'frequency': (record['frequency'] == '2', 'every other week is counted in weeks of seven days from the first '
                           'day of the leg\'s period'),
             'day': (record['day_leaves'] not in '0 ', 'period and days are those of the flight at its origin, and the '
                     'date variation of the leg is added'),
             'times': ((record['leaves'], record['arrives']) != (record['passenger_leaves'], record['passenger_arrives']),
                       'the aircraft\'s times are taken, not the passengers\''),
             'end': (record['last'] == OPEN_END, 'a period without an end goes to the end of the carrier\'s period, or '
                     'to --to')}
    for name, (applies, reading) in notes.items():
        if applies:
            told.readings.setdefault(name, f'{record.where}: {reading}')


def flown(record: Record, wanted: Wanted) -> Iterator[AirlineLeg]:
    """The leg on each of its days that is wanted. A day is the flight's, and not that on which a later leg leaves."""
    first = day_of(record['first'])
    last = record.ends or wanted.last if record['last'] == OPEN_END else day_of(record['last'])
    every = 14 if record['frequency'] == '2' else 7
    for count in range((min(last, wanted.last) - first).days + 1):
        day = first + timedelta(days=count)
        if day >= wanted.first and str(day.isoweekday()) in record['days'] and count % every < 7:
            yield leg_on(record, day)


def leg_on(record: Record, day: date) -> AirlineLeg:
    leaves_ahead, arrives_ahead = ahead(record['leaves_ahead']), ahead(record['arrives_ahead'])
    leaves, arrives = (at(day, record[shift], record[time]) for shift, time in
                       (('day_leaves', 'leaves'), ('day_arrives', 'arrives')))
    if record.is_utc:
        leaves, arrives = leaves + leaves_ahead, arrives + arrives_ahead
    return AirlineLeg(record.number, day, int(record['leg']), record['origin'], record['destination'], leaves, arrives,
                      minutes(leaves, leaves_ahead), minutes(arrives, arrives_ahead), record['equipment'].strip(),
                      record.where)


def at(day: date, shift: str, time: str) -> datetime:
    """A time of a day, or of one so many days later; J is the day before."""
    days = -1 if shift == 'J' else int(shift) if shift != ' ' else 0
    return datetime(day.year, day.month, day.day) + timedelta(days=days, hours=int(time[:2]), minutes=int(time[2:]))


def ahead(text: str) -> timedelta:
    length = timedelta(hours=int(text[1:3]), minutes=int(text[3:]))
    return -length if text[0] == '-' else length


def contradictions(legs: Sequence[AirlineLeg], record: Record, zones: dict[str, str]) -> list[str]:
    """The first of a record's legs whose UTC variations its airports' zones contradict, and how many there are."""
    found = [(leg, fault) for leg in legs if (fault := contradiction(leg, record, zones))]
    if not found:
        return []
    (leg, fault), others = found[0], len(found) - 1
    more = f' (and on {others} more {"day" if others == 1 else "days"})' if others else ''
    return [f'{leg.told}: {fault}{more}; --trust-offsets takes the file\'s own']


def contradiction(leg: AirlineLeg, record: Record, zones: dict[str, str]) -> str:
    """Where a UTC variation isn't what the airport's zone has at that instant; nothing where both are, or the zone isn't
    known."""
    ends = (leg.origin, leg.departure, 'leaves_ahead'), (leg.destination, leg.arrival, 'arrives_ahead')
    for end, minute, name in ends:
        if end in zones and offset(ZoneInfo(zones[end]), instant(minute)) != ahead(record[name]):
            true = offset(ZoneInfo(zones[end]), instant(minute)) // timedelta(minutes=1)
            return (f'its UTC variation at {end} is {record[name]}, and {zones[end]} is '
                    f'{"-" if true < 0 else "+"}{abs(true) // 60:02}{abs(true) % 60:02} then')
    return ''


def told_lines(told: Told) -> Sequence[str]:
    return [f'left out: {count} {"record" if count == 1 else "records"} {why}'
            for why, count in sorted(told.left_out.items())] + [f'read so: {text}' for text in told.readings.values()]
