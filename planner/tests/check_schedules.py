#!/usr/bin/python3
"""Checks the readers of schedules against files written by hand, field by field, and the table of airports.

The records are put together here byte by byte, from the format's positions; what has to come of them was worked out by
hand. Bad lines have to be refused by their numbers, with nothing written.
"""
from __future__ import annotations

import contextlib
import io
import re
import sys
import tempfile
from datetime import date
from pathlib import Path

TESTS = Path(__file__).resolve().parent
sys.path[:0] = [str(TESTS), str(TESTS.parent)]

from crewplan.faults import ScheduleFault
from crewplan.legs import AirlineLeg, ScheduleFaults
from crewplan.schedule_in import main as ssim_main
from crewplan.ssim import Wanted, read_ssim, told_lines
from crewplan.zones import TABLE_OF_STATES, rule_for, rule_of, zones_of

ZONES = {'BOS': 'America/New_York', 'ORD': 'America/Chicago', 'DEN': 'America/Denver', 'PHX': 'America/Phoenix'}
WEEK = Wanted(date(2026, 10, 5), date(2026, 10, 11))
faults = 0


def check(what: str, found: object, wanted: object) -> None:
    global faults
    if found != wanted:
        faults += 1
        print(f'{what}: found {found!r}, and {wanted!r} is right', file=sys.stderr)


def put(*parts: tuple[int, str]) -> str:
    """A record of 200 bytes with each text at its place, the first byte being 1."""
    record = [' '] * 200
    for place, text in parts:
        record[place - 1:place - 1 + len(text)] = text
    assert len(record) == 200, parts
    return ''.join(record)


# BOS 17:45 to DEN 20:10 of flight ZZ 701, daily from 5 to 11 October 2026, first leg of its first variation.
LEG = ((1, '3'), (3, 'ZZ '), (6, ' 701'), (10, '01'), (12, '01'), (14, 'J'), (15, '05OCT26'), (22, '11OCT26'),
       (29, '1234567'), (37, 'BOS'), (40, '1740'), (44, '1745'), (48, '-0400'), (55, 'DEN'), (58, '2010'), (62, '2015'),
       (66, '-0600'), (73, '739'), (193, '00'), (195, '000003'))
ONE = put((1, '1AIRLINE STANDARD SCHEDULE DATA SET'), (195, '000001'))
TWO = put((1, '2L'), (3, 'ZZ '), (15, '05OCT26'), (22, '31DEC26'), (195, '000002'))
FIVE = put((1, '5 ZZ '), (189, '000003'), (195, '000004'))


def leg(*other: tuple[int, str]) -> str:
    return put(*LEG, *other)


def read(*legs: str, wanted: Wanted = WEEK, two: str = TWO) -> list[AirlineLeg]:
    content = ''.join(line + '\n' for line in (ONE, two, *legs, FIVE)).encode()
    return read_ssim(content, 'x', wanted, ZONES)[0]


def refused(*legs: str, wanted: Wanted = WEEK) -> list[str]:
    try:
        read(*legs, wanted=wanted)
    except ScheduleFaults as fault:
        return fault.faults
    return []


def day(number: int, month: int = 10) -> date:
    return date(2026, month, number)


def check_fields() -> None:
    found = read(leg())
    check('days of a week', [it.day for it in found], [day(number) for number in range(5, 12)])
    first = found[0]
    check('number', first.number, 'ZZ701')
    check('leg', first.leg, 1)
    check('stations', (first.origin, first.destination), ('BOS', 'DEN'))
    check('the aircraft\'s times', (f'{first.leaves:%d %H:%M}', f'{first.arrives:%d %H:%M}'), ('05 17:45', '05 20:10'))
    # 17:45 at four hours behind UTC is 21:45, and 20:10 at six 02:10 of the next day: 265 minutes.
    check('block', first.arrival - first.departure, 265)
    check('departure in UTC', first.departure % 1440, 21 * 60 + 45)
    check('equipment', first.equipment, '739')
    check('suffix', read(leg((2, 'A')))[0].number, 'ZZ701A')
    check('a number of four digits', read(leg((6, '0017')))[0].number, 'ZZ17')
    check('airline of three characters', read(leg((3, 'ZZZ')))[0].number, 'ZZZ701')
    check('second leg', read(leg((12, '02')))[0].leg, 2)


def check_days() -> None:
    check('Tuesday and Sunday', [it.day for it in read(leg((29, ' 2    7')))], [day(6), day(11)])
    check('a part of the period', [it.day for it in read(leg(), wanted=Wanted(day(7), day(8)))], [day(7), day(8)])
    check('a period before', read(leg((15, '01SEP26'), (22, '04OCT26'))), [])
    october = Wanted(day(1), day(31))
    weeks = read(leg((15, '07OCT26'), (22, '31OCT26'), (29, '12 4   '), (36, '2')), wanted=october)
    # Weeks count from Wednesday the 7th: 7 to 13 and 21 to 27 fly, so Thursday 8, Monday 12, Tuesday 13 and so on.
    check('every other week', [it.day.day for it in weeks], [8, 12, 13, 22, 26, 27])
    end = read(leg((22, '00XXX00')), two=put((1, '2L'), (3, 'ZZ '), (15, '05OCT26'), (22, '07OCT26')))
    check('a period without an end', [it.day for it in end], [day(5), day(6), day(7)])
    red_eye = read(leg((37, 'PHX'), (44, '2340'), (48, '-0700'), (55, 'BOS'), (58, '0715'), (66, '-0400'), (193, '01')))
    check('arrival of the next day', f'{red_eye[0].arrives:%d %H:%M}', '06 07:15')
    check('its block', red_eye[0].arrival - red_eye[0].departure, 275)
    late = read(leg((12, '02'), (193, '11'), (44, '0030'), (58, '0255'), (29, '1      ')))
    check('a later leg after midnight', (late[0].day, f'{late[0].leaves:%d %H:%M}'), (day(5), '06 00:30'))
    before = read(leg((44, '2330'), (58, '0200'), (193, 'J0'), (29, '1      ')))
    check('departure of the day before', f'{before[0].leaves:%d %H:%M}', '04 23:30')
    midnight = read(leg((58, '2400'), (29, '1      ')))
    check('24:00', f'{midnight[0].arrives:%d %H:%M}', '06 00:00')
    utc = read(leg((44, '2145'), (58, '0210'), (193, '01')), two=put((1, '2U'), (3, 'ZZ '), (15, '05OCT26'), (22, '31DEC26')))
    check('times in UTC', (utc[0].departure, f'{utc[0].leaves:%H:%M}'), (read(leg())[0].departure, '17:45'))


def check_left_out() -> None:
    four = put((1, '4 ZZ  7010101J'), (31, '050'), (34, 'BOSDEN'), (40, 'YY 1234'))
    check('a codeshare by byte 149', read(leg((149, 'L'))), [])
    check('a codeshare by element 050', read(leg(), four), [])
    check('element 010 of a leg of one\'s own', len(read(leg(), four.replace('050', '010'))), 7)
    taken = Wanted(WEEK.first, WEEK.last, codeshares=True)
    check('codeshares where they are wanted', len(read(leg((149, 'L')), wanted=taken)), 7)
    check('a bus', read(leg((73, 'BUS'))), [])
    check('the crew of another airline', read(leg((132, 'YY '))), [])
    check('the airline\'s own crew', len(read(leg((132, 'ZZ ')))), 7)
    check('another fleet', read(leg(), wanted=Wanted(WEEK.first, WEEK.last, fleet=frozenset({'738'}))), [])
    check('another airline', read(leg(), wanted=Wanted(WEEK.first, WEEK.last, airlines=frozenset({'YY'}))), [])
    _, told = read_ssim('\n'.join((ONE, TWO, leg((149, 'L')), leg(), FIVE)).encode(), 'x', WEEK, ZONES)
    check('what is told', [line for line in told_lines(told) if 'codeshare' in line],
          ['left out: 1 record flown by another airline under this number (codeshare)'])


def check_refused() -> None:
    places = {'[x, line 3: bytes 15 to 21, first: ': leg((15, '31SEP26')), '[x, line 3: bytes 29 to 35, days: ': leg((29, '2134567')),
              '[x, line 3: bytes 37 to 39, origin: ': leg((37, 'B0S')), '[x, line 3: bytes 44 to 47, leaves: ': leg((44, '1760')),
              '[x, line 3: bytes 48 to 52, leaves_ahead: ': leg((48, ' 0400')), '[x, line 3: byte 36, frequency: ': leg((36, '3')),
              '[x, line 3: bytes 6 to 9, number: ': leg((6, '7 01')), '[x, line 3: byte 194, day_arrives: ': leg((194, 'K')),
              '[x, line 3: a record has 200 bytes': leg()[:199], '[x, line 3: a record begins with its type': '9' + leg()[1:]}
    for wanted, line in places.items():
        found = refused(line)
        check(f'a bad line, {wanted[1:]}', (len(found), f'[{found}'[0:1] + (found or [''])[0][:len(wanted) - 1]), (1, wanted))
    two = refused(leg((44, '2500')), leg(), leg((66, '+0A00')))
    check('two bad lines', [line.split(':')[0] for line in two], ['x, line 3', 'x, line 5'])
    summer = refused(leg((48, '-0500')))
    check('a variation that the zone contradicts', (len(summer), 'America/New_York is -0400 then' in summer[0]), (1, True))
    trusted = Wanted(WEEK.first, WEEK.last, offsets=True)
    # Taken as five hours behind, it leaves an hour later, and arrives 205 minutes after that.
    check('.. where it is trusted', read(leg((48, '-0500')), wanted=trusted)[0].arrival
          - read(leg((48, '-0500')), wanted=trusted)[0].departure, 205)
    autumn = refused(leg((22, '08NOV26')), wanted=Wanted(day(5), day(8, 11)))
    check('a period over the change of clocks', (len(autumn), 'of 2026-11-01' in autumn[0], '7 more days' in autumn[0]), (1, True, True))


def run(*words: str) -> tuple[int, str]:
    told = io.StringIO()
    with contextlib.redirect_stderr(told), contextlib.redirect_stdout(io.StringIO()):
        status = ssim_main(list(words))
    return status, told.getvalue()


def check_command() -> None:
    with tempfile.TemporaryDirectory() as room:
        source, target = Path(room, 'x.ssim'), Path(room, 'x.session')
        words = (str(source), '--from', '2026-10-05', '--to', '2026-10-05', '--base', 'BOS', '-o', str(target))
        back = leg((12, '02'), (37, 'DEN'), (44, '2100'), (48, '-0600'), (55, 'BOS'), (58, '0240'), (66, '-0400'), (193, '01'))
        source.write_text('\n'.join((ONE, TWO, back, leg(), FIVE)))
        check('status', run(*words)[0], 0)
        check('the session', target.read_text(), 'zone,BOS,"EST5EDT,M3.2.0,M11.1.0"\nzone,DEN,"MST7MDT,M3.2.0,M11.1.0"\n'
              'base,BOS,0\nflight,1,BOS,DEN,2026-10-05T21:45,2026-10-06T02:10,0\n'
              'flight,2,DEN,BOS,2026-10-06T03:00,2026-10-06T06:40,0\n')
        check('the table', Path(room, 'x.flights.csv').read_text().splitlines()[1:],
              ['1,ZZ701,2026-10-05,1,BOS,2026-10-05T17:45,DEN,2026-10-05T20:10,739,"x.ssim, line 4"',
               '2,ZZ701,2026-10-05,2,DEN,2026-10-05T21:00,BOS,2026-10-06T02:40,739,"x.ssim, line 3"'])
        for path in Path(room).glob('x.session*'):
            path.unlink()
        Path(room, 'x.flights.csv').unlink()
        source.write_text('\n'.join((ONE, TWO, leg((10, '02')), leg(), FIVE)))
        status, told = run(*words)
        check('overlapping variations', (status, told.count('\n'), 'line 3' in told and 'line 4' in told and 'ZZ701' in told), (1, 1, True))
        source.write_text('\n'.join((ONE, TWO, leg((44, '9999')), leg((37, '   ')), FIVE)))
        status, told = run(*words)
        check('two bad lines', (status, re.findall('line [0-9]+', told)), (1, ['line 3', 'line 4']))
        source.write_text('\n'.join((ONE, TWO, leg((55, 'QQQ')), FIVE)))
        check('an airport without a zone', (run(*words)[0], 'QQQ' in run(*words)[1]), (1, True))
        check('nothing written', sorted(path.name for path in Path(room).iterdir()), ['x.ssim'])
        check('no file', run('/nowhere', *words[1:])[0], 70)


ONTIME = '''FL_DATE,OP_UNIQUE_CARRIER,TAIL_NUM,OP_CARRIER_FL_NUM,ORIGIN,DEST,CRS_DEP_TIME,CRS_ARR_TIME,CRS_ELAPSED_TIME,CANCELLED
2025-03-09,ZZ,N1,11,BOS,ORD,0800,0950,170.00,0.00
2025-03-09,ZZ,N2,13,BOS,DEN,2359,0250,291.00,0.00
3/8/2025 12:00:00 AM,ZZ,N2,14,DEN,BOS,2400,0630,210.00,0.00
'''


def check_ontime() -> None:
    with tempfile.TemporaryDirectory() as room:
        source, target = Path(room, 'x.csv'), Path(room, 'x.session')
        words = (str(source), '--from', '2025-03-08', '--to', '2025-03-09', '--base', 'BOS', '-o', str(target))
        source.write_text(ONTIME)
        check('on-time data', run(*words)[0], 0)
        # DEN at 24:00 of the 8th is 07:00 of the 9th in UTC. In the small hours of the 9th clocks go an hour forward.
        check('its flights', [line for line in target.read_text().splitlines() if line.startswith('flight')],
              ['flight,1,DEN,BOS,2025-03-09T07:00,2025-03-09T10:30,0', 'flight,2,BOS,ORD,2025-03-09T12:00,2025-03-09T14:50,0',
               'flight,3,BOS,DEN,2025-03-10T03:59,2025-03-10T08:50,0'])
        target.unlink()
        Path(room, 'x.flights.csv').unlink()
        source.write_text(ONTIME.replace('0950', '0951').replace('BOS,DEN', 'BOS,D'))
        status, told = run(*words)
        check('bad rows', (status, re.findall('line [0-9]+', told)), (1, ['line 2', 'line 3']))
        check('nothing written of them', sorted(path.name for path in Path(room).iterdir()), ['x.csv'])


def check_zones() -> None:
    zones = zones_of([TABLE_OF_STATES])
    for code, zone in (('BOS', 'America/New_York'), ('PHX', 'America/Phoenix'), ('HNL', 'Pacific/Honolulu'),
                       ('SDF', 'America/Kentucky/Louisville'), ('PNS', 'America/Chicago'), ('ANC', 'America/Anchorage')):
        check(code, zones.get(code), zone)
    check('enough airports', len(zones) > 300, True)
    check('each has a rule of tzdata', [code for code, zone in zones.items() if not rule_of(zone, code)], [])
    check('New York', rule_of('America/New_York', ''), 'EST5EDT,M3.2.0,M11.1.0')
    # Clocks of New York changed on other days until 2006: 2006-03-20T00:00 is minute 19,046,880.
    try:
        rule_for('BOS', 'America/New_York', 19_046_880, 19_046_880 + 1440)
        check('a rule that did not hold', 'none told', 'a fault')
    except ScheduleFault as fault:
        check('a rule that did not hold', '2006-03-20' in str(fault), True)
    with tempfile.TemporaryDirectory() as room:
        table = Path(room, 'own.csv')
        for text, wanted in (('QQQ,Europe/Paris\n', ''), ('# own\nQQQ,Europe/Nowhere\n', 'line 2'), ('QQ,Europe/Paris\n', 'line 1'),
                             ('QQQ,../../etc/passwd\n', 'line 1')):
            table.write_text(text)
            try:
                zones_of([table])
                check(text, '', wanted)
            except ScheduleFault as fault:
                check(text, bool(wanted) and wanted in str(fault), True)


def main(_: str = '') -> int:
    for part in (check_fields, check_days, check_left_out, check_refused, check_command, check_ontime, check_zones):
        part()
    print(f'schedules: {"all as worked out by hand" if not faults else f"{faults} faults"}')
    return 1 if faults else 0


if __name__ == '__main__':
    sys.exit(main())
