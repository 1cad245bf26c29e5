"""The command `ssim`: from an airline's schedule to a session's records and a table of its flights."""
from __future__ import annotations

import argparse
import sys
from collections.abc import Sequence
from datetime import date
from pathlib import Path

from .faults import Fault, ScheduleFault, UnreadFault
from .files import check_folder, write_whole
from .legs import ScheduleFaults, session_of
from .ontime import is_ontime, read_ontime
from .ssim import MOST_TOLD, Wanted, read_ssim, told_lines
from .timetable import names_beside
from .zones import TABLE_OF_STATES, zones_of

ABOUT = '''Reads an airline's schedule: a file of SSIM, chapter 7 (records of 200 bytes), or the US Department of
Transportation's on-time data (a CSV). Writes a session's zones, bases and flights, and beside it a table that says for
each of its flights the airline's own number, date and leg.'''
AFTER = '''The status is 0, 1 where a line can't be read or taken (each such line is named by its number), and 70 where the
file can't be opened; then nothing is written. planner/README.md has where each field stands, and how what the format
leaves open is read.'''


def parser() -> argparse.ArgumentParser:
    made = argparse.ArgumentParser(prog='ssim', description=ABOUT, epilog=AFTER,
                                   formatter_class=argparse.RawDescriptionHelpFormatter)
    made.add_argument('file', type=Path, metavar='FILE')
    made.add_argument('--from', type=day, required=True, dest='first', metavar='DATE',
                      help='the first day, as 2026-10-05')
    made.add_argument('--to', type=day, required=True, dest='last', metavar='DATE', help='the last day')
    made.add_argument('--base', action='append', default=[], metavar='CODE', help='a crew base; once for each')
    made.add_argument('-o', '--output', type=Path, required=True, metavar='NAME.session',
                      help='the session; the table is NAME.flights.csv')
    made.add_argument('--airline', action='append', default=[], metavar='CODE', help='only legs of it (any airline)')
    made.add_argument('--fleet', action='append', default=[], metavar='TYPES',
                      help='only these aircraft, as 738,739 (any; on-time data has none)')
    made.add_argument('--zones', action='append', type=Path, default=[], metavar='TABLE',
                      help='lines CODE,ZONE with names of tzdata; goes before the table of the United States\' airports')
    made.add_argument('--codeshares', action='store_true', help='legs too that another airline flies')
    made.add_argument('--trust-offsets', action='store_true',
                      help='takes the file\'s own UTC variations where an airport\'s zone contradicts them')
    return made


def day(text: str) -> date:
    try:
        return date.fromisoformat(text)
    except ValueError:
        raise argparse.ArgumentTypeError(f'{text} is no day as 2026-10-05') from None


def main(words: Sequence[str] | None = None) -> int:
    given = parser().parse_args(words)
    try:
        run(given)
        return 0
    except ScheduleFaults as fault:
        for line in fault.faults[:MOST_TOLD]:
            print(f'ssim: {line}', file=sys.stderr)
        if len(fault.faults) > MOST_TOLD:
            print(f'ssim: and {len(fault.faults) - MOST_TOLD} more', file=sys.stderr)
        return fault.status
    except Fault as fault:
        print(f'ssim: {fault}', file=sys.stderr)
        return fault.status


def run(given: argparse.Namespace) -> None:
    if given.last < given.first:
        raise ScheduleFault(f'--to {given.last} is before --from {given.first}')
    check_folder(given.output)
    try:
        content = given.file.read_bytes()
    except OSError as fault:
        raise UnreadFault(f'{given.file}: {fault.strerror}: name a file of SSIM or of on-time data') from None
    zones = zones_of([TABLE_OF_STATES, *given.zones])
    wanted = Wanted(given.first, given.last, frozenset(given.airline),
                    frozenset(kind for word in given.fleet for kind in word.split(',')), given.codeshares,
                    given.trust_offsets)
    if is_ontime(content) and wanted.fleet:
        raise ScheduleFault('on-time data does not say which aircraft flies: leave out --fleet')
    reader = read_ontime if is_ontime(content) else read_ssim
    legs, told = reader(content, given.file.name, wanted, zones)
    session, table = session_of(legs, given.base, zones)
    write_whole({given.output: session.encode(), names_beside(given.output): table.encode()})
    for line in told_lines(told):
        print(f'ssim: {line}', file=sys.stderr)
    print(f'{given.output}: {len(legs)} flights of {given.first} to {given.last}, {len(given.base)} bases; '
          f'{names_beside(given.output)} has their own numbers')
