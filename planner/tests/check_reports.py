#!/usr/bin/python3
"""Checks reports against a pairing that was worked out by hand, and that the page is whole and needs no network."""
from __future__ import annotations

import csv
import io
import json
import sys
from html.parser import HTMLParser
from pathlib import Path

TESTS = Path(__file__).resolve().parent
sys.path[:0] = [str(TESTS), str(TESTS.parent)]

from crewplan.page import page_of
from crewplan.pairing import Pairing
from crewplan.report import Figures, Report, Run, by_base, by_day, csv_of, json_of, report_of, text_of
from crewplan.rules import flight_duty_limit, flight_time_limit
from crewplan.settings import Settings, settings_of
from crewplan.timetable import read_text
from crewplan.uncovered import Unreachable

SESSION = TESTS.parent.parent / 'examples' / 'overnight.session'
VOID = {'meta', 'line', 'rect', 'br'}
OPTIONAL = {'tr', 'td', 'th'}  # elements whose end tags may be left out
faults = 0


def check(what: str, found: object, wanted: object) -> None:
    global faults
    if found != wanted:
        faults += 1
        print(f'{what}: found {found!r}, and {wanted!r} is right', file=sys.stderr)


def report() -> Report:
    """Of the flights of the session: the pairing that docs/sessions.md works out, and another of one duty."""
    text = '\n'.join(line for line in SESSION.read_text().split('settle')[0].splitlines() if ',LGA,' not in line)
    pairings = [Pairing('BOS', '11-13 21-22', 8400, 1875)]
    figures = Figures(8, 8400.0, 8000.0, 8100.0, 3.0, 0.04, True)
    run = Run('Clp', 1, 2, 3, 4, 5, 6, 7.0, 8.0, 9.0, 10.0, 11.0)
    return report_of(read_text(text), Settings(), pairings, [12, 14], [Unreachable(15, 'nothing <leaves>')], figures, run)


def check_rows() -> None:
    rows = list(csv.DictReader(io.StringIO(csv_of(report()))))
    check('legs', [row['flight'] for row in rows], ['11', '13', '21', '22'])
    first, last = rows[0], rows[-1]
    # Report is 11:00 UTC, release 17:40 UTC; Boston is four hours behind, Minneapolis five.
    wanted = {'pairing': 'BOS 001', 'base': 'BOS', 'duty': '1', 'report_at': 'BOS', 'report_base_clock': '2026-06-09T07:00',
              'report_airport_clock': '2026-06-09T07:00', 'release_at': 'MSP', 'release_base_clock': '2026-06-09T13:40',
              'release_airport_clock': '2026-06-09T12:40', 'flight_time': '4:20', 'flight_time_limit': '9:00',
              'flight_duty_period': '6:10', 'flight_duty_period_limit': '14:00', 'rest_after': '18:20', 'leg': '1',
              'role': 'flies', 'from': 'BOS', 'leaves': '2026-06-09T08:00', 'to': 'ORD', 'arrives': '2026-06-09T09:50',
              'block': '2:50', 'pairing_pay': '10:00', 'pairing_pay_by': 'guarantee', 'pairing_block': '8:00',
              'pairing_away': '31:15'}
    check('the first leg', {name: first[name] for name in wanted}, wanted)
    # Report of the second duty is 12:00 UTC, its flight duty period 345 minutes; it is the last.
    wanted = {'duty': '2', 'report_base_clock': '2026-06-10T08:00', 'report_airport_clock': '2026-06-10T07:00',
              'flight_duty_period': '5:45', 'flight_time': '3:40', 'rest_after': '', 'arrives': '2026-06-10T13:45'}
    check('the last leg', {name: last[name] for name in wanted}, wanted)


def check_totals() -> None:
    total = by_base(report())['BOS']
    check('of Boston', (total.pairings, total.duties, total.block, total.pay, total.flight_duty, total.away),
          (1, 2, 480, 8400, 715, 1875))
    check('credit', round(total.credit, 4), 1.25)  # 600 paid minutes for 480 of flight
    check('of Chicago', by_base(report())['ORD'].pairings, 0)
    days = {f'{base} {day}': (it.duties, it.begins, it.block) for (base, day), it in by_day(report()).items()}
    check('by day', days, {'BOS 2026-06-09': (1, 1, 260), 'BOS 2026-06-10': (1, 0, 220)})


def check_object() -> None:
    found = json.loads(json_of(report()))
    check('figures', (found['figures']['pay'], found['figures']['bound'], round(found['figures']['above'], 9),
                      found['figures']['uncovered_by_choice'], found['figures']['unreachable']), (8400, 8000, 0.05, 2, 1))
    duty = found['pairings'][0]['duties'][0]
    check('a duty', (duty['report'], duty['release'], duty['rest_after'], duty['flight_duty_period_limit'], duty['pay']),
          ('2026-06-09T11:00Z', '2026-06-09T17:40Z', 1100, 840, 3640))
    check('its legs', [leg['flight'] for leg in duty['legs']], ['11', '13'])
    check('uncovered', ([it['flight'] for it in found['uncovered_by_choice']], found['unreachable'][0]['cause']),
          (['12', '14'], 'nothing <leaves>'))
    text = text_of(report())
    check('as text', ('pay 10:00 by guarantee, away 31:15' in text, 'left uncovered by choice: 12, 14' in text), (True, True))


class Page(HTMLParser):
    """Follows the tags of a page."""

    def __init__(self):
        super().__init__()
        self.open: list[str] = []
        self.faults: list[str] = []

    def handle_starttag(self, tag: str, attributes: list[tuple[str, str | None]]) -> None:
        self.faults += [f'{name}={value}' for name, value in attributes if name in ('src', 'href')]
        if tag not in VOID | OPTIONAL:
            self.open.append(tag)

    def handle_startendtag(self, tag: str, attributes: list[tuple[str, str | None]]) -> None:
        if tag not in VOID:
            self.faults.append(f'<{tag}/>')

    def handle_endtag(self, tag: str) -> None:
        if tag not in OPTIONAL and (not self.open or self.open.pop() != tag):
            self.faults.append(f'</{tag}>')


def check_page() -> None:
    page = page_of(report(), 'A plan & more')
    reader = Page()
    reader.feed(page)
    check('tags', (reader.open, reader.faults), ([], []))
    check('nothing from elsewhere', [word for word in ('http', 'url(', '@import', '<script') if word in page], [])
    for text in ('<title>A plan &amp; more</title>', 'BOS 001', '5.000 %', 'nothing &lt;leaves&gt;', 'MSP 18:20', '>21</text>'):
        check(f'{text} on the page', text in page, True)
    check('the list of legs', ('leg by leg' in page, 'leg by leg' in page_of(report(), 'x', has_legs=False)), (True, False))


def check_tables() -> None:
    check('Table A', [flight_time_limit(at) for at in (299, 300, 1199, 1200)], [480, 540, 540, 480])
    check('Table B', [flight_duty_limit(at, legs) for at, legs in ((239, 1), (240, 4), (420, 2), (420, 7), (1020, 3),
                                                                   (1320, 8), (1439, 3))], [540, 600, 840, 690, 660, 540, 600])
    given = settings_of(['--max-rest', '1500', '--deadheads=1', '--workers', '2'])
    check('settings', (given.max_rest, given.deadheads, given.lead), (1500, 1, 60))


def main(_: str = '') -> int:
    for part in (check_rows, check_totals, check_object, check_page, check_tables):
        part()
    print(f'reports: {"all as worked out by hand" if not faults else f"{faults} faults"}')
    return 1 if faults else 0


if __name__ == '__main__':
    sys.exit(main())
