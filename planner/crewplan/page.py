"""A plan as one page of HTML that needs no network, and the same page as a picture."""
from __future__ import annotations

import html
import os
import shutil
import subprocess
import tempfile
from collections.abc import Iterator
from pathlib import Path

from .chart import chart_of, size_of
from .faults import Fault
from .report import Duty, Line, Report, Total, by_base, by_day, clock, hours, rest_after, total_of
from .timetable import Timetable

BROWSERS = ('chromium', 'chromium-browser', 'google-chrome')
TIGHT = 30  # minutes below the limit: a flight duty period so long is marked
WIDTH = 1300  # of the picture at least, in pixels
LINE = 21  # of a table, in pixels

STYLE = '''
body { font: 13px/1.4 "DejaVu Sans", "Segoe UI", Arial, sans-serif; margin: 20px 24px; color: #222; background: #fff }
h1 { font-size: 20px; margin: 0 0 4px } h2 { font-size: 15px; margin: 22px 0 6px }
p { margin: 4px 0 8px; max-width: 95ch }
table { border-collapse: collapse; margin: 4px 0 10px }
td, th { padding: 1px 8px; text-align: right; border-bottom: 1px solid #e3e3e3; white-space: nowrap }
th { background: #f3f4f6; font-weight: 600 }
.l { text-align: left } .wrap { white-space: normal }
.tight { background: #fff0c8 } .left { color: #a00 }
.figures td:first-child, .figures th:first-child { text-align: left }
.side { display: flex; flex-wrap: wrap; gap: 0 36px; align-items: flex-start }
.chart { overflow-x: auto; margin: 0 0 16px }
details { margin: 2px 0 } summary { cursor: pointer; font-weight: 600 }
svg text { font: 9px "DejaVu Sans", Arial, sans-serif }
'''


def page_of(report: Report, title: str, has_legs: bool = True) -> str:
    """The whole page, or all of it but the list of legs."""
    parts = [f'<!doctype html>\n<html lang="en"><head><meta charset="utf-8"><title>{html.escape(title)}</title>'
             f'<style>{STYLE}</style></head><body>', f'<h1>{html.escape(title)}</h1>', *figures(report),
             '<div class="side">', *bases(report), *days(report), '</div>', *left(report),
             '<h2>Pairings over time</h2>', '<p>A row is a pairing. Times and nights are on the clock of its base. A bar '
             'is a duty from report to release, the darker boxes in it its legs; between duties stands the airport and '
             'the length of the rest. Point at a bar for the whole of it.</p>', chart_of(report),
             *(legs(report) if has_legs else ()), '</body></html>\n']
    return '\n'.join(parts)


def legs(report: Report) -> Iterator[str]:
    yield ('<h2>Pairings leg by leg</h2><p>Report and release are on the base&#39;s clock, legs on the clocks of their '
           f'airports. A flight duty period within {TIGHT} minutes of its limit is marked.</p>')
    for line in report.lines:
        yield pairing(report.timetable, line)


def figures(report: Report) -> Iterator[str]:
    it, total = report.figures, total_of(report.lines)
    covered = sum(not leg.rides for line in report.lines for duty in line.duties for leg in duty.legs)
    rows = [('flights in the schedule', f'{it.flights}'), ('covered', f'{covered}'),
            ('left uncovered by choice', f'{len(report.by_choice)}'),
            ('that no legal pairing flies', f'{len(report.unreachable)}'),
            ('pairings, duties', f'{total.pairings}, {total.duties}'),
            ('block', clock(total.block)), ('pay', hours(total.pay)), ('pay to block', f'{total.credit:.3f}'),
            ('time away from base', clock(total.away)),
            ('least pay of any plan that leaves as many uncovered', hours(it.bound)),
            ('this plan above that', f'{100 * it.above:.3f} %'),
            ('this plan above the relaxation', f'{100 * it.above_relaxation:.3f} %')]
    yield '<table class="figures">' + ''.join(f'<tr><td>{name}<td>{value}' for name, value in rows) + '</table>'


def total_row(name: str, total: Total) -> str:
    return (f'<tr><td class="l">{name}<td>{total.pairings}<td>{total.duties}<td>{clock(total.block)}'
            f'<td>{hours(total.pay)}<td>{total.credit:.3f}<td>{clock(total.flight_duty)}<td>{clock(total.away)}')


def bases(report: Report) -> Iterator[str]:
    yield ('<div><h2>By base</h2><table><tr><th class="l">base<th>pairings<th>duties<th>block<th>pay<th>pay to block'
           '<th>flight duty<th>away')
    for base, total in by_base(report).items():
        yield total_row(base, total)
    yield total_row('all', total_of(report.lines)) + '</table></div>'


def days(report: Report) -> Iterator[str]:
    yield ('<div><h2>By base and day of report</h2><table><tr><th class="l">base<th class="l">day<th>duties'
           '<th>pairings that begin<th>block<th>flight duty')
    for (base, day), total in by_day(report).items():
        yield (f'<tr><td class="l">{base}<td class="l">{day:%a %d %b %Y}<td>{total.duties}<td>{total.begins}'
               f'<td>{clock(total.block)}<td>{clock(total.flight_duty)}')
    yield '</table></div>'


def left(report: Report) -> Iterator[str]:
    """Flights that the plan doesn't cover."""
    timetable = report.timetable
    rows = [(flight, 'by choice: a pairing that flies it costs more than it is worth, or takes crews from others')
            for flight in report.by_choice]
    rows += [(timetable.flights[it.number], f'no legal pairing: {it.cause}') for it in report.unreachable]
    if not rows:
        return
    yield ('<h2>Not covered</h2><table><tr><th class="l">flight<th class="l">from<th class="l">leaves<th class="l">to'
           '<th class="l">arrives<th class="l">why')
    for flight, why in rows:
        yield (f'<tr><td class="l left">{html.escape(flight.label)}<td class="l">{flight.origin}'
               f'<td class="l">{timetable.local(flight.origin, flight.departure):%a %d %H:%M}'
               f'<td class="l">{flight.destination}'
               f'<td class="l">{timetable.local(flight.destination, flight.arrival):%a %d %H:%M}'
               f'<td class="l wrap">{html.escape(why)}')
    yield '</table>'


def pairing(timetable: Timetable, line: Line) -> str:
    rows = ''.join(duty_row(timetable, line, place, duty) for place, duty in enumerate(line.duties, 1))
    return (f'<details open><summary>{line.name}: {len(line.duties)} {"duty" if len(line.duties) == 1 else "duties"}, '
            f'block {clock(line.block)}, pay {hours(line.pay)} by {line.paid_by}, away {clock(line.away)}</summary>'
            '<table><tr><th>duty<th class="l">report<th class="l">release<th>flight duty<th>limit<th>flight time'
            f'<th>limit<th>rest after<th class="l">legs{rows}</table></details>')


def duty_row(timetable: Timetable, line: Line, place: int, duty: Duty) -> str:
    legs = ' &middot; '.join(
        f'{html.escape(leg.name)}{" (rides)" if leg.rides else ""} {leg.flight.origin} {leg.leaves:%H:%M} '
        f'{leg.flight.destination} {leg.arrives:%H:%M}' for leg in duty.legs)
    tight = ' class="tight"' if duty.flight_duty_limit - duty.flight_duty < TIGHT else ''
    rest = f'{rest_after(line, place)} {duty.destination}' if place < len(line.duties) else ''
    return (f'<tr><td>{place}<td class="l">{timetable.local(line.base, duty.report):%a %d %H:%M}'
            f'<td class="l">{timetable.local(line.base, duty.release):%a %d %H:%M}<td{tight}>{clock(duty.flight_duty)}'
            f'<td>{clock(duty.flight_duty_limit)}<td>{clock(duty.flight_time)}<td>{clock(duty.flight_time_limit)}'
            f'<td>{rest}<td class="l">{legs}')


def browser() -> str | None:
    return next((found for name in BROWSERS if (found := shutil.which(name))), None)


def height_of(report: Report) -> tuple[int, int]:
    """Width and height of the page without the list of legs, in pixels, and a little more."""
    width, height = size_of(report)
    tables = 2 * LINE + LINE * max(len(report.timetable.bases) + 2, len(by_day(report)) + 1)
    missing = len(report.by_choice) + len(report.unreachable)
    return max(WIDTH, width + 60), height + 16 * LINE + tables + (LINE * (missing + 3) if missing else 0) + 5 * LINE


def picture_of(report: Report, title: str) -> bytes:
    """The page without the list of legs as PNG, by a browser without a window."""
    page, (width, height) = page_of(report, title, has_legs=False), height_of(report)
    if (program := browser()) is None:
        raise Fault('a picture wants Chromium: apt-get install chromium; the page of HTML needs nothing')
    with tempfile.TemporaryDirectory() as room:
        source, target = Path(room, 'page.html'), Path(room, 'page.png')
        source.write_text(page, encoding='utf-8')
        sandbox = ['--no-sandbox'] if os.geteuid() == 0 else []
        words = [program, '--headless', *sandbox, '--disable-gpu', '--hide-scrollbars', f'--user-data-dir={room}/user',
                 f'--window-size={width},{height}', f'--screenshot={target}', source.as_uri()]
        try:
            ended = subprocess.run(words, stdout=subprocess.DEVNULL, stderr=subprocess.PIPE, timeout=180, text=True)
        except subprocess.TimeoutExpired:
            raise Fault(f'{program} made no picture within three minutes') from None
        if not target.is_file():
            told = (ended.stderr.strip().splitlines() or ['it said nothing'])[-1]
            raise Fault(f'{program} made no picture: {told[:200]}')
        return target.read_bytes()
