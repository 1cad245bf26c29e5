"""Pairings over time as a drawing (SVG): for each base its pairings on its clock, a row each."""
from __future__ import annotations

import html
from collections.abc import Iterator
from dataclasses import dataclass

from .report import Duty, Line, Report, clock, hours, rest_after
from .timetable import Minutes, Timetable

HOUR = 24  # pixels
ROW = 30
NAMES = 170  # pixels, for what stands before a row
HEAD = 34
DUSK, DAWN = 22, 6  # hours of the base's clock between which it is night
STEP = 15  # minutes: clocks are whole multiples of that apart
COLOURS = ('#2f6fb0', '#c0602a', '#3b8a4a', '#8a4fa3', '#b0892f', '#2f9a9a', '#b03a5c', '#5f6b7a')


@dataclass(frozen=True)
class Span:
    """From the hour before the first report of a base to the one after its last release."""
    start: Minutes
    end: Minutes

    def x(self, minute: Minutes) -> float:
        return NAMES + (minute - self.start) * HOUR / 60

    @property
    def width(self) -> float:
        return self.x(self.end) + 8


def chart_of(report: Report) -> str:
    return '\n'.join(base_chart(report.timetable, base, lines, colour) for base, lines, colour in sections(report))


def sections(report: Report) -> Iterator[tuple[str, list[Line], str]]:
    """The bases that have a pairing, with them and a colour."""
    for place, base in enumerate(sorted(report.timetable.bases)):
        if lines := [line for line in report.lines if line.base == base]:
            yield base, lines, COLOURS[place % len(COLOURS)]


def size_of(report: Report) -> tuple[int, int]:
    """Width and height of all of it in pixels, as the page sets it."""
    parts = [(span_of(lines).width, HEAD + ROW * len(lines) + 16) for _, lines, _ in sections(report)]
    return int(max((width for width, _ in parts), default=0)), int(sum(height for _, height in parts))


def span_of(lines: list[Line]) -> Span:
    first, last = min(line.report for line in lines), max(line.release for line in lines)
    return Span(first // 60 * 60 - 60, last // 60 * 60 + 120)


def base_chart(timetable: Timetable, base: str, lines: list[Line], colour: str) -> str:
    span = span_of(lines)
    height = HEAD + ROW * len(lines)
    parts = [f'<div class="chart"><svg width="{span.width:.0f}" height="{height}" style="display:block" role="img" '
             f'aria-label="pairings of {base} over time">', *background(timetable, base, span, height)]
    for place, line in enumerate(lines):
        parts += row(timetable, line, span, HEAD + ROW * place, colour)
    return '\n'.join(parts) + '</svg></div>'


def background(timetable: Timetable, base: str, span: Span, height: int) -> Iterator[str]:
    """Nights, days and hours of the base's clock."""
    night: Minutes | None = None
    ticks = []
    for minute in range(span.start, span.end + STEP, STEP):
        at = timetable.local(base, minute)
        is_night = (at.hour >= DUSK or at.hour < DAWN) and minute < span.end
        if is_night and night is None:
            night = minute
        elif not is_night and night is not None:
            yield box(span.x(night), HEAD, span.x(minute) - span.x(night), height - HEAD, '#eef0f4')
            night = None
        if at.minute == 0 and at.hour % 6 == 0 and minute <= span.end:
            ticks.append((span.x(minute), at))
    yield text(4, 14, f'{base}, its clock', 'font-weight="700"')
    if ticks and ticks[0][1].hour:
        yield text(ticks[0][0] + 2, 14, f'{ticks[0][1]:%a %d %b}', 'font-weight="700"')
    for x, at in ticks:
        yield (f'<line x1="{x:.1f}" y1="{14 if at.hour == 0 else 22}" x2="{x:.1f}" y2="{height}" '
               f'stroke="{"#9aa3b0" if at.hour == 0 else "#dfe3e9"}"/>')
        yield text(x + 2, 30, f'{at:%H}')
        if at.hour == 0:
            yield text(x + 2, 14, f'{at:%a %d %b}', 'font-weight="700"')


def row(timetable: Timetable, line: Line, span: Span, top: int, colour: str) -> Iterator[str]:
    yield f'<line x1="0" y1="{top + ROW}" x2="{span.width:.0f}" y2="{top + ROW}" stroke="#eceef2"/>'
    yield text(4, top + 13, line.name, 'font-weight="700"')
    yield text(4, top + 24, f'pay {hours(line.pay)}, block {clock(line.block)}', 'fill="#555"')
    for place, duty in enumerate(line.duties, 1):
        yield from bar(timetable, line, duty, span, top, colour)
        if place < len(line.duties):
            start, end = span.x(duty.release), span.x(line.duties[place].report)
            yield (f'<line x1="{start:.1f}" y1="{top + 10}" x2="{end:.1f}" y2="{top + 10}" stroke="{colour}" '
                   'stroke-dasharray="2 3"/>')
            yield text((start + end) / 2, top + 8, f'{duty.destination} {rest_after(line, place)}',
                       'text-anchor="middle" fill="#555"')


def bar(timetable: Timetable, line: Line, duty: Duty, span: Span, top: int, colour: str) -> Iterator[str]:
    """A duty from report to release, its legs with their numbers, and the airports below."""
    yield f'<g><title>{html.escape(told(timetable, line, duty))}</title>'
    yield box(span.x(duty.report), top + 3, span.x(duty.release) - span.x(duty.report), 14, colour, 'fill-opacity="0.3"')
    for leg in duty.legs:
        start, end = span.x(leg.flight.departure), span.x(leg.flight.arrival)
        fill = '#ffffff' if leg.rides else colour
        yield box(start, top + 3, end - start, 14, fill, f'stroke="{colour}" stroke-width="0.7"')
        fitting = leg.name if 5.6 * len(leg.name) < end - start else leg.name.lstrip('ABCDEFGHIJKLMNOPQRSTUVWXYZ')
        ink = '#333' if leg.rides else '#fff'
        yield text((start + end) / 2, top + 13, fitting, f'text-anchor="middle" fill="{ink}"')
        yield text(start, top + 26, leg.flight.origin, 'text-anchor="middle" fill="#333"')
    yield text(span.x(duty.legs[-1].flight.arrival), top + 26, duty.destination, 'text-anchor="middle" fill="#333"')
    yield '</g>'


def told(timetable: Timetable, line: Line, duty: Duty) -> str:
    """What a bar tells where one points at it."""
    report, release = (timetable.local(line.base, minute) for minute in (duty.report, duty.release))
    legs = [f'{leg.name}{" (rides)" if leg.rides else ""} {leg.flight.origin} {leg.leaves:%H:%M} '
            f'{leg.flight.destination} {leg.arrives:%H:%M}' for leg in duty.legs]
    return '\n'.join([f'{line.name}: report {report:%a %d %H:%M}, release {release:%a %d %H:%M} ({line.base})',
                      f'flight duty {clock(duty.flight_duty)} of {clock(duty.flight_duty_limit)}, flight time '
                      f'{clock(duty.flight_time)} of {clock(duty.flight_time_limit)}', *legs])


def box(x: float, y: float, width: float, height: float, fill: str, more: str = '') -> str:
    return f'<rect x="{x:.1f}" y="{y}" width="{width:.1f}" height="{height}" fill="{fill}" {more}/>'


def text(x: float, y: float, words: str, more: str = '') -> str:
    return f'<text x="{x:.1f}" y="{y}" {more}>{html.escape(words)}</text>'
