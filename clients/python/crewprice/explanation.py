"""Why a walk is, or isn't, a legal pairing, as the engine explains it."""
from __future__ import annotations

from dataclasses import dataclass

from .faults import NotUnderstood


@dataclass(frozen=True)
class DutyFigures:
    """A duty of a legal pairing: its legs as the engine writes them; report and release in minutes after the first
    report; its flight duty period with the limit of Table B, its flight time with that of Table A, and the clock at
    report by which both were looked up; the minutes of rest before it, none before the first."""
    duty: str
    report: int
    release: int
    flight_duty: int
    flight_duty_limit: int
    flight_time: int
    flight_time_limit: int
    clock: str
    rest: int | None

    @classmethod
    def of_line(cls, line: str) -> DutyFigures:
        match line.split(' '):
            case ['duty', duty, 'report', report, 'release', release, 'fdp', fdp, 'of', fdp_limit, 'fly', fly, 'of',
                  fly_limit, 'at', clock, 'rest', rest]:
                return cls(duty, int(report), int(release), int(fdp), int(fdp_limit), int(fly), int(fly_limit), clock,
                           None if rest == 'none' else int(rest))
        raise NotUnderstood(f'no duty: {line!r}')


@dataclass(frozen=True)
class Legal:
    """A legal pairing of the base: its cost and pay in points, its minutes away, what sets its pay (`duties`, `away` or
    `guarantee`), and its duties."""
    cost: int
    pay: int
    away: int
    by: str
    duties: tuple[DutyFigures, ...]


@dataclass(frozen=True)
class Broken:
    """The first rule that the walk breaks, its section of 14 CFR part 117, the duty and the leg, from 1, what was found
    and the limit; None where the rule has none."""
    rule: str
    section: str | None
    duty: int | None
    leg: int | None
    found: int | None
    limit: int | None


COUNTED = ('turn', 'connect', 'sit', 'deadheads', 'flight-time', 'flight-duty', 'rest', 'max-rest', 'fdp-total',
           'fly-cap', 'max-duties', 'away-cap', 'window', 'free-time')


def broken_of(words: list[str]) -> Broken:
    """From `RULE section S duty D leg L found N limit M`."""
    match words:
        case [rule, 'section', section, 'duty', duty, 'leg', leg, 'found', found, 'limit', limit]:
            counts = rule in COUNTED
            return Broken(rule, None if section == 'none' else section, int(duty) or None, int(leg) or None,
                          int(found) if counts else None, int(limit) if counts else None)
    raise NotUnderstood(f'no rule: {" ".join(words)!r}')
