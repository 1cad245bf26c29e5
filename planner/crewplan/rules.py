"""Tables A and B of 14 CFR part 117, for unaugmented crews, and what duties and pairings pay. Lengths are in minutes, pay
in points."""
from __future__ import annotations

from .settings import Settings
from .timetable import POINTS, Minutes

# Table B (117.13): from which hour of the local day at report, and the most hours by 1 to 7 flight segments or more.
TABLE_B = (
    (0, (9, 9, 9, 9, 9, 9, 9)),
    (4, (10, 10, 10, 10, 9, 9, 9)),
    (5, (12, 12, 12, 12, 11.5, 11, 10.5)),
    (6, (13, 13, 12, 12, 11.5, 11, 10.5)),
    (7, (14, 14, 13, 13, 12.5, 12, 11.5)),
    (12, (13, 13, 13, 13, 12.5, 12, 11.5)),
    (13, (12, 12, 12, 12, 11.5, 11, 10.5)),
    (17, (12, 12, 11, 11, 10, 9, 9)),
    (22, (11, 11, 10, 10, 9, 9, 9)),
    (23, (10, 10, 10, 9, 9, 9, 9)))


def flight_time_limit(clock: Minutes) -> Minutes:
    """Table A (117.11): the most flight time of a duty that reports at this minute of the local day."""
    return 540 if 5 * 60 <= clock < 20 * 60 else 480


def flight_duty_limit(clock: Minutes, segments: int) -> Minutes:
    """Table B: the longest flight duty period that begins at this minute of the local day, by its flight segments."""
    hours = next(row for start, row in reversed(TABLE_B) if clock >= 60 * start)
    return int(60 * hours[min(max(segments, 1), len(hours)) - 1])


def duty_pay(flight_time: Minutes, length: Minutes, settings: Settings) -> int:
    """By flight time, by a rig on the minutes from report to release, or the least of a duty."""
    return max(POINTS * flight_time, settings.duty_rig * length, settings.duty_min)


def paid_by(duties_pay: int, duties: int, away: Minutes, settings: Settings) -> tuple[int, str]:
    """What a pairing pays, and by which of three sums."""
    return max((duties_pay, 'duties'), (settings.trip_rig * away, 'time away'),
               (settings.guarantee * duties, 'guarantee'), key=lambda it: it[0])
