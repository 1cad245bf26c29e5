"""Airports' zones: from tables of codes and names of tzdata to the POSIX rules that the engine takes."""
from __future__ import annotations

import re
from datetime import datetime, timedelta
from pathlib import Path
from zoneinfo import TZPATH, ZoneInfo

from .faults import ScheduleFault
from .timetable import Minutes, instant, zone_of

TABLE_OF_STATES = Path(__file__).resolve().parent.parent / 'airports-us.csv'
CODE = re.compile('[A-Z]{3}')
STEP = 30  # minutes: no change of a clock lies between two instants so far apart and is undone


def zones_of(tables: list[Path]) -> dict[str, str]:
    """The zone of each airport of these tables, of lines `CODE,ZONE`; a later table goes before an earlier one. Raises
    ScheduleFault with the number of the first line that isn't so, or whose zone tzdata doesn't have."""
    found: dict[str, str] = {}
    for table in tables:
        try:
            lines = table.read_text(encoding='utf-8-sig').splitlines()
        except (OSError, UnicodeError) as fault:
            raise ScheduleFault(f'{table}: {getattr(fault, "strerror", None) or "it is not text"}') from None
        for number, line in enumerate(lines, 1):
            if line.strip() and not line.startswith('#'):
                code, zone = zone_line(line, f'{table}, line {number}')
                found[code] = zone
    return found


def zone_line(line: str, where: str) -> tuple[str, str]:
    code, _, zone = (part.strip() for part in line.partition(','))
    if not CODE.fullmatch(code) or not zone:
        raise ScheduleFault(f'{where}: a line is CODE,ZONE, as BOS,America/New_York')
    rule_of(zone, where)
    return code, zone


def rule_of(zone: str, where: str) -> str:
    """The rule that a zone follows from its last change on: what its file of tzdata ends with."""
    if re.fullmatch('[A-Za-z0-9_+-]+(/[A-Za-z0-9_+-]+)*', zone):
        for path in (Path(folder, zone) for folder in TZPATH):
            if path.is_file() and (content := path.read_bytes()).startswith(b'TZif'):
                return content.rstrip(b'\n').rsplit(b'\n', 1)[-1].decode('ascii')
    raise ScheduleFault(f'{where}: tzdata has no zone {zone}')


def rule_for(code: str, zone: str, first: Minutes, last: Minutes) -> str:
    """The rule of an airport's zone, where it tells the same clock as tzdata at all times from the first minute to the
    last; else a ScheduleFault: then tzdata has a change that no rule tells."""
    rule = rule_of(zone, code)
    named, ruled = ZoneInfo(zone), zone_of(rule)
    for minute in range(first, last + STEP, STEP):
        at = instant(minute)
        if offset(named, at) != offset(ruled, at):
            raise ScheduleFault(f'{code}: the rule {rule} of {zone} does not hold on {at:%Y-%m-%d}: tzdata has another '
                                f'clock then')
    return rule


def offset(zone: ZoneInfo, utc: datetime) -> timedelta:
    """How far the zone's clock is ahead of UTC at an instant of UTC."""
    return zone.fromutc(utc.replace(tzinfo=zone)).utcoffset()
