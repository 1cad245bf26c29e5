"""What an engine refuses, and how it ends before its time."""
from __future__ import annotations

NAMES = {
    1: 'BadTimeText', 2: 'NoSuchTime', 3: 'YearRange', 4: 'BadZone', 21: 'BaseExists', 22: 'NoBase', 23: 'FlightExists',
    24: 'NoFlight', 25: 'BadTimes', 26: 'SameAirport', 27: 'WrongOrigin', 28: 'PriceRange', 29: 'TooManyFlights',
    30: 'TooManyBases', 32: 'NoConnection', 33: 'NoTurn', 34: 'TurnRange', 35: 'TooManyTurns', 36: 'Taken',
    37: 'NoFollowOn', 40: 'TooManyDuties', 45: 'OverLimit', 57: 'LastVersion', 60: 'TooManySeats', 61: 'SeatFull',
    62: 'Unsettled', 63: 'OtherSettings', 64: 'TooManyClients', 65: 'NoView', 66: 'NoMemory', 70: 'UnknownRecord',
    71: 'FieldCount', 72: 'BadField', 73: 'NoZone', 74: 'ZoneExists', 75: 'TooManyZones', 76: 'NoName', 77: 'TooLong',
}


class EngineError(Exception):
    """Any fault of a session or a service."""


class Refused(EngineError):
    """A record that the engine refused: its number, from 1, its text, the number of the refusal, and that one's name.
    docs/sessions.md has what each wants one to do."""

    def __init__(self, number: int, record: str, reason: int):
        self.number, self.record, self.reason = number, record, reason
        self.name = NAMES.get(reason, '')
        super().__init__(f'record {number}, {record!r}, is refused by {reason} {self.name}'.rstrip())


class EngineEnded(EngineError):
    """The engine ended before it had answered, or couldn't be started or reached. `status` is its exit status, where it is
    a process of this one; what it said is on standard error."""

    def __init__(self, text: str, status: int | None = None):
        self.status = status
        super().__init__(text)


class NotUnderstood(EngineError):
    """A line that no engine writes: the program is another one."""
