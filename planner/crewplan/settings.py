"""The engine's settings that a plan's figures need, as its options give them. Lengths are in minutes, rates in points
a minute, the least of a duty and the guarantee in points."""
from __future__ import annotations

from dataclasses import dataclass, fields, replace

LEAST_REST = 600
LONG_REST = 1800


@dataclass(frozen=True)
class Settings:
    """What `crewprice run --help` tells of each, with its default."""
    lead: int = 60
    debrief: int = 30
    connect: int = 30
    sit: int = 240
    max_rest: int = 1800
    max_duties: int = 4
    fdp_cap: int = 3600
    fly_cap: int = 6000
    away_cap: int = 8280
    duty_rig: int = 7
    trip_rig: int = 4
    duty_min: int = 2520
    guarantee: int = 4200
    deadheads: int = 0
    fdp_total: int = 11400

    def may_follow(self, arrival: int, departure: int) -> bool:
        """Whether a crew that arrives may leave by that departure: on the same duty, or after a rest."""
        wait = departure - arrival
        rest = wait - self.debrief - self.lead
        return self.connect <= wait <= self.sit or LEAST_REST <= rest <= self.max_rest


def settings_of(options: list[str]) -> Settings:
    """The settings that these words give the engine, as `--max-rest 1500` or `--max-rest=1500`. What can't be read is
    left to the engine, which refuses it."""
    found: dict[str, int] = {}
    names = {field.name for field in fields(Settings)}
    words = [part for word in options for part in word.split('=', 1)]
    for word, value in zip(words, words[1:]):
        name = word.removeprefix('--').replace('-', '_')
        if word.startswith('--') and name in names and value.isdigit():
            found[name] = int(value)
    return replace(Settings(), **found)
