"""All legal pairings of a small timetable, by brute force, from the rules alone.

This is the reference of the example: no pairing is left out for what it costs, so it is for small
timetables. Sections are those of 14 CFR part 117, for two pilots. A limit may be reached and not passed.
Times are in minutes, instants since 1970-01-01T00:00 UTC. Pay is in points.
"""

import csv
import os
import time
from collections.abc import Callable
from dataclasses import dataclass
from datetime import datetime, timedelta

DEFAULTS = {"lead": 60, "debrief": 30, "connect": 30, "sit": 240, "max_rest": 1800, "max_duties": 4,
            "fdp_cap": 3600, "fly_cap": 6000, "away_cap": 8280,
            "duty_rig": 7, "trip_rig": 4, "duty_min": 2520, "guarantee": 4200, "deadheads": 0, "fdp_total": 11400}
LEAST_REST, MOST_LEGS = 600, 8
# 168 hours, and the 30 free from duty that lie within them before each report.
WINDOW, LONG_REST = 10080, 1800

# Table B: most hours of a flight duty period that starts in these hours, by 1 to 6 segments and 7 or more.
TABLE_B = {
    range(0, 4): (9, 9, 9, 9, 9, 9, 9),
    range(4, 5): (10, 10, 10, 10, 9, 9, 9),
    range(5, 6): (12, 12, 12, 12, 11.5, 11, 10.5),
    range(6, 7): (13, 13, 12, 12, 11.5, 11, 10.5),
    range(7, 12): (14, 14, 13, 13, 12.5, 12, 11.5),
    range(12, 13): (13, 13, 13, 13, 12.5, 12, 11.5),
    range(13, 17): (12, 12, 12, 12, 11.5, 11, 10.5),
    range(17, 22): (12, 12, 11, 11, 10, 9, 9),
    range(22, 23): (11, 11, 10, 10, 9, 9, 9),
    range(23, 24): (10, 10, 10, 9, 9, 9, 9),
}


@dataclass(frozen=True, eq=False)
class Flight:
    number: int
    origin: str
    target: str
    dep: int
    arr: int
    price: int
    clock: int  # the minute of the origin's day at report for this flight


@dataclass(frozen=True, eq=False)
class Leg:
    """A flight that the crew flies, or on which it rides as passengers: then it costs and covers nothing."""

    flight: Flight
    ridden: bool

    @property
    def origin(self) -> str:
        return self.flight.origin

    @property
    def target(self) -> str:
        return self.flight.target

    @property
    def fly(self) -> int:
        return 0 if self.ridden else self.flight.arr - self.flight.dep


@dataclass(frozen=True, eq=False)
class Duty:
    legs: tuple[Leg, ...]
    origin: str
    target: str
    report: int
    release: int
    fdp: int
    fly: int

    @property
    def arrival(self) -> int:
        """The last one, with which the flight duty period ends."""
        return self.report + self.fdp


Walk = tuple[tuple[tuple[int, bool], ...], ...]  # of each duty's legs the flight's number, and whether it is ridden


@dataclass(frozen=True)
class Pairing:
    base: str
    walk: Walk
    pay: int
    away: int

    @property
    def flown(self) -> list[int]:
        """The flights that the crew flies."""
        return [number for duty in self.walk for number, ridden in duty if not ridden]


Timetable = tuple[dict[int, Flight], dict[str, int]]  # flights by number, prices of bases


def with_defaults(settings: dict[str, int]) -> dict[str, int]:
    if unknown := settings.keys() - DEFAULTS.keys():
        raise ValueError(f"no such settings: {sorted(unknown)}")
    return DEFAULTS | settings


def instant(text: str) -> int:
    return (datetime.strptime(text, "%Y-%m-%dT%H:%M") - datetime(1970, 1, 1)) // timedelta(minutes=1)


def local_clock(rule: str, minute: int) -> int:
    """The minute of the local day that a POSIX rule shows at an instant, seconds cut off."""
    before = os.environ.pop("TZ", None)
    os.environ["TZ"] = rule
    time.tzset()
    local = time.localtime(60 * minute)
    del os.environ["TZ"]
    if before is not None:
        os.environ["TZ"] = before
    time.tzset()
    return 60 * local.tm_hour + local.tm_min


def read(text: str, settings: dict[str, int]) -> Timetable:
    """The timetable at the first settle, or at the end. The program is taken to refuse no record."""
    lead = with_defaults(settings)["lead"]
    zones, flights, bases = {}, {}, {}
    for record in csv.reader(text.splitlines()):
        match record:
            case ["zone", code, rule]:
                zones[code] = rule
            case ["base", code, price]:
                bases[code] = int(price)
            case ["flight", number, origin, target, dep, arr, price]:
                clock = local_clock(zones[origin], instant(dep) - lead)
                flights[int(number)] = Flight(
                    int(number), origin, target, instant(dep), instant(arr), int(price), clock)
            case ["settle"]:
                break
            case ["turn" | "follow", *_]:
                continue
            case [_, *_]:
                raise ValueError(f"no record of a timetable: {record}")
    return flights, bases


class Bonds:
    """The turns of two flights, the flight that follows one and the one that it follows, up to the first settle."""

    def __init__(self, text: str):
        self.turns: dict[tuple[int, int], int] = {}
        self.next: dict[int, int] = {}
        self.lead: dict[int, int] = {}
        for record in csv.reader(text.splitlines()):
            match record:
                case ["turn", before, after, minutes]:
                    self.turns[int(before), int(after)] = int(minutes)
                case ["follow", before, after]:
                    self.next[int(before)], self.lead[int(after)] = int(after), int(before)
                case ["settle"]:
                    break

    def keep(self, before: Flight, after: Flight) -> bool:
        """Whether one flight may be the next leg after another, by what follows them and what they follow."""
        return (self.next.get(before.number, after.number) == after.number
                and self.lead.get(after.number, before.number) == before.number)


def table_a(clock: int) -> int:
    """Most flight time of a duty, by its report (117.11, Table A)."""
    return 540 if 5 * 60 <= clock < 20 * 60 else 480


def table_b(clock: int, segments: int) -> int:
    """Most flight duty period, by its start and its flight segments (117.13, Table B)."""
    hours = next(row for starts, row in TABLE_B.items() if clock // 60 in starts)
    return int(60 * hours[min(segments, 7) - 1])


def lists(items: list, may_follow: Callable[..., bool], is_within: Callable[[tuple], bool]) -> list[tuple]:
    """Every list within limits in which each item may follow the one before, from where that arrives.
    One that passes a limit isn't made longer: times only grow, and limits don't where a list does."""
    after = {item: [other for other in items if item.target == other.origin and may_follow(item, other)]
             for item in items}
    found, waiting = [], [(item,) for item in items]
    while waiting:
        line = waiting.pop()
        if is_within(line):
            found.append(line)
            waiting.extend(line + (item,) for item in after[line[-1]])
    return found


def legal_duties(all_flights: list[Flight], limits: dict[str, int], bonds: Bonds) -> list[Duty]:
    def duty_of(legs: tuple[Leg, ...]) -> Duty:
        # From report to the last arrival the duty is a flight duty period (117.3).
        first, last = legs[0].flight, legs[-1].flight
        report, release = first.dep - limits["lead"], last.arr + limits["debrief"]
        return Duty(legs, first.origin, last.target, report, release, last.arr - report, sum(leg.fly for leg in legs))

    def may_follow(before: Leg, after: Leg) -> bool:
        least = bonds.turns.get((before.flight.number, after.flight.number), limits["connect"])
        return (least <= after.flight.dep - before.flight.arr <= limits["sit"]
                and bonds.keep(before.flight, after.flight))

    def is_within(legs: tuple[Leg, ...]) -> bool:
        duty, clock = duty_of(legs), legs[0].flight.clock
        ridden = sum(leg.ridden for leg in legs)
        # A leg that is ridden is no flight segment (117.3). The last one is flown, so there is one at least.
        segments = max(len(legs) - ridden, 1)
        return (len(legs) <= MOST_LEGS and ridden <= limits["deadheads"] and duty.fly <= table_a(clock)
                and duty.fdp <= table_b(clock, segments))

    legs = [Leg(flight, ridden) for flight in all_flights for ridden in (False, True)]
    return [duty_of(found) for found in lists(legs, may_follow, is_within) if not found[-1].ridden]


def pays_of(duties: tuple[Duty, ...], limits: dict[str, int]) -> int:
    """What the duties pay, each by its flight time, by a rig on its minutes or the least of a duty."""
    return sum(max(14 * duty.fly, limits["duty_rig"] * (duty.release - duty.report), limits["duty_min"])
               for duty in duties)


def pairing_of(duties: tuple[Duty, ...], limits: dict[str, int]) -> Pairing:
    """It pays the greatest of the sum of its duties' pays, a rig on minutes away, and a guarantee a duty."""
    away = duties[-1].release - duties[0].report
    pay = max(pays_of(duties, limits), limits["trip_rig"] * away, limits["guarantee"] * len(duties))
    walk = tuple(tuple((leg.flight.number, leg.ridden) for leg in duty.legs) for duty in duties)
    return Pairing(duties[0].origin, walk, pay, away)


def minutes_within(duties: tuple[Duty, ...], start: int, end: int) -> int:
    """The minutes of flight duty periods between two instants."""
    return sum(max(0, min(duty.arrival, end) - max(duty.report, start)) for duty in duties)


def most_in_a_window(duties: tuple[Duty, ...]) -> int:
    """The most flight duty minutes of 168 hours in a row. What a window holds rises and falls evenly as the window
    moves, but where it begins or ends with a period."""
    bounds = [bound for duty in duties for bound in (duty.report, duty.arrival)]
    return max(minutes_within(duties, start, start + WINDOW) for bound in bounds for start in (bound, bound - WINDOW))


def has_free_hours(duties: tuple[Duty, ...], report: int) -> bool:
    """Whether the crew has 30 hours free from duty, from report to release, within the 168 before a report; the 30
    before the first report are free, and of those before them nothing is known. They may as well end with a report."""
    starts = (duty.report - LONG_REST for duty in duties)
    return any(report - WINDOW <= start and start + LONG_REST <= report
               and all(duty.release <= start or start + LONG_REST <= duty.report for duty in duties)
               for start in starts)


def partials(text: str, settings: dict[str, int]) -> list[tuple[Duty, ...]]:
    """All legal lists of duties from a base. Settings that aren't given are at their defaults."""
    (flights, bases), limits, bonds = read(text, settings), with_defaults(settings), Bonds(text)

    def may_follow(before: Duty, after: Duty) -> bool:
        # Ten hours of rest or more, from release to report (117.25(e)).
        return (LEAST_REST <= after.report - before.release <= limits["max_rest"]
                and bonds.keep(before.legs[-1].flight, after.legs[0].flight))

    def is_within(duties: tuple[Duty, ...]) -> bool:
        return (duties[0].origin in bases and duties[0].legs[0].flight.number not in bonds.lead
                and len(duties) <= limits["max_duties"]
                # At most 60 hours of flight duty periods in any 168, and 190 in 672 (117.23(c)).
                and most_in_a_window(duties) <= limits["fdp_cap"]
                and sum(duty.fdp for duty in duties) <= limits["fdp_total"]
                # At most 100 hours of flight in 672 (117.23(b)(1)).
                and sum(duty.fly for duty in duties) <= limits["fly_cap"]
                and duties[-1].release - duties[0].report <= limits["away_cap"]
                # 30 hours free from duty in the 168 before each report (117.25(b)).
                and all(has_free_hours(duties, duty.report) for duty in duties))

    return lists(legal_duties(list(flights.values()), limits, bonds), may_follow, is_within)


def is_home(duties: tuple[Duty, ...], bonds: Bonds) -> bool:
    return duties[-1].target == duties[0].origin and duties[-1].legs[-1].flight.number not in bonds.next


def pairings(text: str, settings: dict[str, int]) -> list[Pairing]:
    """All legal pairings, by base and walk."""
    limits, bonds = with_defaults(settings), Bonds(text)
    found = [pairing_of(duties, limits) for duties in partials(text, settings) if is_home(duties, bonds)]
    return sorted(found, key=lambda pairing: (pairing.base, pairing.walk))


def cost(pairing: Pairing, timetable: Timetable) -> int:
    """Pay less the prices of the flights that the crew flies and of the base."""
    flights, bases = timetable
    prices = sum(flights[number].price for number in pairing.flown)
    return pairing.pay - prices - bases[pairing.base]


def best(text: str, settings: dict[str, int]) -> Pairing | None:
    """The pairing that costs least, and of several the first by walk; none where there is no pairing."""
    timetable = read(text, settings)
    return min(pairings(text, settings), default=None,
               key=lambda pairing: (cost(pairing, timetable), pairing.walk))


Periods = tuple[tuple[int, int], ...]
Vector = tuple[tuple[int, ...], Periods]  # numbers, of which less is better, and the last periods of flight duty


def since_rest(duties: tuple[Duty, ...]) -> int:
    """Minutes from the end of the last long rest, or from the first report, to the last one."""
    ends = [after.report for before, after in zip(duties, duties[1:]) if after.report - before.release >= LONG_REST]
    return duties[-1].report - (ends or [duties[0].report])[-1]


def last_periods(duties: tuple[Duty, ...]) -> Periods:
    """What of the flight duty periods lies within the 168 hours that end with the last arrival."""
    start = duties[-1].arrival - WINDOW
    return tuple((max(duty.report, start), duty.arrival) for duty in duties if duty.arrival > start)


def vector(duties: tuple[Duty, ...], timetable: Timetable, limits: dict[str, int]) -> Vector:
    """Three costs, by duties, by minutes away and by the guarantee, and what the caps limit. A pairing that may be
    away more than 138 hours has a past besides, which tells what it may still do."""
    _, bases = timetable
    prices = bases[duties[0].origin] + sum(
        leg.flight.price for duty in duties for leg in duty.legs if not leg.ridden)
    away = duties[-1].release - duties[0].report
    sums = (pays_of(duties, limits) - prices, limits["trip_rig"] * away - prices,
            limits["guarantee"] * len(duties) - prices,
            sum(duty.fdp for duty in duties), sum(duty.fly for duty in duties), len(duties), away)
    if limits["away_cap"] <= WINDOW - LONG_REST:
        return sums, ()
    return (*sums, since_rest(duties)), last_periods(duties)


def is_no_more(one: Periods, other: Periods) -> bool:
    """Whether after every instant there are no more minutes of one than of the other: after those at which one of
    their periods begins or ends."""
    def after(periods: Periods, instant: int) -> int:
        return sum(max(0, end - max(start, instant)) for start, end in periods)

    return all(after(one, bound) <= after(other, bound) for period in one + other for bound in period)


def is_beaten(one: Vector, others: set[Vector]) -> bool:
    return any(other != one and all(a <= b for a, b in zip(other[0], one[0])) and is_no_more(other[1], one[1])
               for other in others)


def shown(text: str, settings: dict[str, int]) -> list[Pairing]:
    """The pairings in the fronts, by cost and walk. A front has each vector of its base and last duty that no
    other beats, with the first walk that has it, of those none of whose beginnings is beaten where it ends."""
    timetable, limits, bonds = read(text, settings), with_defaults(settings), Bonds(text)
    lists_at: dict[tuple[str, Duty], list[tuple[Duty, ...]]] = {}
    for duties in partials(text, settings):
        lists_at.setdefault((duties[0].origin, duties[-1]), []).append(duties)
    left = {}
    for node, lines in lists_at.items():
        vectors = {vector(duties, timetable, limits) for duties in lines}
        left[node] = {one for one in vectors if not is_beaten(one, vectors)}

    def is_clean(duties: tuple[Duty, ...]) -> bool:
        return all(vector(duties[:count], timetable, limits) in left[duties[0].origin, duties[count - 1]]
                   for count in range(1, len(duties) + 1))

    found = []
    for lines in lists_at.values():
        first: dict[Vector, Pairing] = {}
        for duties in filter(is_clean, (it for it in lines if is_home(it, bonds))):
            pairing, one = pairing_of(duties, limits), vector(duties, timetable, limits)
            if one not in first or pairing.walk < first[one].walk:
                first[one] = pairing
        found += first.values()
    return sorted(found, key=lambda pairing: (cost(pairing, timetable), pairing.walk))
