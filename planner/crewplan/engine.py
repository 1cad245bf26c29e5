"""The pricing engine under a plan: a session of it (`clients/python`), with prices that are sent only where they change.

Whatever the engine refuses, and its end before an answer, is a fault of one line.
"""
from __future__ import annotations

import os
import select
import time
from collections.abc import Iterable, Iterator
from contextlib import contextmanager

from .client import EngineEnded, NotUnderstood, Refused, Session
from .faults import EngineFault, ScheduleFault
from .pairing import Pairing
from .prices import Prices
from .timetable import Timetable, record_of

PATIENCE = 60.0  # seconds for the first answer, which wants no work
MOST_EDITS = 900_000  # of one session, which takes 1,000,000


REFUSALS = {4: 'the rule of a zone is a POSIX rule of local time', 29: 'a session holds 5,000 flights',
            30: 'a session holds 16 bases', 75: 'a session holds 2,000 zones',
            40: 'there are more than 200,000 legal duties: give the engine a lesser --sit, as -- --sit 180'}


@contextmanager
def one_line() -> Iterator[None]:
    """What a session raises as a fault of one line."""
    try:
        yield
    except Refused as refused:
        why = REFUSALS.get(refused.reason, 'docs/sessions.md has the refusals')
        raise ScheduleFault(f'the engine refused {refused.record!r} by {refused.reason}: {why}') from None
    except EngineEnded as fault:
        hint = '; `./crewprice prove` makes it, where it is not proved yet' if fault.status == EngineFault.status else ''
        raise EngineFault(f'{fault}{hint}') from None
    except NotUnderstood as fault:
        raise EngineFault(str(fault)) from None


class Engine:
    """Flights, prices and questions. Where a session has taken nearly as many edits as it may, it goes on by a new one
    with the prices and follow-ons as they stand.

    `seconds` is the time that settles and lists took by the clock, `settles` their number."""

    def __init__(self, program: str, options: list[str], timetable: Timetable):
        self.program, self.options = program, options
        self.rules = timetable.rules
        self.flights = timetable.flights
        self.follows: dict[int, int] = {}
        self.prices: dict[int, int] = dict.fromkeys(timetable.flights, 0)
        self.base_prices: dict[str, int] = dict.fromkeys(timetable.bases, 0)
        self.seconds = 0.0
        self.settles = 0
        self.processor_before = 0.0
        self.start()

    def __enter__(self) -> Engine:
        return self

    def __exit__(self, *_: object) -> None:
        self.session.process.kill()
        self.session.close()

    def start(self) -> None:
        """Starts the program, and gives it the zones, bases, flights and follow-ons as they stand."""
        try:
            self.session = Session(self.program, self.options)
        except EngineEnded as fault:
            raise EngineFault(f'{fault}: name the engine by --program') from None
        self.greet()
        self.send(f'zone,{code},"{rule}"' for code, rule in self.rules.items())
        self.send(f'base,{base},{price}' for base, price in self.base_prices.items())
        self.send(record_of(flight, self.prices[number]) for number, flight in self.flights.items())
        self.send(f'follow,{first},{second}' for first, second in self.follows.items())

    def greet(self) -> None:
        """Asks what every engine answers at once, so that one which never answers is told of."""
        with one_line():
            self.session.put('best')
            if not select.select([self.session.process.stdout], [], [], PATIENCE)[0]:
                self.session.process.kill()
                raise EngineFault(f'{self.program}: no answer within {PATIENCE:.0f} seconds: is it the engine?')
            if (line := self.session.take()) != 'best none':
                raise EngineFault(f'{self.program}: it answers {line[:40]!r}, and not as the engine does')

    def send(self, records: Iterable[str]) -> None:
        """Zones and edits, of which none may be refused."""
        with one_line():
            for record in records:
                self.session.send(record)
                self.see_refused()

    def see_refused(self) -> None:
        if self.session.refused:
            raise self.session.refused[0]

    def set_prices(self, prices: Prices) -> None:
        """Whole points, each from -10^9 to 10^9."""
        if self.session.sent > MOST_EDITS:
            self.renew()
        for kind, asked, held in (('price', prices.flights, self.prices), ('baseprice', prices.bases, self.base_prices)):
            changed = {name: int(price) for name, price in asked.items() if held[name] != price}
            self.send(f'{kind},{name},{price}' for name, price in changed.items())
            held.update(changed)

    def bind(self, pairs: Iterable[tuple[int, int]]) -> None:
        """Lets the second flight of each pair follow the first in every pairing."""
        for first, second in pairs:
            self.follows[first] = second
            self.send((f'follow,{first},{second}',))

    def unbind(self, pairs: Iterable[tuple[int, int]]) -> None:
        for first, _ in pairs:
            del self.follows[first]
            self.send((f'follow,{first}',))

    def cheapest(self, most: int, share: int) -> list[tuple[Pairing, int]]:
        """Settles, and lists pairings with their costs, up to so many, the cheapest first; where `share` isn't 0,
        without those that fly a flight which so many listed ones fly already."""
        began = time.perf_counter()
        with one_line():
            for refused in self.session.settle().refused:
                raise refused
            found = [(Pairing(it.base, it.walk, it.pay, it.away), it.cost) for it in self.session.pairings(most, share)]
        self.seconds += time.perf_counter() - began
        self.settles += 1
        return found

    def leasts(self) -> dict[str, int]:
        """The least cost of a pairing of each base, under the prices of the last settle; none where a base has none."""
        began = time.perf_counter()
        with one_line():
            bests = {base: self.session.best(base) for base in self.base_prices}
        self.seconds += time.perf_counter() - began
        return {base: best.cost for base, best in bests.items() if best}

    def renew(self) -> None:
        """A new session with all as it stands."""
        self.processor_before = self.processor_seconds()
        self.__exit__()
        self.start()

    def processor_seconds(self) -> float:
        """What the engine's processes took so far of a processor, where the system tells."""
        try:
            with open(f'/proc/{self.session.process.pid}/stat', encoding='utf-8') as file:
                words = file.read().rsplit(')', 1)[1].split()
        except OSError:
            return self.processor_before
        return self.processor_before + (int(words[11]) + int(words[12])) / os.sysconf('SC_CLK_TCK')
