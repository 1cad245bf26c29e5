"""What a session and a connection to a service have in common: edits and questions by calls, answers from lines."""
from __future__ import annotations

from abc import ABC, abstractmethod
from collections.abc import Iterable
from dataclasses import dataclass, field
from datetime import datetime

from .explanation import Broken, DutyFigures, Legal, broken_of
from .faults import EngineEnded, NotUnderstood, Refused
from .pairing import Duty, Entry, Pairing, duty_text
from .timetable import Flight, Timetable, time_text

UNREAD = 1_500  # records with no question among them: what is refused at once of so many fits into a pipe


@dataclass(frozen=True)
class Version:
    """What a settle made: its number, the entries in it, the flights in its timetable, and the records that were refused
    since the settle before: they changed nothing."""
    number: int
    entries: int
    flights: int
    refused: tuple[Refused, ...] = field(default=())


@dataclass(frozen=True)
class Audit:
    """The partial pairings and the pairings of a version, counted one by one, and the least cost of a pairing."""
    partials: int
    pairings: int
    cost: int | None


class Client(ABC):
    """A client of an engine. Edits are sent as they are made, and count from the next `settle` on; questions are of
    the version that is published, and are answered before the call returns. It is no more than one thread's.

    `sent` counts the records, and `refused` has those that were refused since the last settle, as far as that was
    told."""

    def __init__(self) -> None:
        self.sent = 0
        self.refused: list[Refused] = []
        self._unread = 0
        self._records: dict[int, str] = {}

    @abstractmethod
    def close(self) -> int:
        """Ends the client's part; 0 where all went well."""

    @abstractmethod
    def take(self) -> str:
        """The next line of the answer that is on its way."""

    @abstractmethod
    def _put_line(self, line: str) -> None:
        """Sends a line, at the latest with the next `_flush`."""

    @abstractmethod
    def _flush(self) -> None: ...

    @abstractmethod
    def _ended(self) -> EngineEnded | Refused:
        """Why no more can be written or read."""

    # ---- edits

    def zone(self, code: str, rule: str) -> int:
        """Gives an airport its clock, by a POSIX rule of local time. An edit's number is that of its record."""
        return self.send(f'zone,{code},"{rule}"')

    def base(self, code: str, price: int = 0) -> int:
        return self.send(f'base,{code},{price}')

    def base_price(self, code: str, price: int) -> int:
        return self.send(f'baseprice,{code},{price}')

    def flight(self, flight: Flight) -> int:
        return self.send(flight.record)

    def cancel(self, number: int) -> int:
        return self.send(f'cancel,{number}')

    def retime(self, number: int, origin: str, departure: datetime, arrival: datetime) -> int:
        """`origin` is the airport that the flight leaves, which can't be changed."""
        return self.send(f'retime,{number},{origin},{time_text(departure)},{time_text(arrival)}')

    def price(self, number: int, price: int) -> int:
        return self.send(f'price,{number},{price}')

    def turn(self, before: int, after: int, minutes: int) -> int:
        """The least minutes on the ground between two flights that are neighbours in a duty, in place of `connect`: 0 to
        1,441. More than `sit` forbid the connection, 1,441 whatever that is."""
        return self.send(f'turn,{before},{after},{minutes}')

    def take_turn(self, before: int, after: int) -> int:
        return self.send(f'turn,{before},{after}')

    def follow(self, before: int, after: int) -> int:
        """In each pairing one flight is the next leg after another, in the same duty or as the first of the next, or
        neither is there."""
        return self.send(f'follow,{before},{after}')

    def take_follow(self, before: int) -> int:
        return self.send(f'follow,{before}')

    def load(self, timetable: Timetable) -> None:
        self.send_all(timetable.records())

    def send(self, record: str) -> int:
        """A zone or an edit as its record; its number. What is refused of it is told by the next settle."""
        self._write(record)
        self._records[self.sent] = record
        self._unread += 1
        if self._unread >= UNREAD:
            self.ask('best')
        return self.sent

    def send_all(self, records: Iterable[str]) -> None:
        for record in records:
            self.send(record)

    # ---- questions

    def settle(self) -> Version:
        """Makes the next version of all edits so far. `Refused` by 40 where there are too many legal duties: the version
        before stays, and the edits belong to the next settle."""
        words = self.ask('settle').split(' ')
        match words:
            case ['version', number, 'entries', entries, 'flights', flights]:
                refused, self.refused = tuple(self.refused), []
                self._records.clear()
                return Version(int(number), int(entries), int(flights), refused)
        raise NotUnderstood(f'no version: {" ".join(words)!r}')

    def best(self, base: str | None = None) -> Pairing | None:
        """The legal pairing of least cost, of all bases or of one; none where there is no legal pairing."""
        line = self.ask('best' if base is None else f'best,{base}')
        if line == 'best none':
            return None
        return self._pairing('best', line)

    def pairings(self, limit: int, share: int = 0, base: str | None = None) -> list[Pairing]:
        """The pairings of least cost that the fronts show, up to so many, the cheapest first. With a `share` each is
        left out that flies a flight which so many listed before it fly: diverse columns. Of one base, where one is
        named."""
        question = f'pairings,{limit}'
        if base is not None:
            question += f',{share},{base}'
        elif share:
            question += f',{share}'
        count = self._number('pairings', self.ask(question))
        return [self._pairing('pairing', self.take()) for _ in range(count)]

    def front(self, base: str, duty: str | Duty) -> list[Entry] | None:
        """The Pareto front of a base and a duty; none where the code is no base or the duty isn't legal."""
        text = duty if isinstance(duty, str) else duty_text(duty)
        line = self.ask(f'front,{base},{text}')
        if line == f'front {base} {text} none':
            return None
        count = self._number(f'front {base} {text} entries', line)
        return [self._entry(self.take()) for _ in range(count)]

    def explain(self, base: str, walk: str) -> Legal | Broken:
        """Why a walk, such as `11-13 21-22`, is or isn't a legal pairing of a base: its figures and those of each duty,
        or the first rule that it breaks."""
        match self.ask(f'explain,{base},{walk}').split(' '):
            case ['explain', _, 'legal', 'cost', cost, 'pay', pay, 'away', away, 'by', by]:
                duties = tuple(DutyFigures.of_line(self.take()) for _ in walk.split(' '))
                return Legal(int(cost), int(pay), int(away), by, duties)
            case ['explain', _, 'broken', *rule]:
                return broken_of(rule)
            case words:
                raise NotUnderstood(f'no explanation: {" ".join(words)!r}')

    def audit(self, limit: int) -> Audit:
        """Counts all partial pairings one by one; `Refused` by 45 where there are more than the limit."""
        words = self.ask(f'audit,{limit}').split(' ')
        match words:
            case ['audit', 'partials', partials, 'pairings', pairings, 'cost', cost]:
                return Audit(int(partials), int(pairings), None if cost == 'none' else int(cost))
        raise NotUnderstood(f'no audit: {" ".join(words)!r}')

    def ask(self, question: str) -> str:
        """The first line of the answer to a question as its record; `Refused` where the question is."""
        self.put(question)
        while (line := self.take()).startswith('record '):
            refused = self._told(line, question)
            if refused.number == self.sent:
                raise refused
            self.refused.append(refused)
        return line

    # ---- lines

    def _told(self, line: str, question: str) -> Refused:
        match line.split(' '):
            case ['record', number, 'refused', reason]:
                return Refused(int(number), self._records.get(int(number), question), int(reason))
        raise NotUnderstood(f'no refusal: {line!r}')

    @staticmethod
    def _number(before: str, line: str) -> int:
        head, _, count = line.rpartition(' ')
        if head != before or not count.isdigit():
            raise NotUnderstood(f'{line!r}, where {before!r} and a number should be')
        return int(count)

    @staticmethod
    def _pairing(kind: str, line: str) -> Pairing:
        head, _, rest = line.partition(' ')
        base, _, words = rest.partition(' ')
        if head != kind:
            raise NotUnderstood(f'no {kind}: {line!r}')
        return Pairing.of_words(base, words)

    @staticmethod
    def _entry(line: str) -> Entry:
        head, _, words = line.partition(' ')
        if head != 'entry':
            raise NotUnderstood(f'no entry: {line!r}')
        return Entry.of_words(words)

    def put(self, question: str) -> None:
        """Sends a question as its record, and all before it. Its answer is taken line by line."""
        self._write(question)
        try:
            self._flush()
        except (BrokenPipeError, ConnectionResetError):
            raise self._ended() from None
        self._unread = 0

    def _write(self, record: str) -> None:
        if '\n' in record or '\r' in record:
            raise ValueError(f'{record!r}: a record is one line')
        try:
            self._put_line(record)
        except (BrokenPipeError, ConnectionResetError):
            raise self._ended() from None
        self.sent += 1
