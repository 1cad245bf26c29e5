"""The pool: every pairing that the engine has listed, beside the engine, priced by a sparse product."""
from __future__ import annotations

from collections.abc import Iterable, Mapping

import numpy
from scipy.sparse import csr_array

from .pairing import Pairing
from .timetable import Timetable

EPSILON = 1e-6
NONE = -1


class Rows:
    """The rows of a master problem: one for each flight to be covered, then one for each base where bases have a
    capacity, which is the most pairings that one base may have."""

    def __init__(self, timetable: Timetable, capacity: int | None):
        self.flights = {number: row for row, number in enumerate(timetable.flights)}
        self.numbers = list(timetable.flights)
        self.bases = {} if capacity is None else {base: len(self.flights) + place
                                                  for place, base in enumerate(timetable.bases)}
        self.limits = [1.0] * len(self.flights) + [float(capacity or 0)] * len(self.bases)

    def of_numbers(self, numbers: numpy.ndarray) -> numpy.ndarray:
        """The rows of flights by their numbers, NONE where one has no row."""
        order = numpy.argsort(self.numbers)
        places = numpy.searchsorted(self.numbers, numbers, sorter=order)
        rows = order[numpy.minimum(places, len(order) - 1)]
        return numpy.where(numpy.array(self.numbers)[rows] == numbers, rows, NONE)


class Pool:
    """Pairings in the order in which they came, each once. `pays` has their pays, and `legs` a line for each leg of
    each: its pairing, the row of its flight, those of the flights before and after it (NONE at an end), and whether the
    crew flies it and the next one."""

    def __init__(self, rows: Rows):
        self.rows = rows
        self.pairings: list[Pairing] = []
        self.rows_of: list[list[int]] = []
        self.known: dict[tuple[str, str], int] = {}
        self.pays = numpy.zeros(0)
        self.matrix = csr_array((0, len(rows.limits)))
        self.legs = numpy.zeros((0, 5), numpy.int32)

    def __len__(self) -> int:
        return len(self.pairings)

    def add(self, found: Iterable[Pairing]) -> int:
        """Takes in those that aren't there yet, and says how many those were."""
        new = [pairing for pairing in found if (pairing.base, pairing.walk) not in self.known]
        if not new:
            return 0
        first = len(self.pairings)
        self.known.update(((pairing.base, pairing.walk), place) for place, pairing in enumerate(new, first))
        self.pairings += new
        self.pays = numpy.concatenate((self.pays, [float(pairing.pay) for pairing in new]))
        legs, is_flown = self.legs_of(new)
        place, rows = legs[is_flown, 0], legs[is_flown, 1]
        if self.rows.bases:
            place = numpy.concatenate((place, numpy.arange(len(new))))
            rows = numpy.concatenate((rows, [self.rows.bases[pairing.base] for pairing in new]))
            order = numpy.argsort(place, kind='stable')
            place, rows = place[order], rows[order]
        ends = numpy.cumsum(numpy.bincount(place, minlength=len(new)))
        listed = rows.tolist()
        self.rows_of += [listed[begin:end] for begin, end in zip([0, *ends.tolist()], ends.tolist())]
        held = self.matrix
        self.matrix = csr_array((numpy.ones(held.nnz + len(rows)),
                                 numpy.concatenate((held.indices, rows)).astype(numpy.int32),
                                 numpy.concatenate((held.indptr, ends + held.nnz)).astype(numpy.int32)),
                                shape=(len(self.pairings), len(self.rows.limits)))
        legs[:, 0] += first
        self.legs = numpy.concatenate((self.legs, legs))
        return len(new)

    def legs_of(self, pairings: list[Pairing]) -> tuple[numpy.ndarray, numpy.ndarray]:
        """Lines for the legs of these, counted from 0, and which of them the crew flies."""
        text = ' '.join(pairing.walk for pairing in pairings).replace('-', ' ')
        place = numpy.repeat(numpy.arange(len(pairings)),
                             [pairing.walk.count('-') + pairing.walk.count(' ') + 1 for pairing in pairings])
        rows = self.rows.of_numbers(numpy.fromstring(text.replace('d', ''), int, sep=' '))
        is_flown = numpy.ones(len(rows), bool) if 'd' not in text else numpy.array([word[-1] != 'd' for word in text.split()])
        is_last = numpy.append(place[1:] != place[:-1], True)
        previous = numpy.where(numpy.roll(is_last, 1), NONE, numpy.roll(rows, 1))
        following = numpy.where(is_last, NONE, numpy.roll(rows, -1))
        is_both = is_flown & numpy.roll(is_flown, -1) & ~is_last
        return numpy.column_stack((place, rows, previous, following, is_both)).astype(numpy.int32), is_flown

    def part(self, wanted: numpy.ndarray) -> Pool:
        """Another pool, of the pairings of this mask, in their order."""
        other = Pool(self.rows)
        places = numpy.flatnonzero(wanted)
        other.pairings = [self.pairings[place] for place in places]
        other.rows_of = [self.rows_of[place] for place in places]
        other.known = {(pairing.base, pairing.walk): place for place, pairing in enumerate(other.pairings)}
        other.pays, other.matrix = self.pays[places], self.matrix[places]
        other.legs = self.legs[wanted[self.legs[:, 0]]]
        other.legs[:, 0] = (numpy.cumsum(wanted) - 1)[other.legs[:, 0]]
        return other

    def places(self, pairings: Iterable[Pairing]) -> list[int]:
        """Where these are, which are all there."""
        return [self.known[pairing.base, pairing.walk] for pairing in pairings]

    def follow_ons(self, values: numpy.ndarray) -> list[tuple[float, tuple[int, int]]]:
        """The flights that a crew flies one directly after the other, where pairings have these values: how much of
        both is flown so, the greatest first, with their numbers. Those that came after the values have none."""
        values = numpy.concatenate((values, numpy.zeros(len(self) - len(values))))
        place, row, _, following, is_flown = self.legs.T
        used = (is_flown != 0) & (values[place] > EPSILON)
        keys, where = numpy.unique(row[used].astype(numpy.int64) * len(self.rows.numbers) + following[used],
                                   return_inverse=True)
        weights = numpy.bincount(where, values[place[used]], len(keys))
        numbers = self.rows.numbers
        order = numpy.lexsort((keys, -numpy.round(weights, 9)))
        return [(float(weights[at]), (numbers[keys[at] // len(numbers)], numbers[keys[at] % len(numbers)]))
                for at in order]

    def reduced(self, duals: numpy.ndarray) -> numpy.ndarray:
        """The reduced cost of each pairing."""
        return self.pays - self.matrix @ duals

    def improving(self, duals: numpy.ndarray, most: int, share: int,
                  left_out: numpy.ndarray) -> tuple[numpy.ndarray, float]:
        """Places of pairings that improve under these duals, the best first, up to so many, of which no more than
        `share` fly a flight (any number for 0); and the reduced cost of the best, or 0."""
        reduced = numpy.where(left_out, 0.0, self.reduced(duals))
        places = numpy.flatnonzero(reduced < -EPSILON)
        places = places[numpy.argsort(reduced[places], kind='stable')]
        least = float(reduced[places[0]]) if len(places) else 0.0
        if not share:
            return places[:most], least
        used = numpy.zeros(len(self.rows.flights), int)
        taken: list[int] = []
        for place in places:
            rows = self.rows_of[place][:-1] if self.rows.bases else self.rows_of[place]
            if (used[rows] < share).all():
                used[rows] += 1
                taken.append(place)
                if len(taken) == most:
                    break
        return numpy.array(taken, int), least

    def against(self, after: Mapping[int, int], before: Mapping[int, int]) -> numpy.ndarray:
        """Which pairings break a follow-on: one flight without the other, or another between them."""
        wanted_after, wanted_before = self.wanted(after), self.wanted(before)
        _, row, previous, following, _ = self.legs.T
        breaks = ((wanted_after[row] != NONE) & (wanted_after[row] != following)
                  | (wanted_before[row] != NONE) & (wanted_before[row] != previous))
        found = numpy.zeros(len(self), bool)
        found[self.legs[breaks, 0]] = True
        return found

    def wanted(self, flights: Mapping[int, int]) -> numpy.ndarray:
        """By row the row of the flight that has to stand beside it, and NONE behind the last row, for a flight that
        has no row."""
        found = numpy.full(len(self.rows.flights) + 1, NONE, numpy.int32)
        for one, other in flights.items():
            found[self.rows.flights[one]] = self.rows.flights[other]
        return found
