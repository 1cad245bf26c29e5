"""Linear programs that grow by columns, warm where the machine has COIN-OR's Clp.

Each program has a row that is met exactly for each flight, then a row of an upper limit for each base where bases have
one. A column has a cost in points and a one in some rows; it is 0 or more.
"""
from __future__ import annotations

import ctypes
from collections.abc import Sequence
from dataclasses import dataclass
from functools import cache
from typing import Protocol

import numpy
from scipy.optimize import linprog
from scipy.sparse import csc_array

from .faults import Fault

FEW, MANY = 500, 0.3  # where more columns than that, and of all that part, are new an interior point method goes first
VERTEX = 1e-9  # values above that are not 0


@dataclass(frozen=True)
class Solved:
    """An optimum: its cost, a dual for each row, a value for each column."""
    objective: float
    duals: numpy.ndarray
    values: numpy.ndarray


class Master(Protocol):
    """A linear program that is solved again and again."""
    name: str
    width: int  # how many columns there are
    iterations: int

    def add(self, costs: Sequence[float], rows: Sequence[Sequence[int]]) -> None:
        """Adds columns behind those that there are."""

    def forbid(self, forbidden: numpy.ndarray) -> None:
        """Holds the columns of the mask at 0, and no others."""

    def drop(self, dropped: numpy.ndarray) -> None:
        """Takes the columns of the mask out; the others keep their order."""

    def solve(self) -> Solved:
        """Solves it. Raises Fault where that fails."""


def master_of(limits: Sequence[float], exact: int, solver: str = 'auto') -> Master:
    """A program of so many rows, the first of which are exact: Clp's, or by `highs`, and where there is no Clp,
    SciPy's."""
    if solver == 'highs' or (solver == 'auto' and clp_library() is None):
        return HighsMaster(limits, exact)
    if clp_library() is None:
        raise Fault('libClp.so.1 is not installed: apt-get install coinor-libclp1, or leave out --master')
    return ClpMaster(limits, exact)


def starts_of(rows: Sequence[Sequence[int]]) -> tuple[numpy.ndarray, numpy.ndarray]:
    """Where each column begins in the list of all rows, and that list."""
    starts = numpy.zeros(len(rows) + 1, numpy.int32)
    starts[1:] = numpy.cumsum([len(column) for column in rows])
    return starts, numpy.fromiter((row for column in rows for row in column), numpy.int32, count=int(starts[-1]))


@cache
def clp_library() -> ctypes.CDLL | None:
    """Clp's C interface, with the types of what is called of it; none where the library isn't installed."""
    try:
        library = ctypes.CDLL('libClp.so.1')
    except OSError:
        return None
    model, number, array = ctypes.c_void_p, ctypes.c_int, ctypes.c_void_p
    doubles = ctypes.POINTER(ctypes.c_double)
    for name, result, given in (
            ('newModel', model, []), ('deleteModel', None, [model]), ('setLogLevel', None, [model, number]),
            ('setPerturbation', None, [model, number]), ('resize', None, [model, number, number]),
            ('addRows', None, [model, number] + [array] * 5), ('addColumns', None, [model, number] + [array] * 6),
            ('deleteColumns', None, [model, number, array]), ('chgColumnUpper', None, [model, array]),
            ('primal', number, [model, number]), ('dual', number, [model, number]),
            ('copyinStatus', None, [model, array]), ('status', number, [model]),
            ('numberIterations', number, [model]), ('getObjValue', ctypes.c_double, [model]),
            ('getRowPrice', doubles, [model]), ('getColSolution', doubles, [model])):
        function = getattr(library, f'Clp_{name}')
        function.restype, function.argtypes = result, given
    return library


def pointer(array: numpy.ndarray) -> int:
    return array.ctypes.data


class ClpMaster:
    """Clp: from the basis of the last optimum by the primal simplex method where columns came, and by the dual one
    where columns are held at 0. From cold, or where many columns are new, HiGHS's interior point method comes first, and
    Clp goes on from the vertex that it ends at."""
    name = 'Clp'
    ENDLESS = 1e30  # no upper bound
    PERTURB = 50
    BASIC, AT_LOWER, FIXED = 1, 3, 5  # what Clp calls the place of a column or a row in a basis

    def __init__(self, limits: Sequence[float], exact: int):
        self.library = clp_library()
        self.model = self.library.Clp_newModel()
        self.library.Clp_setLogLevel(self.model, 0)
        self.library.Clp_setPerturbation(self.model, self.PERTURB)
        self.rows, self.width, self.iterations = len(limits), 0, 0
        self.new = 0  # columns since the last optimum
        self.is_cut = False  # whether a column is held at 0 since then
        self.interior = HighsMaster(limits, exact)
        upper = numpy.array(limits, float)
        lower = numpy.where(numpy.arange(len(limits)) < exact, upper, -self.ENDLESS)
        starts = numpy.zeros(len(limits) + 1, numpy.int32)
        self.library.Clp_resize(self.model, 0, 0)
        self.library.Clp_addRows(self.model, len(limits), pointer(lower), pointer(upper), pointer(starts), None, None)

    def __del__(self) -> None:
        if getattr(self, 'model', None):
            self.library.Clp_deleteModel(self.model)

    def add(self, costs: Sequence[float], rows: Sequence[Sequence[int]]) -> None:
        if not rows:
            return
        starts, places = starts_of(rows)
        count = len(rows)
        lower, upper = numpy.zeros(count), numpy.full(count, self.ENDLESS)
        all_costs, ones = numpy.array(costs, float), numpy.ones(len(places))
        self.library.Clp_addColumns(self.model, count, pointer(lower), pointer(upper), pointer(all_costs),
                                    pointer(starts), pointer(places), pointer(ones))
        self.width += count
        self.new += count
        self.interior.add(costs, rows)

    def forbid(self, forbidden: numpy.ndarray) -> None:
        self.interior.forbid(forbidden)
        upper = numpy.where(forbidden, 0.0, self.ENDLESS)
        self.library.Clp_chgColumnUpper(self.model, pointer(upper))
        self.is_cut = True

    def drop(self, dropped: numpy.ndarray) -> None:
        self.interior.drop(dropped)
        places = numpy.flatnonzero(dropped).astype(numpy.int32)
        self.library.Clp_deleteColumns(self.model, len(places), pointer(places))
        self.width -= len(places)

    def solve(self) -> Solved:
        clp, model = self.library, self.model
        is_cold = self.new > max(FEW, MANY * self.width)
        if is_cold:
            self.begin_at_vertex()
        elif self.is_cut:
            clp.Clp_dual(model, 0)
            self.iterations += clp.Clp_numberIterations(model)
        if is_cold or not self.is_cut or clp.Clp_status(model) != 0:
            clp.Clp_primal(model, 0)
            self.iterations += clp.Clp_numberIterations(model)
        if clp.Clp_status(model) != 0:
            raise Fault(f'Clp ended with status {clp.Clp_status(model)}: try --master highs')
        self.is_cut, self.new = False, 0
        return Solved(clp.Clp_getObjValue(model), self.copied(clp.Clp_getRowPrice, self.rows),
                      self.copied(clp.Clp_getColSolution, self.width))

    def begin_at_vertex(self) -> None:
        """Gives Clp the columns that are not 0 at the interior point method's vertex for its basis, which it completes by
        rows; from there it has the last few steps to go."""
        found = self.interior.solve()
        self.iterations += self.interior.iterations
        self.interior.iterations = 0
        places = numpy.full(self.width + self.rows, self.AT_LOWER, numpy.uint8)
        places[:self.width][found.values > VERTEX] = self.BASIC
        covered = self.interior.columns @ found.values
        is_slack = numpy.abs(covered - self.interior.limits) > VERTEX
        places[self.width:] = numpy.where(is_slack, self.BASIC, self.FIXED)
        self.library.Clp_copyinStatus(self.model, pointer(places))

    def copied(self, of: ctypes._CFuncPtr, count: int) -> numpy.ndarray:
        return numpy.ctypeslib.as_array(of(self.model), (count,)).copy()


class HighsMaster:
    """SciPy's HiGHS, anew each time: its interior point method with a crossover to a vertex."""
    name = 'HiGHS'

    def __init__(self, limits: Sequence[float], exact: int):
        self.limits, self.exact = numpy.array(limits, float), exact
        self.iterations = 0
        self.costs = numpy.zeros(0)
        self.columns = csc_array((len(limits), 0))
        self.forbidden = numpy.zeros(0, bool)

    @property
    def width(self) -> int:
        return len(self.costs)

    def add(self, costs: Sequence[float], rows: Sequence[Sequence[int]]) -> None:
        if not rows:
            return
        starts, places = starts_of(rows)
        held = self.columns
        self.columns = csc_array((numpy.ones(held.nnz + len(places)), numpy.concatenate((held.indices, places)),
                                  numpy.concatenate((held.indptr, starts[1:] + held.nnz))),
                                 shape=(len(self.limits), self.width + len(rows)))
        self.costs = numpy.concatenate((self.costs, numpy.array(costs, float)))
        self.forbidden = numpy.concatenate((self.forbidden, numpy.zeros(len(rows), bool)))

    def forbid(self, forbidden: numpy.ndarray) -> None:
        self.forbidden = forbidden.copy()

    def drop(self, dropped: numpy.ndarray) -> None:
        self.columns, self.costs = self.columns[:, ~dropped], self.costs[~dropped]
        self.forbidden = self.forbidden[~dropped]

    def solve(self) -> Solved:
        upper = numpy.where(self.forbidden, 0.0, numpy.inf)
        limits = {} if self.exact == len(self.limits) else {
            'A_ub': self.columns[self.exact:, :], 'b_ub': self.limits[self.exact:]}
        for method in ('highs-ipm', 'highs-ds'):  # the dual simplex method where the other gives up
            found = linprog(self.costs, A_eq=self.columns[:self.exact, :], b_eq=self.limits[:self.exact],
                            bounds=numpy.column_stack((numpy.zeros(self.width), upper)), method=method, **limits)
            if found.status == 0:
                break
        else:
            raise Fault(f'the master problem: {found.message}')
        self.iterations += found.nit + (getattr(found, 'crossover_nit', 0) or 0)
        duals = found.eqlin.marginals
        return Solved(found.fun, numpy.concatenate((duals, found.ineqlin.marginals)) if limits else duals, found.x)
