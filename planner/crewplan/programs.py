"""Integer programs over columns of a pool, by HiGHS."""
from __future__ import annotations

import numpy
from scipy.optimize import Bounds, LinearConstraint, milp
from scipy.sparse import coo_array, csc_array, hstack

from .problem import Problem

WHOLE = 1e-5  # so near to 0 or 1 a value of an integer program is that


def least_cover(problem: Problem, columns: numpy.ndarray, may_miss: numpy.ndarray,
                seconds: float) -> tuple[list[int] | None, bool]:
    """Of these columns those that cover each flight once at least cost, where the flights of some rows may be missed at
    the penalty; none where there is no such cover or none was found. And whether the search was whole."""
    pool = problem.pool
    costs = numpy.concatenate((pool.pays[columns], numpy.full(len(may_miss), problem.penalty)))
    slack = coo_array((numpy.ones(len(may_miss)), (may_miss, numpy.arange(len(may_miss)))),
                      shape=(problem.count, len(may_miss)))
    limits = [LinearConstraint(hstack((pool.matrix[columns][:, :problem.count].T, slack)).tocsc(), 1, 1)]
    if pool.rows.bases:
        bases = len(pool.rows.bases)
        counts = hstack((pool.matrix[columns][:, problem.count:].T, coo_array((bases, len(may_miss))))).tocsc()
        limits.append(LinearConstraint(counts, 0, numpy.array(pool.rows.limits[problem.count:])))
    found = milp(costs, constraints=limits, integrality=numpy.ones(len(costs)), bounds=Bounds(0, 1),
                 options={'time_limit': max(seconds, 0.1), 'mip_rel_gap': 0.0})
    is_whole = found.status in (0, 2)  # the best, or there is none
    if found.x is None or not covers(limits[0].A, found.x):
        return None, is_whole and found.x is None
    return columns[found.x[:len(columns)] > 0.5].tolist(), is_whole


def covers(matrix: csc_array, values: numpy.ndarray) -> bool:
    """Whether values are whole and cover each row once: where its time is up HiGHS may give some that don't."""
    whole = values > 0.5
    return bool((numpy.abs(values - whole) < WHOLE).all() and (matrix @ whole.astype(float) == 1).all())
