"""Searches side by side, each in a process with an engine and processors of its own.

They begin at the same optimum of the relaxation and go different ways. Each tells of its steps and plans, and asks now and
then for plans of the others; nothing is sent that wasn't asked for, so no pipe fills up.
"""
from __future__ import annotations

import multiprocessing
import os
import signal
from collections.abc import Callable
from dataclasses import dataclass
from multiprocessing.connection import Connection, wait

from .dive import Step
from .engine import Engine
from .faults import EngineFault, Fault
from .pairing import Pairing
from .plan import Whole
from .problem import Cost, Problem, Relaxed
from .relaxation import Ways
from .search import Exchange, Search
from .settings import settings_of
from .timetable import Timetable

MOST = 4
FEW = 300  # flights: for fewer one search is enough


@dataclass(frozen=True)
class Start:
    """What each search begins with: the schedule, the engine's program and options, the pool with the relaxation's
    optimum, and how long it has."""
    timetable: Timetable
    program: str
    options: list[str]
    pairings: list[Pairing]
    relaxed: Relaxed
    ways: Ways
    penalty: float
    capacity: int | None
    seconds: float


@dataclass(frozen=True)
class Found:
    """A good plan of a search, which a dive of that name found."""
    name: str
    cost: Cost
    pairings: list[Pairing]


@dataclass(frozen=True)
class Took:
    """What a search took: dives, settles, solves of masters, new pairings; seconds of a processor in masters, pool and
    integer programs; the engine's seconds by the clock and of processors."""
    dives: int = 0
    settles: int = 0
    masters: int = 0
    listed: int = 0
    processor_seconds: float = 0.0
    engine_seconds: float = 0.0
    engine_processor_seconds: float = 0.0


@dataclass(frozen=True)
class Asked:
    """A search asks for the plans of the others."""


TellStep = Callable[[str, Step], None]
TellPlan = Callable[[str, Cost], None]


def how_many(flights: int) -> int:
    """As many as there are processors, up to four."""
    return 1 if flights < FEW else min(MOST, len(os.sched_getaffinity(0)))


def run_one(start: Start, number: int, tell_step: TellStep, tell: Callable[[Found], None],
            hear: Callable[[], list[list[Pairing]]]) -> Took:
    """One search, from its start to its end."""
    def tell_plan(name: str, plan: Whole, pairings: list[Pairing]) -> None:
        tell(Found(name, plan.cost, pairings))

    problem = Problem.of(start.timetable, start.penalty, start.capacity, start.ways.master)
    problem.take_in(start.pairings)
    with Engine(start.program, start.options, start.timetable) as engine:
        search = Search(settings_of(start.options), engine, problem, start.relaxed, start.ways, tell_step,
                        Exchange(tell_plan, hear), number)
        search.run(start.seconds)
        return Took(search.dives, engine.settles, problem.masters, len(problem.pool) - len(start.pairings),
                    problem.processor_seconds, engine.seconds, engine.processor_seconds())


def run_all(start: Start, count: int, tell_step: TellStep, tell_plan: TellPlan) -> tuple[list[Pairing], list[Took]]:
    """The best plan of so many searches (without a pairing where none came to one), and what each took."""
    best: Found | None = None

    def note(found: Found) -> None:
        nonlocal best
        if best is None or found.cost.all < best.cost.all:
            best = found
            tell_plan(found.name, found.cost)

    if count == 1:
        took = [run_one(start, 0, tell_step, note, list)]
    else:
        took = run_processes(start, count, tell_step, note)
    if not took:
        raise Fault('no search came to its end: what they said is above')
    return best.pairings if best else [], took


def run_processes(start: Start, count: int, tell_step: TellStep, note: Callable[[Found], None]) -> list[Took]:
    """Searches in processes, until the last one has ended. They are stopped where this one is."""
    context = multiprocessing.get_context('spawn')  # a fork would have HiGHS's threads in name alone, and wait for them
    processes, searches, took = [], {}, []
    best: dict[int, Found] = {}
    last: dict[int, Found] = {}
    try:
        for number in range(count):
            ours, theirs = context.Pipe()
            processes.append(context.Process(target=serve, args=(theirs, start, number, count), daemon=True))
            processes[-1].start()
            theirs.close()
            searches[ours] = number
        while searches:
            for pipe in wait(list(searches)):
                number = searches[pipe]
                try:
                    match pipe.recv():
                        case str() as name, Step() as step:
                            tell_step(name, step)
                        case Found() as found:
                            last[number] = found
                            best[number] = min(best.get(number, found), found, key=lambda it: it.cost.all)
                            note(found)
                        case Asked():
                            pipe.send([found.pairings for told in (best, last) for other, found in told.items()
                                       if other != number])
                        case Took() as what:
                            took.append(what)
                        case EngineFault() as fault:
                            raise fault
                except (EOFError, ConnectionError):  # it has ended
                    del searches[pipe]
        return took
    finally:
        for process in processes:
            process.terminate()
            process.join()


def serve(pipe: Connection, start: Start, number: int, count: int) -> None:
    """One of so many searches in a process of its own, which ends where nobody listens any more."""
    def hear() -> list[list[Pairing]]:
        pipe.send(Asked())
        return pipe.recv()

    signal.signal(signal.SIGINT, signal.SIG_IGN)
    if processors := sorted(os.sched_getaffinity(0))[number::count]:
        os.sched_setaffinity(0, processors)  # the engine takes as many threads as it has processors
    try:
        pipe.send(run_one(start, number, lambda name, step: pipe.send((name, step)), pipe.send, hear))
    except EngineFault as fault:
        pipe.send(fault)
    except (EOFError, ConnectionError):
        pass
