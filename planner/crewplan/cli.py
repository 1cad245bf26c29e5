"""The command `plan`: from a schedule to whole pairings and their reports."""
from __future__ import annotations

import argparse
import math
import os
import signal
import sys
from collections.abc import Sequence
from dataclasses import replace
from pathlib import Path

from . import page, proving
from .dive import Step
from .engine import Engine
from .faults import Fault, ScheduleFault
from .files import check_folder, write_whole
from .master import clp_library
from .plan import Whole, whole_of
from .progress import Progress
from .problem import PENALTY, Cost
from .relaxation import Result, Round, Ways, relax, ways_of
from .report import Figures, Report, Run, csv_of, hours, json_of, report_of, text_of
from .searches import Start, Took, how_many, run_all
from .settings import settings_of
from .timetable import Timetable, read
from .uncovered import causes, unreachable

ABOUT = '''Plans the crews of a schedule: which legal pairings fly its flights at the least pay.

SCHEDULE is a session's file: its records zone, base and flight, up to its first settle. planner/ssim makes one of an
airline's schedule. Prices in it don't matter. Words after `--` are options of the engine, as -- --max-rest 1500.'''
AFTER = '''Standard output has the figures, and with --text the pairings; standard error how far the run is. The status
is 0, 2 where the words of the command can't be read, 1 where the schedule is wrong or can't be planned, and 70 where its file
or the engine can't be had: each with one line that says what to do. Reports are written at the end, each whole or not at all.'''


def parser() -> argparse.ArgumentParser:
    made = argparse.ArgumentParser(prog='plan', description=ABOUT, epilog=AFTER,
                                   formatter_class=argparse.RawDescriptionHelpFormatter)
    made.add_argument('schedule', type=Path, metavar='SCHEDULE')
    reports = made.add_argument_group('reports')
    reports.add_argument('--html', type=Path, metavar='FILE', help='a page: pairings over time, totals, each leg')
    reports.add_argument('--png', type=Path, metavar='FILE', help='the same as a picture, without the list of legs; '
                                                                  'needs Chromium')
    reports.add_argument('--csv', type=Path, metavar='FILE', help='a row for each leg')
    reports.add_argument('--json', type=Path, metavar='FILE', help='all of it, for programs')
    reports.add_argument('--text', action='store_true', help='the pairings on standard output')
    reports.add_argument('--title', help="the page's title (the schedule's name)")
    run = made.add_argument_group('the run')
    run.add_argument('--seconds', type=positive, metavar='N',
                     help='how long plans are looked for after the relaxation; the first dive runs to its end (20 and '
                          'more: 51 at 500 flights, 270 at 1,000, 1,420 at 2,000)')
    run.add_argument('--relax-seconds', type=positive, default=math.inf, metavar='N',
                     help='ends the relaxation after so long, with the bound that it has (to its optimum)')
    run.add_argument('--gap', type=positive, default=0.0, metavar='PERCENT',
                     help='ends the relaxation where it is so near to its bound (0: at its optimum)')
    run.add_argument('--searches', type=int, metavar='N',
                     help='how many searches for plans go side by side, each with an engine of its own (one below 300 '
                          'flights, else as many as there are processors, up to 4)')
    run.add_argument('--capacity', type=int, metavar='N', help='the most pairings of one base (any number)')
    run.add_argument('--penalty', type=positive, default=PENALTY, metavar='POINTS',
                     help='what an uncovered flight costs while pairings are chosen, and no figure shows (100,000)')
    run.add_argument('--pairings', type=int, metavar='N', help='the most pairings that a settle lists (by flights)')
    run.add_argument('--share', type=int, metavar='N', help='no flight is in more than N of these; 0: any number')
    run.add_argument('--drop', type=positive, default=math.inf, metavar='POINTS',
                     help='columns whose reduced cost stays above that leave the master problem (none)')
    run.add_argument('--master', choices=('auto', 'clp', 'highs'), default='auto',
                     help='the solver of linear programs: Clp where it is installed, else HiGHS')
    run.add_argument('--quiet', action='store_true', help='no progress')
    engine = made.add_argument_group('the engine')
    engine.add_argument('--program', metavar='FILE', help='an engine to use as it is (crewprice of this repository)')
    engine.add_argument('--no-prove', action='store_true', help='ends at once where the engine is not proved yet')
    return made


def positive(text: str) -> float:
    value = float(text)
    if not value >= 0:
        raise argparse.ArgumentTypeError(f'{text} is less than 0')
    return value


def main(words: Sequence[str] | None = None) -> int:
    words = list(sys.argv[1:] if words is None else words)
    end = words.index('--') if '--' in words else len(words)
    given = parser().parse_args(words[:end])
    # Who stops this program stops the engine too.
    signal.signal(signal.SIGTERM, lambda *_: sys.exit(143))
    progress = Progress(is_quiet=given.quiet)
    try:
        run(given, words[end + 1:], progress)
        return 0
    except Fault as fault:
        progress.close()
        print(f'plan: {fault}', file=sys.stderr)
        return fault.status
    except BrokenPipeError:
        os.dup2(os.open(os.devnull, os.O_WRONLY), sys.stdout.fileno())
        return 1
    except KeyboardInterrupt:
        progress.close()
        print('plan: stopped; no report was written', file=sys.stderr)
        return 130


def run(given: argparse.Namespace, options: list[str], progress: Progress) -> None:
    timetable = read(given.schedule)
    for path in filter(None, (given.html, given.png, given.csv, given.json)):
        check_folder(path)
    if given.program is None:
        proving.see_to_it(not given.no_prove)
    report = plan(timetable, given, options, progress)
    write_all(given, report)
    if given.text:
        print(text_of(report))
    print(summary(report), flush=True)


def plan(timetable: Timetable, given: argparse.Namespace, options: list[str], progress: Progress) -> Report:
    """The whole run: what can't be flown, the relaxation, plans."""
    settings = settings_of(options)
    program = given.program or str(proving.SCRIPT)
    with Engine(program, options, timetable) as engine:
        if given.master == 'auto' and clp_library() is None:
            progress.close('plan: Clp is not installed, so HiGHS solves the linear programs, several times slower: '
                           'apt-get install coinor-libclp1')
        progress.tell('reach', 'which flights any legal pairing flies')
        numbers = unreachable(timetable, engine)
        if len(numbers) == len(timetable.flights):
            raise ScheduleFault(f'{given.schedule}: no legal pairing flies any of its flights; the first: '
                                + causes(timetable, settings, numbers)[0].cause)
        reached = timetable.without(numbers)
        ways = ways_from(given, len(reached.flights))
        relaxed = relax(reached, engine, ways, penalty=given.penalty, capacity=given.capacity,
                        tell=lambda turn: progress.tell('relaxation', round_line(turn)))
        spent = Took(0, engine.settles, relaxed.problem.masters, len(relaxed.problem.pool),
                     relaxed.problem.processor_seconds, engine.seconds, engine.processor_seconds())
    found, took = whole_plan(Start(reached, program, options, relaxed.problem.pool.pairings, relaxed.relaxed, ways,
                                   given.penalty, given.capacity, seconds_for(given, len(reached.flights))), relaxed,
                             given, progress)
    run = run_of(relaxed, [spent, *took], progress)
    progress.close(run_line(run))
    pool = relaxed.problem.pool
    bound = relaxed.bound - relaxed.problem.penalty * len(found.uncovered)
    base = relaxed.relaxed.cost
    figures = Figures(len(timetable.flights), found.cost.pay, bound, base.pay, base.uncovered,
                      (found.cost.all - base.all) / base.pay if base.pay else 0.0, relaxed.is_optimal)
    return report_of(timetable, settings, [pool.pairings[place] for place in found.places],
                     [pool.rows.numbers[row] for row in found.uncovered], causes(timetable, settings, numbers), figures, run)


def ways_from(given: argparse.Namespace, flights: int) -> Ways:
    ways = ways_of(flights)
    return replace(ways, most=given.pairings or ways.most, share=ways.share if given.share is None else given.share,
                   dear=given.drop, gap=given.gap / 100, seconds=given.relax_seconds, master=given.master)


def seconds_for(given: argparse.Namespace, flights: int) -> float:
    """How long plans are looked for."""
    return max(20.0, 51 * (flights / 500) ** 2.4) if given.seconds is None else given.seconds


def whole_plan(start: Start, relaxed: Result, given: argparse.Namespace, progress: Progress) -> tuple[Whole, list[Took]]:
    """The best plan of all searches, and what they took."""
    base, problem = start.relaxed.cost, relaxed.problem
    pairings, took = run_all(start, given.searches or how_many(problem.count),
                             lambda name, step: progress.tell(name, step_line(step, base)),
                             lambda name, cost: progress.tell(name, plan_line(cost, base)))
    problem.take_in(pairings)
    return whole_of(problem, problem.pool.places(pairings)), took


def round_line(turn: Round) -> str:
    """The bound is of pay: what any cover pays at least that leaves as much uncovered as the objective."""
    bound = turn.bound - turn.cost.penalty * turn.cost.uncovered
    return (f'round {turn.number}: pay {hours(turn.cost.pay)}, bound {hours(bound) if bound > 0 else "none yet"}, '
            f'{turn.cost.uncovered:.2f} uncovered, least reduced cost {turn.least}, {turn.columns} columns of {turn.pool}, '
            f'{turn.masters} masters {turn.master_seconds:.2f} s, pricing {turn.pricing_seconds:.2f} s')


def above(cost: Cost, base: Cost) -> str:
    return f'{100 * (cost.all - base.all) / base.pay:.3f} % of pay above the relaxation' if base.pay else 'no pay'


def step_line(step: Step, base: Cost) -> str:
    return (f'step {step.number}: {step.enforced} follow-ons, {above(step.cost, base)}, {step.cost.uncovered:.2f} '
            f'uncovered, {step.split} split')


def plan_line(cost: Cost, base: Cost) -> str:
    return f'a plan {above(cost, base)}, {cost.uncovered} uncovered'


def run_of(relaxed: Result, took: Sequence[Took], progress: Progress) -> Run:
    def total(name: str) -> int | float:
        return sum(getattr(it, name) for it in took)

    problem = relaxed.problem
    return Run(problem.master.name, len(relaxed.rounds), total('settles'), total('dives'), len(problem.places),
               total('listed'), total('masters'), total('processor_seconds'), total('engine_seconds'),
               total('engine_processor_seconds'), relaxed.seconds, progress.seconds)


def run_line(run: Run) -> str:
    return (f'{run.seconds:8.1f} s  {run.rounds} rounds in {run.relaxation_seconds:.1f} s, {run.dives} dives, {run.settles} '
            f'settles, {run.columns} columns of {run.pool} pairings; {run.solver}: {run.masters} masters, '
            f'{run.master_processor_seconds:.1f} s of a processor with pools and integer programs; engine: {run.engine_seconds:.1f} s by the '
            f'clock, {run.engine_processor_seconds:.1f} s of processors')


def summary(report: Report) -> str:
    """The figures, pay and uncovered flights apart."""
    it = report.figures
    uncovered = len(report.by_choice)
    end = 'at its optimum' if it.is_optimal else 'not at its optimum'
    return (f'plan: {len(report.lines)} pairings, pay {hours(it.pay)}; {it.flights} flights, {uncovered} left uncovered '
            f'by choice, {len(report.unreachable)} that no legal pairing flies\n'
            f'relaxation ({end}): pay {hours(it.relaxation)}, {it.relaxation_uncovered:.2f} left uncovered\n'
            f'least pay of any plan that leaves {uncovered} uncovered: {hours(it.bound)}; this plan is '
            f'{100 * it.above:.3f} % above it, and {100 * it.above_relaxation:.3f} % above the relaxation\n{report.run.seconds:.1f} s')


def write_all(given: argparse.Namespace, report: Report) -> None:
    title = given.title or f'Crew plan of {given.schedule.name.removesuffix(".session")}'
    makers = ((given.csv, lambda: csv_of(report).encode()), (given.json, lambda: json_of(report).encode()),
              (given.html, lambda: page.page_of(report, title).encode()),
              (given.png, lambda: page.picture_of(report, title)))
    write_whole({path: make() for path, make in makers if path})
