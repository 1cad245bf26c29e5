#!/usr/bin/python3
"""Checks what the command says where it can't plan: each time one line that says what to do, its status, and nothing left
behind; and that it plans where it can.

The copies are of this repository without what checks have left, so that nothing is proved on them. Nothing is proved here
either: `rt` isn't on the PATH, or isn't asked.
"""
from __future__ import annotations

import json
import os
import shutil
import stat
import subprocess
import sys
import tempfile
import time
from pathlib import Path

TESTS = Path(__file__).resolve().parent
TOP = TESTS.parent.parent
SCHEDULE = TESTS.parent / 'timetables' / 'flights-60.session'
PATIENCE = 60.0  # seconds for what wants no work, on a busy machine
faults = 0


def check(what: str, holds: bool, found: object) -> None:
    global faults
    if not holds:
        faults += 1
        print(f'{what}: found {found!r}', file=sys.stderr)


def run(*words: object, top: Path = TOP, **other: object) -> tuple[int, str, str]:
    ended = subprocess.run([top / 'planner' / 'plan', *map(str, words)], stdin=subprocess.DEVNULL, capture_output=True,
                           text=True, timeout=300, **other)
    return ended.returncode, ended.stdout, ended.stderr


def check_refusal(what: str, status: int, told: str, found: tuple[int, str, str]) -> None:
    """One line on standard error that says this, this status, and nothing on standard output."""
    lines = found[2].splitlines()
    check(what, found[0] == status and not found[1] and len(lines) == 1 and lines[0].startswith('plan: ')
          and told in lines[0], found)


def script(folder: Path, name: str, text: str) -> Path:
    path = folder / name
    path.write_text(f'#!/bin/sh\n{text}\n')
    path.chmod(path.stat().st_mode | stat.S_IXUSR)
    return path


def check_engines(room: Path) -> None:
    """Engines that aren't there, end, or answer something else."""
    check_refusal('no such engine', 70, '--program', run(SCHEDULE, '--program', room / 'none', '--quiet'))
    for name, text, told in (('ends', 'exit 3', 'status 3'), ('reads', 'head -c 5 > /dev/null; exit 70', 'status 70'),
                             ('other', 'echo hello; cat > /dev/null', 'hello'), ('silent', 'exec < /dev/null', 'ended with status 0')):
        check_refusal(f'an engine that {name}', 70, told, run(SCHEDULE, '--program', script(room, name, text), '--quiet'))
    half = script(room, 'half', f'echo "the engine says why" >&2; ({TOP}/crewprice "$@" | head -n 3)')
    status, output, told = run(SCHEDULE, '--program', half, '--quiet', '--html', room / 'half.html')
    check('standard error goes through', status == 70 and 'the engine says why' in told and not output, (status, told))
    check('no page of it', not (room / 'half.html').exists(), 'a page')
    refusing = run(SCHEDULE, '--program', str(TOP / 'crewprice'), '--quiet', '--', '--sit', '20')
    check('a bad setting', refusing[0] == 70 and 'bad setting 4' in refusing[2], refusing)


def check_schedules(room: Path) -> None:
    check_refusal('no schedule', 70, 'No such file', run(room / 'none.session'))
    for name, text, told in (('empty', '', 'no base'), ('flights', 'zone,BOS,"EST5"\nbase,BOS,0\n', 'no flight'),
                             ('words', 'nothing\n', 'record 1'), ('time', 'zone,BOS,"EST5"\nbase,BOS,0\nflight,1,BOS,ORD,10:00,11:00,0\n', 'record 3'),
                             ('zone', 'base,BOS,0\nflight,1,BOS,ORD,2026-06-09T12:00,2026-06-09T14:00,0\n', 'record 2'),
                             ('alone', 'zone,BOS,"EST5"\nbase,BOS,0\nflight,1,BOS,ORD,2026-06-09T12:00,2026-06-09T14:00,0\n', 'it ends at ORD')):
        path = room / f'{name}.session'
        path.write_text(text)
        check_refusal(f'a schedule: {name}', 1, told, run(path, '--quiet'))
    check_refusal('no folder for the page', 1, 'folder', run(SCHEDULE, '--html', room / 'none' / 'page.html'))
    check('words', run(SCHEDULE, '--nothing')[0] == 2, 'another status')
    began = time.monotonic()
    helped = run('--help')
    check('help', helped[0] == 0 and 'SCHEDULE' in helped[1] and time.monotonic() - began < PATIENCE, helped)


def check_unproved(room: Path) -> None:
    copy = room / 'copy'
    shutil.copytree(TOP, copy, ignore=shutil.ignore_patterns('out', '.git', '__pycache__'))
    before = sorted(path for path in copy.rglob('*'))
    began = time.monotonic()
    check_refusal('--no-prove', 70, 'prove', run(SCHEDULE, '--no-prove', top=copy))
    check('at once', time.monotonic() - began < PATIENCE, time.monotonic() - began)
    folders = [folder for folder in os.environ['PATH'].split(':') if not Path(folder, 'rt').exists()]
    check_refusal('no kit', 70, 'kit', run(SCHEDULE, top=copy, env=os.environ | {'PATH': ':'.join(folders)}))
    fails = room / 'kit'
    fails.mkdir()
    script(fails, 'rt', 'echo "rt: no"; exit 1')
    failed = run(SCHEDULE, top=copy, env=os.environ | {'PATH': ':'.join((str(fails), *folders))})
    lines = failed[2].splitlines()
    check('a proof that fails', failed[0] == 70 and 'takes' in lines[0] and lines[-1].startswith('plan: ') and 'rt: no' in failed[2], failed)
    check('nothing left behind', sorted(path for path in copy.rglob('*')) == before, 'other files')


def check_plan(room: Path) -> None:
    page, rows, whole = (room / f'plan.{kind}' for kind in ('html', 'csv', 'json'))
    status, output, told = run(SCHEDULE, '--html', page, '--csv', rows, '--json', whole, '--text')
    check('a plan', status == 0 and '60 flights' in output and 'pairing ATL 001' in output, (status, output[-300:], told))
    check('its progress', told.count('relaxation') > 1 and '\r' not in told, told)
    figures = json.loads(whole.read_text())['figures']
    # As the engine's own pages have it: the plan of these sixty flights lies at the bound.
    check('at the bound', figures['pay'] == figures['bound'], figures)
    check('the page', page.read_text().startswith('<!doctype html>') and rows.read_text().startswith('pairing,'), 'another')
    again = room / 'again.csv'
    run(SCHEDULE, '--csv', again, '--quiet', '--master', 'highs')
    check('the same pay by HiGHS', len(again.read_text()) > 100, again.read_text()[:100])


def main(_: str = '') -> int:
    with tempfile.TemporaryDirectory() as name:
        room = Path(name)
        for part in (check_engines, check_schedules, check_unproved, check_plan):
            part(room)
    print(f'command: {"all as it should be" if not faults else f"{faults} faults"}')
    return 1 if faults else 0


if __name__ == '__main__':
    sys.exit(main())
