"""Whether the engine stands proved, and how to make it so."""
from __future__ import annotations

import os
import shutil
import subprocess
import sys
from pathlib import Path

from .faults import EngineFault

TOP = Path(__file__).resolve().parents[2]
SCRIPT = TOP / 'crewprice'
PROGRAM = TOP / 'crates' / 'crewprice' / 'out' / 'crewprice'
PASSED_OVER = {'out', 'must-fail', 'more-edits'}
HOW_LONG = 'some 35 minutes on four quiet cores, once'


def is_proved() -> bool:
    """Whether the program stands, and none of its sources is newer."""
    if not os.access(PROGRAM, os.X_OK):
        return False
    made = PROGRAM.stat().st_mtime
    if (TOP / 'crates.txt').stat().st_mtime > made:
        return False
    for folder, folders, files in os.walk(TOP / 'crates'):
        folders[:] = [name for name in folders if name not in PASSED_OVER]
        if any(os.lstat(os.path.join(folder, name)).st_mtime > made for name in files):
            return False
    return True


def see_to_it(may_prove: bool) -> None:
    """Proves the engine where that wasn't done yet, and shows how far that is. Raises EngineFault where it can't be
    done, or may not."""
    if is_proved():
        return
    prove = os.path.relpath(SCRIPT)
    prove = prove if prove.startswith('..') else f'./{prove}'
    if not may_prove:
        raise EngineFault(f'the engine is not proved on this copy yet: `{prove} prove` proves it ({HOW_LONG}), or this '
                          f'command does so without --no-prove')
    if shutil.which('rt') is None:
        raise EngineFault('the engine is not proved on this copy yet, and the command rt of the Rattle kit, which '
                          'proves it, is not on the PATH: install the kit, or name a proved engine by --program')
    if not os.access(TOP / 'crates' / 'crewprice', os.W_OK):
        raise EngineFault(f'the engine is not proved on this copy yet, and nothing can be written to {TOP}: make it '
                          'writable, or name a proved engine by --program')
    print(f'plan: the engine is not proved on this copy yet; that takes {HOW_LONG}, and goes on now:', file=sys.stderr,
          flush=True)
    if status := prove_it():
        raise EngineFault(f'the engine was not proved: `{prove} prove` ended with status {status}; what it said is above')


def prove_it() -> int:
    """The status of the proof. Who stops this program ends the proof too, which then clears up after itself."""
    with subprocess.Popen([SCRIPT, 'prove'], stdin=subprocess.DEVNULL, stdout=sys.stderr.fileno()) as child:
        try:
            return child.wait()
        except BaseException:
            child.terminate()
            raise
