"""Lines on standard error that tell how far a run is: one that is rewritten where it is a terminal, and else one for each
settle or step."""
from __future__ import annotations

import shutil
import sys
import time
from typing import TextIO


class Progress:
    """Phase, rounds, objective, bound and seconds."""

    def __init__(self, stream: TextIO | None = None, is_quiet: bool = False):
        self.stream = stream or sys.stderr
        self.is_terminal = self.stream.isatty()
        self.is_quiet = is_quiet
        self.began = time.perf_counter()
        self.is_open = False

    @property
    def seconds(self) -> float:
        return time.perf_counter() - self.began

    def tell(self, phase: str, what: str) -> None:
        """How far a phase is. On a terminal it takes the place of the line before."""
        line = f'{self.seconds:8.1f} s  {phase:<12} {what}'
        if self.is_quiet:
            return
        if self.is_terminal:
            width = shutil.get_terminal_size().columns - 1
            print(f'\r{line[:width]:<{width}}', end='', file=self.stream, flush=True)
            self.is_open = True
        else:
            print(line, file=self.stream, flush=True)

    def close(self, line: str = '') -> None:
        """Ends the line that is rewritten, with a last line where there is one."""
        if self.is_open:
            print(file=self.stream, flush=True)
            self.is_open = False
        if line and not self.is_quiet:
            print(line, file=self.stream, flush=True)
