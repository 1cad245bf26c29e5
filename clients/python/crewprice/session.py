"""A session: one process of the engine behind two pipes."""
from __future__ import annotations

import subprocess
from collections.abc import Sequence
from os import PathLike, fspath
from types import TracebackType

from .client import Client, Version
from .faults import EngineEnded


class Session(Client):
    """A session of `crewprice run`. Edits are sent as they are made, and count from the next `settle` on; questions are
    of the version that was settled last, and are answered before the call returns.

    Settings are those of `crewprice run --help`, with `_` for `-`: `Session(sit=180, away_cap=14_400)`; or they are
    given as `words` of a command line. `program` is the engine's file, or a script that runs it. Use it in a `with`, or
    call `close`. It is no more than one thread's.

    `sent` counts the records, `refused` has those that were refused since the last settle, as far as that was told,
    `version` is the number of the version that was settled last, and `process` is the engine's."""

    def __init__(self, program: str | PathLike[str] = 'crewprice', words: Sequence[str] = (), **settings: int):
        super().__init__()
        named = [word for name, value in settings.items() for word in (f'--{name.replace("_", "-")}', str(value))]
        self.command = [fspath(program), 'run', *words, *named]
        self.version = 0
        try:
            self.process = subprocess.Popen(self.command, stdin=subprocess.PIPE, stdout=subprocess.PIPE, encoding='utf-8')
        except OSError as fault:
            raise EngineEnded(f'{self.command[0]}: {fault.strerror}') from None

    def __enter__(self) -> Session:
        return self

    def __exit__(self, kind: type[BaseException] | None, fault: BaseException | None,
                 trace: TracebackType | None) -> None:
        if kind is not None:
            self.process.kill()
        self.close()

    def close(self) -> int:
        """Ends the session; the engine's exit status: 0 where all went well."""
        child = self.process
        for pipe in (child.stdin, child.stdout):
            try:
                if pipe is child.stdout and not pipe.closed:
                    pipe.read()
                pipe.close()
            except BrokenPipeError:
                pass
        return child.wait()

    def settle(self) -> Version:
        version = super().settle()
        self.version = version.number
        return version

    # ---- lines

    def take(self) -> str:
        """The next line that the engine writes."""
        line = self.process.stdout.readline()
        if not line.endswith('\n'):
            raise self._ended()
        return line[:-1]

    def _put_line(self, line: str) -> None:
        self.process.stdin.write(line + '\n')

    def _flush(self) -> None:
        self.process.stdin.flush()

    def _ended(self) -> EngineEnded:
        status = self.process.wait()
        return EngineEnded(f'{self.command[0]} ended with status {status} before its answer; what it said is on '
                           'standard error', status)
