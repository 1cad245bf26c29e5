"""A connection to a service: one engine that several clients share, behind a relay's socket."""
from __future__ import annotations

import re
import socket
from os import PathLike, fspath
from types import TracebackType

from .client import Client
from .faults import EngineEnded, NotUnderstood, Refused

HEADER = re.compile('at ([0-9]+) lines ([0-9]+)\n')
TOO_MANY_CLIENTS = 64


class Service(Client):
    """A connection to a relay before `crewprice serve`, by the path of its Unix socket or by its host and port:
    `Service('/run/crewprice')`, `Service(('127.0.0.1', 4711))`. All clients of the service share one log: an edit
    counts from the next settle of any of them on. A settle has all edits that this client made before it, and a
    question is answered, also while others settle, by the version that is published. A zone is this client's own.

    `version` is the number of the version that the last answer is from: after a call returns, of what it returned, and
    0 before any settle. It never falls, and rises as others settle too. After a `Refused` it is the last that this
    client has seen.

    With a `timeout` an answer that takes more seconds raises `EngineEnded`, and the connection is of no more use. Use
    it in a `with`, or call `close`. It is no more than one thread's; each thread opens one of its own.

    `sent` counts the records, and `refused` has those that were refused since the last settle of this client, as far as
    that was told."""

    def __init__(self, address: str | PathLike[str] | tuple[str, int], timeout: float | None = None):
        super().__init__()
        self.address = address if isinstance(address, tuple) else fspath(address)
        self.version = 0
        self._left = 0
        family = socket.AF_INET if isinstance(address, tuple) else socket.AF_UNIX
        self.socket = socket.socket(family, socket.SOCK_STREAM)
        self.socket.settimeout(timeout)
        try:
            self.socket.connect(self.address)
        except OSError as fault:
            self.socket.close()
            raise EngineEnded(f'{self.address}: {fault.strerror or fault}') from None
        self._lines = self.socket.makefile('r', encoding='utf-8', newline='\n')
        self._out: list[str] = []
        self._waiting = 0

    def __enter__(self) -> Service:
        return self

    def __exit__(self, kind: type[BaseException] | None, fault: BaseException | None,
                 trace: TracebackType | None) -> None:
        if kind is not None:
            self._out.clear()
            self._let_go()
        self.close()

    def close(self) -> int:
        """Leaves the service, once it has taken all edits; 0. Those that aren't settled stay in its log."""
        if self.socket.fileno() >= 0:
            try:
                self._flush()
                self.socket.shutdown(socket.SHUT_WR)
                while self._lines.read(1 << 16):
                    pass
            except OSError:
                pass
            self._let_go()
        return 0

    def _let_go(self) -> None:
        self._lines.close()
        self.socket.close()

    # ---- lines

    def take(self) -> str:
        """The next line of the answer that is on its way; `version` is that of the answer."""
        if self._left == 0:
            header = HEADER.fullmatch(head := self._line())
            if header is None:
                raise NotUnderstood(f'no answer: {head!r}')
            self.version, self._left = int(header[1]), int(header[2])
            return self.take()
        self._left -= 1
        return self._line()[:-1]

    def _line(self) -> str:
        try:
            line = self._lines.readline()
        except TimeoutError:
            raise EngineEnded(f'{self.address}: no answer within {self.socket.gettimeout():g} seconds') from None
        except OSError:
            line = ''
        if not line.endswith('\n'):
            raise EngineEnded(f'{self.address}: the connection ended before its answer')
        return line

    def _told(self, line: str, question: str) -> Refused:
        refused = super()._told(line, question)
        if refused.reason == TOO_MANY_CLIENTS:
            raise refused
        return refused

    def _put_line(self, line: str) -> None:
        self._out.append(line + '\n')
        self._waiting += len(line)
        if self._waiting >= 1 << 16:
            self._flush()

    def _flush(self) -> None:
        out, self._out, self._waiting = ''.join(self._out), [], 0
        self.socket.sendall(out.encode())

    def _ended(self) -> EngineEnded | Refused:
        """A relay with no room says so, and ends the connection; perhaps before anything was sent."""
        try:
            while True:
                if (line := self.take()).startswith('record '):
                    self._told(line, '')
        except (EngineEnded, Refused) as fault:
            return fault
