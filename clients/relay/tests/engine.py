#!/usr/bin/env python3
"""An engine for tests of the relay: it keeps the protocol of `crewprice serve`, and answers by what it counts.

Usage: engine.py [--settle SECONDS] [--edit SECONDS] [--viewers N] [--log FILE]

A settle and an edit take so long; other clients are answered meanwhile. `pairings,N` has N lines. `price,0,N` is
refused at once. FILE gets each line that came in, and `full NAME` where more than 1,024 lines of a client waited.
`quit,STATUS` ends it so, `die` by a signal, and `junk` has it write a line that is no answer."""
import argparse
import asyncio
import csv
import os
import signal
import sys

EDITS = ('zone', 'base', 'baseprice', 'flight', 'cancel', 'retime', 'price', 'turn', 'follow')
ROOM = 1_024


class Engine:
    def __init__(self, words: argparse.Namespace):
        self.words = words
        self.log = open(words.log, 'a', buffering=1, encoding='latin-1') if words.log else None
        self.queues: dict[str, asyncio.Queue[str]] = {}
        self.tasks: set[asyncio.Task[None]] = set()
        self.edits = self.version = self.entries = 0
        self.settling = asyncio.Lock()

    def note(self, text: str) -> None:
        if self.log:
            self.log.write(text + '\n')

    def write(self, name: str, version: int, *lines: str) -> None:
        text = ''.join(f'{name} {line}\n' for line in lines)
        sys.stdout.write(f'{name} at {version} lines {len(lines)}\n{text}')
        sys.stdout.flush()

    def take(self, line: str) -> None:
        self.note(line if len(line) < 200 else f'{line[:40]}.. {len(line)}')
        name, _, record = line.partition(',')
        queue = self.queues.get(name)
        if queue is None:
            if len(self.queues) >= self.words.viewers:
                self.write(name, 0, 'record 1 refused 64')
                return
            queue = self.queues[name] = asyncio.Queue()
            task = asyncio.ensure_future(self.serve(name, queue))
            self.tasks.add(task)
            task.add_done_callback(self.tasks.discard)
        queue.put_nowait(record)
        if queue.qsize() > ROOM:
            self.note(f'full {name}')

    async def serve(self, name: str, queue: asyncio.Queue[str]) -> None:
        number = seen = 0
        while True:
            record = await queue.get()
            kind, *rest = next(csv.reader([record.removesuffix('\r')]))
            if record == 'leave':
                del self.queues[name]
                self.write(name, seen, 'left')
                return
            number += 1
            if len(record) > 65_530:
                self.write(name, seen, f'record {number} refused 77')
            elif kind in EDITS:
                await asyncio.sleep(self.words.edit)
                if rest[:1] == ['0']:
                    self.write(name, seen, f'record {number} refused 72')
                else:
                    self.edits += 1
            elif kind == 'settle':
                async with self.settling:
                    entries = self.edits
                    await asyncio.sleep(self.words.settle)
                    self.version, self.entries = self.version + 1, entries
                seen = self.version
                self.write(name, seen, f'version {seen} entries {entries} flights 0')
            else:
                seen = self.answer(name, number, seen, kind, rest)

    def answer(self, name: str, number: int, seen: int, kind: str, rest: list[str]) -> int:
        if kind == 'best':
            self.write(name, self.version, f'best JFK cost -{self.entries} pay 0 away 1 1-2')
        elif kind == 'pairings':
            lines = [f'pairing JFK cost {k} pay {k} away 1 1-2' for k in range(int(rest[0]))]
            self.write(name, self.version, f'pairings {len(lines)}', *lines)
        elif kind == 'quit':
            sys.stdout.flush()
            os._exit(int(rest[0]))
        elif kind == 'die':
            os.kill(os.getpid(), signal.SIGKILL)
        else:
            if kind == 'junk':
                print('hello', flush=True)
            self.write(name, seen, f'record {number} refused 70')
            return seen
        return self.version


async def main(words: argparse.Namespace) -> None:
    engine = Engine(words)
    reader = asyncio.StreamReader(limit=1 << 20)
    await asyncio.get_running_loop().connect_read_pipe(lambda: asyncio.StreamReaderProtocol(reader), sys.stdin.buffer)
    while line := await reader.readline():
        engine.take(line.decode('latin-1').removesuffix('\n'))
        if reader._buffer.count(b'\n') == 0:  # all that came at once is taken at once, as a thread of its own would
            await asyncio.sleep(0)
    while any(queue.qsize() for queue in engine.queues.values()) or engine.settling.locked():
        await asyncio.sleep(0.01)
    await asyncio.sleep(0.02)


if __name__ == '__main__':
    parser = argparse.ArgumentParser()
    parser.add_argument('--settle', type=float, default=0.0)
    parser.add_argument('--edit', type=float, default=0.0)
    parser.add_argument('--viewers', type=int, default=64)
    parser.add_argument('--log')
    asyncio.run(main(parser.parse_args()))
