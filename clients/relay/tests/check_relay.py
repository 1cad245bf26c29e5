#!/usr/bin/env python3
"""The relay before an engine of the tests' own: names, limits by connection, clients that die, and each end. Usage:
check_relay.py"""
from __future__ import annotations

import os
import signal
import socket
import stat
import subprocess
import sys
import tempfile
import time
import unittest
from pathlib import Path

HERE = Path(__file__).resolve().parent
RELAY = HERE.parent / 'relay'
ENGINE = HERE / 'engine.py'
PATIENCE = 20.0
LATE = 5.0  # seconds for an answer to who does nothing wrong; far more than it takes, for a busy machine


class Connection:
    def __init__(self, address: str | int, room: int | None = None):
        family = socket.AF_UNIX if isinstance(address, str) else socket.AF_INET
        self.socket = socket.socket(family)
        self.socket.settimeout(PATIENCE)
        if room is not None:
            self.socket.setsockopt(socket.SOL_SOCKET, socket.SO_RCVBUF, room)
        try:
            self.socket.connect(address if isinstance(address, str) else ('127.0.0.1', address))
        except OSError:
            self.socket.close()
            raise
        self.file = self.socket.makefile('rb')

    def send(self, *records: str) -> None:
        self.socket.sendall(''.join(record + '\n' for record in records).encode('latin-1'))

    def answer(self) -> tuple[int, list[str]]:
        """The version of the next answer, and its lines."""
        head = self.file.readline().decode().split()
        assert head[0::2] == ['at', 'lines'], head
        return int(head[1]), [self.file.readline().decode().removesuffix('\n') for _ in range(int(head[3]))]

    def ask(self, record: str) -> tuple[int, list[str]]:
        self.send(record)
        return self.answer()

    def ended(self) -> bool:
        """Whether nothing more comes."""
        try:
            return self.file.read() == b''
        except ConnectionResetError:
            return True

    def close(self) -> None:
        self.file.close()
        self.socket.close()


class Relays(unittest.TestCase):
    def setUp(self) -> None:
        self.folder = tempfile.TemporaryDirectory()
        self.addCleanup(self.folder.cleanup)
        self.path = os.path.join(self.folder.name, 'socket')
        self.log = os.path.join(self.folder.name, 'log')
        self.connections: list[Connection] = []
        self.process: subprocess.Popen[str] | None = None
        self.addCleanup(self.stop)

    def stop(self) -> None:
        for connection in self.connections:
            connection.close()
        self.connections.clear()
        if self.process is not None and self.process.poll() is None:
            self.process.kill()
            self.process.wait()
        if self.process is not None:
            self.process.stdout.close()
            self.process.stderr.close()

    def start(self, *options: str, engine: tuple[str, ...] = (), program: tuple[str, ...] | None = None,
              where: tuple[str, ...] | None = None) -> str:
        """Starts a relay, and waits until it is ready: the line that it says."""
        self.stop()
        command = program or (str(ENGINE), '--log', self.log, *engine)
        self.process = subprocess.Popen([str(RELAY), *(where or ('--socket', self.path)), *options, *command],
                                        stdout=subprocess.PIPE, stderr=subprocess.PIPE, text=True)
        return self.process.stdout.readline()

    def connect(self, address: str | int | None = None, room: int | None = None) -> Connection:
        connection = Connection(self.path if address is None else address, room)
        self.connections.append(connection)
        return connection

    def came(self) -> list[str]:
        path = Path(self.log)
        return path.read_text(encoding='latin-1').splitlines() if path.exists() else []

    def wait_for(self, line: str) -> None:
        until = time.monotonic() + PATIENCE
        while line not in self.came():
            self.assertLess(time.monotonic(), until, f'no line {line!r} in {self.came()[-5:]}')
            time.sleep(0.01)

    def ends(self, status: int, told: str) -> None:
        self.assertEqual((self.process.wait(PATIENCE), self.process.stderr.read()), (status, told))
        self.assertFalse(os.path.exists(self.path))

    # ---- answers and names

    def test_two_clients(self) -> None:
        self.assertEqual(self.start(), f'ready at {self.path}\n')
        first, second = self.connect(), self.connect()
        self.assertEqual(first.ask('best'), (0, ['best JFK cost -0 pay 0 away 1 1-2']))
        first.send('price,1,5', '', 'price,0,5', '\r', 'settle\r')
        self.assertEqual(first.answer(), (0, ['record 3 refused 72']))
        self.assertEqual(first.answer(), (1, ['version 1 entries 1 flights 0']))
        self.assertEqual(second.ask('best'), (1, ['best JFK cost -1 pay 0 away 1 1-2']))
        self.assertEqual(second.ask('nothing'), (1, ['record 2 refused 70']))
        self.assertEqual(second.ask('pairings,2')[1], ['pairings 2', 'pairing JFK cost 0 pay 0 away 1 1-2',
                                                       'pairing JFK cost 1 pay 1 away 1 1-2'])
        self.assertEqual(self.came()[:2], ['c1,best', 'c1,price,1,5'])

    def test_records_in_quotes(self) -> None:
        self.start()
        client = self.connect()
        client.send('"price",1,"5"', 'zone,JFK,"EST5EDT,M3.2.0,M11.1.0"', 'best', '"nothing', 'best')
        self.assertEqual([client.answer()[1][0][:8] for _ in range(3)], ['best JFK', 'record 4', 'best JFK'])

    def test_a_name_is_used_once(self) -> None:
        self.start()
        for number in (1, 2, 3):
            client = self.connect()
            client.ask('best')
            client.close()
            self.wait_for(f'c{number},leave')
        self.assertEqual([line for line in self.came() if 'best' in line], ['c1,best', 'c2,best', 'c3,best'])

    def test_leave(self) -> None:
        self.start()
        client = self.connect()
        client.send('best', 'leave', 'best')
        client.answer()
        self.assertEqual(client.answer(), (0, ['left']))
        self.assertTrue(client.ended())
        self.assertEqual(self.came(), ['c1,best', 'c1,leave'])

    def test_a_port(self) -> None:
        told = self.start(where=('--port', '0'))
        client = self.connect(int(told.rpartition(':')[2]))
        self.assertEqual(client.ask('settle'), (1, ['version 1 entries 0 flights 0']))
        client.send('x' * 100_000)
        self.assertEqual(client.answer(), (1, ['record 2 refused 77']))
        self.assertTrue(client.ended())

    # ---- how a connection ends

    def test_half_a_line_is_dropped(self) -> None:
        self.start()
        client = self.connect()
        client.socket.sendall(b'best\nprice,1')
        client.answer()
        client.close()
        self.wait_for('c1,leave')
        self.assertEqual(self.came(), ['c1,best', 'c1,leave'])

    def test_what_came_before_the_end_is_answered(self) -> None:
        self.start(engine=('--settle', '0.2'))
        client = self.connect()
        client.send('price,1,5', 'settle', 'price,2,5', 'settle', 'best')
        client.socket.shutdown(socket.SHUT_WR)
        self.assertEqual([client.answer()[1][0] for _ in range(3)],
                         ['version 1 entries 1 flights 0', 'version 2 entries 2 flights 0', 'best JFK cost -2 pay 0 away 1 1-2'])
        self.assertTrue(client.ended())

    def test_clients_that_are_killed(self) -> None:
        self.start(engine=('--settle', '0.3'))
        beside = self.connect()
        beside.ask('best')
        text = ('import socket, sys, time\ns = socket.socket(socket.AF_UNIX)\ns.connect(sys.argv[1])\n'
                's.sendall(b"price,1,5\\nsettle\\nbest\\nprice,")\nprint("sent", flush=True)\ntime.sleep(60)\n')
        for number in range(2, 12):
            child = subprocess.Popen([sys.executable, '-c', text, self.path], stdout=subprocess.PIPE)
            child.stdout.readline()
            self.wait_for(f'c{number},settle')
            child.kill()
            child.wait()
            child.stdout.close()
            self.assertTrue(beside.ask('best')[1][0].startswith('best'))
            self.wait_for(f'c{number},leave')
        self.assertNotIn('price,', [line.partition(',')[2] for line in self.came()])

    def test_clients_that_send_nothing(self) -> None:
        self.start()
        silent = [self.connect() for _ in range(40)]
        self.assertEqual(self.connect().ask('best')[0], 0)
        for client in silent[:20]:
            client.socket.shutdown(socket.SHUT_WR)
            self.assertTrue(client.ended())
        for client in silent:
            client.close()
        self.assertEqual(self.connect().ask('best')[0], 0)
        self.assertEqual([line for line in self.came() if 'leave' in line], [])

    # ---- limits

    def test_a_connection_too_many(self) -> None:
        self.start('--clients', '3', engine=('--settle', '0.6'))
        clients = [self.connect() for _ in range(3)]
        clients[0].ask('best')
        surplus = self.connect()
        self.assertEqual(surplus.answer(), (0, ['record 1 refused 64']))
        self.assertTrue(surplus.ended())
        clients[0].send('settle')
        self.wait_for('c1,settle')
        clients[0].close()
        time.sleep(0.2)
        self.assertEqual(self.connect().answer(), (0, ['record 1 refused 64']))  # c1 hasn't left yet
        self.wait_for('c1,leave')
        time.sleep(0.8)
        self.assertEqual(self.connect().ask('best')[0], 1)

    def test_many_connections_too_many(self) -> None:
        self.start('--clients', '2')
        clients = [self.connect() for _ in range(2)]
        clients[0].ask('best')
        for _ in range(300):
            surplus = self.connect()
            surplus.ended()
        self.assertEqual(clients[1].ask('best')[0], 0)

    def test_an_engine_with_less_room(self) -> None:
        self.start(engine=('--viewers', '1'))
        first = self.connect()
        first.ask('best')
        surplus = self.connect()
        surplus.send(*['price,1,5'] * 300, 'best', 'best')
        self.assertEqual(surplus.answer(), (0, ['record 1 refused 64']))
        self.assertTrue(surplus.ended())
        self.wait_for('c2,leave')
        self.assertEqual(first.ask('best')[0], 0)
        self.assertEqual(self.connect().ask('best'), (0, ['record 1 refused 64']))
        first.close()
        self.wait_for('c1,leave')
        self.assertEqual(self.connect().ask('best')[1][0][:5], 'best ')

    def test_a_line_too_long(self) -> None:
        self.start()
        client, beside = self.connect(), self.connect()
        beside.ask('settle')
        client.send('best', 'price,1,5', 'x' * 65_537, 'best')
        self.assertEqual(client.answer()[0], 1)
        self.assertEqual(client.answer(), (1, ['record 3 refused 77']))
        self.assertTrue(client.ended())
        self.wait_for('c1,leave')
        client = self.connect()
        client.send('x' * 65_536, 'best')  # by its name it is too long for the engine, which refuses it
        self.assertEqual(client.answer(), (0, ['record 1 refused 77']))
        self.assertEqual(client.answer()[0], 1)

    def test_a_line_without_an_end(self) -> None:
        self.start()
        client, beside = self.connect(), self.connect()
        part = b'x' * (1 << 20)
        longest = 0.0
        try:
            for _ in range(1_024):
                begun = time.monotonic()
                beside.ask('best')
                longest = max(longest, time.monotonic() - begun)
                client.socket.sendall(part)
        except (BrokenPipeError, ConnectionResetError):
            pass
        else:
            self.fail('a gigabyte was taken')
        self.assertLess(longest, LATE)
        self.assertLess(memory(self.process.pid), 100)

    def test_empty_lines_without_end(self) -> None:
        self.start()
        client, beside = self.connect(), self.connect()
        longest = 0.0
        for _ in range(32):
            client.socket.sendall(b'\n\r\n\n' * (1 << 18))
            begun = time.monotonic()
            beside.ask('best')
            longest = max(longest, time.monotonic() - begun)
        self.assertLess(longest, LATE)
        self.assertEqual(client.ask('Best'), (0, ['record 1 refused 70']))

    def test_edits_without_a_question(self) -> None:
        """However many, they don't fill the engine's room, come in order, and records keep their numbers."""
        self.start(engine=('--edit', '0.00001'))
        client, beside = self.connect(), self.connect()
        count = 4_000
        client.send(*(f'price,{k},5' for k in range(1, count + 1)))
        begun = time.monotonic()
        beside.ask('best')
        self.assertLess(time.monotonic() - begun, LATE)
        client.send('price,0,5', 'nothing', 'settle', 'price,0,5')
        self.assertEqual(client.answer()[1], [f'record {count + 1} refused 72'])
        self.assertEqual(client.answer()[1], [f'record {count + 2} refused 70'])
        self.assertEqual(client.answer()[1], [f'version 1 entries {count} flights 0'])
        self.assertEqual(client.answer()[1], [f'record {count + 4} refused 72'])
        came = self.came()
        self.assertNotIn('full c1', came)
        self.assertEqual([line for line in came if line.startswith('c1,price') and line != 'c1,price,0,5'],
                         [f'c1,price,{k},5' for k in range(1, count + 1)])

    def test_lines_are_held_back_by_a_settle(self) -> None:
        self.start(engine=('--settle', '0.5'))
        client, beside = self.connect(), self.connect()
        client.send('settle', *(f'price,{k},5' for k in range(1, 5_001)), 'settle', 'best')
        self.wait_for('c1,settle')
        self.assertEqual(beside.ask('best')[0], 0)
        self.assertEqual([line for line in self.came() if line.startswith('c1')], ['c1,settle'])
        self.assertEqual([client.answer()[0] for _ in range(3)], [1, 2, 2])
        self.assertNotIn('full c1', self.came())

    def test_a_client_ahead_of_the_engine(self) -> None:
        """No more is read of it than has room, and it goes on."""
        self.start(engine=('--settle', '0.5'))
        client = self.connect()
        client.send('settle')
        client.socket.settimeout(0.2)
        sent = 0
        with self.assertRaises(TimeoutError):
            for _ in range(1_000):
                sent += client.socket.send(b'price,1,5\n' * 5_000)
        self.assertLess(sent, 4 << 20)
        client.socket.settimeout(PATIENCE)
        self.assertEqual(client.answer()[0], 1)

    def test_a_client_that_reads_nothing(self) -> None:
        self.start('--patience', '1')
        client, beside = self.connect(room=4_096), self.connect()
        client.send(*['pairings,40000'] * 5)
        until, longest = time.monotonic() + 0.8, 0.0
        while time.monotonic() < until or 'c1,leave' not in self.came():
            begun = time.monotonic()
            beside.ask('best')
            longest = max(longest, time.monotonic() - begun)
            self.assertLess(begun, until + PATIENCE)
            time.sleep(0.02)
        self.assertLess(longest, LATE)
        self.assertEqual(self.came().count('c1,pairings,40000'), 1)  # the others were held back

    def test_a_client_that_reads_slowly(self) -> None:
        """It isn't cut: it takes something all the time."""
        self.start('--patience', '1')
        client = self.connect()
        client.send('pairings,200000', 'best')
        for _ in range(30):
            client.file.read(100_000)
            time.sleep(0.1)
        self.assertEqual(len(client.file.read(3_000_000)), 3_000_000)
        client.send('leave')
        self.assertTrue(client.file.read().endswith(b'left\n'))

    def test_more_than_may_wait(self) -> None:
        self.start('--room', '100000')
        client, beside = self.connect(room=4_096), self.connect()
        client.send('pairings,100000')
        self.wait_for('c1,leave')
        self.assertEqual(beside.ask('best')[0], 0)

    # ---- the end of the relay

    def test_a_signal_in_a_settle(self) -> None:
        for number in (signal.SIGTERM, signal.SIGINT):
            self.start(engine=('--settle', '0.7'))
            client, beside = self.connect(), self.connect()
            client.send('price,1,5', 'settle', 'best')
            self.wait_for('c1,settle')
            self.process.send_signal(number)
            time.sleep(0.2)
            with self.assertRaises(OSError):
                self.connect()
            beside.send('best')
            self.assertEqual(client.answer(), (1, ['version 1 entries 1 flights 0']))
            self.assertTrue(client.ended())
            self.assertTrue(beside.ended())
            self.ends(0, '')
            self.stop()
            os.unlink(self.log)

    def test_an_engine_that_takes_too_long_to_end(self) -> None:
        self.start('--grace', '0.3', engine=('--settle', '30'))
        client = self.connect()
        client.send('settle')
        self.wait_for('c1,settle')
        self.process.terminate()
        self.assertTrue(client.ended())
        self.ends(1, "relay: the engine didn't end within 0.3 seconds\n")

    def test_the_end_of_the_engine(self) -> None:
        for record, told in (('quit,3', 'ended with status 3'), ('quit,0', 'ended with status 0'),
                             ('die', 'was ended by signal 9')):
            self.start()
            client, beside = self.connect(), self.connect()
            beside.ask('best')
            client.send(record)
            self.assertTrue(beside.ended())
            self.assertTrue(client.ended())
            self.ends(1, f'relay: the engine {told}\n')
            self.stop()

    def test_an_answer_that_is_none(self) -> None:
        self.start()
        client = self.connect()
        client.send('junk')
        self.assertTrue(client.ended())
        self.ends(1, "relay: an answer that no engine gives: 'hello'\n")

    def test_another_program(self) -> None:
        self.start(program=('/bin/echo', 'hello'))
        self.ends(1, "relay: an answer that no engine gives: 'hello'\n")
        self.start(program=('/bin/cat',))
        client = self.connect()
        client.send('best')
        self.assertTrue(client.ended())
        self.ends(1, "relay: an answer that no engine gives: 'c1,best'\n")

    def test_a_port_that_is_taken(self) -> None:
        with socket.socket() as taken:
            taken.bind(('127.0.0.1', 0))
            taken.listen()
            self.assertEqual(self.start(where=('--port', str(taken.getsockname()[1]))), '')
            self.assertEqual(self.process.wait(PATIENCE), 1)
            told = self.process.stderr.read()
            self.assertTrue(told.startswith('relay: ') and told.count('\n') == 1, told)

    def test_no_program(self) -> None:
        self.assertEqual(self.start(program=('/nowhere/crewprice', 'serve')), '')
        self.ends(1, 'relay: /nowhere/crewprice: No such file or directory\n')

    def test_words_that_ask_for_nothing(self) -> None:
        self.assertEqual(subprocess.run([str(RELAY), '/bin/cat'], capture_output=True).returncode, 2)
        self.assertEqual(subprocess.run([str(RELAY), '--socket', self.path], capture_output=True).returncode, 2)

    # ---- the file of the socket

    def test_the_file_of_a_dead_relay(self) -> None:
        self.start()
        self.process.kill()
        self.process.wait()
        self.assertTrue(stat.S_ISSOCK(os.lstat(self.path).st_mode))
        self.stop()
        self.start()
        self.assertEqual(self.connect().ask('best')[0], 0)

    def test_the_file_of_a_living_one(self) -> None:
        self.start()
        second = subprocess.run([str(RELAY), '--socket', self.path, str(ENGINE)], capture_output=True, text=True)
        self.assertEqual((second.returncode, second.stderr), (1, f'relay: {self.path}: another relay listens there\n'))
        self.assertEqual(self.connect().ask('best')[0], 0)

    def test_another_file(self) -> None:
        with open(self.path, 'w', encoding='utf-8') as file:
            file.write('text')
        done = subprocess.run([str(RELAY), '--socket', self.path, str(ENGINE)], capture_output=True, text=True)
        self.assertEqual((done.returncode, done.stderr), (1, f'relay: {self.path}: is there, and is no socket\n'))
        self.assertEqual(Path(self.path).read_text(encoding='utf-8'), 'text')


def memory(process: int) -> float:
    """The most memory that a process has had, in MB."""
    with open(f'/proc/{process}/status', encoding='utf-8') as file:
        return next(int(line.split()[1]) for line in file if line.startswith('VmHWM')) / 1_024


if __name__ == '__main__':
    unittest.main()
