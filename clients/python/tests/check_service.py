#!/usr/bin/env python3
"""Connections to a service by calls: several clients at one engine behind a relay, what is refused, and relays that end
or say something else. Usage: check_service.py PROGRAM"""
from __future__ import annotations

import os
import socket
import sys
import tempfile
import threading
import time
import unittest
from collections.abc import Callable
from pathlib import Path
from subprocess import DEVNULL, PIPE, Popen

sys.path.insert(0, str(Path(__file__).resolve().parents[1]))
sys.path.insert(0, str(Path(__file__).resolve().parent))

from check_session import there_and_back  # noqa: E402

from crewprice import Broken, EngineEnded, Leg, Legal, NotUnderstood, Refused, Service, Session  # noqa: E402

PROGRAM = 'crewprice'
RELAY = Path(__file__).resolve().parents[2] / 'relay' / 'relay'


class Folders(unittest.TestCase):
    def setUp(self) -> None:
        folder = tempfile.TemporaryDirectory()
        self.addCleanup(folder.cleanup)
        self.path = os.path.join(folder.name, 'socket')


class Stand(Folders):
    """A socket in the relay's place, which says what it is told to."""

    def stand(self, play: Callable[[socket.socket], None]) -> None:
        listening = socket.socket(socket.AF_UNIX)
        listening.bind(self.path)
        listening.listen()

        def serve() -> None:
            connection, _ = listening.accept()
            with connection, listening:
                play(connection)

        thread = threading.Thread(target=serve)
        thread.start()
        self.addCleanup(thread.join)

    def say(self, *texts: str) -> None:
        def play(connection: socket.socket) -> None:
            for text in texts:
                connection.recv(1 << 16)
                connection.sendall(text.encode())

        self.stand(play)

    def test_an_answer(self) -> None:
        self.say('at 3 lines 1\nbest BOS cost 1 pay 2 away 3 1-2\n', 'at 7 lines 1\nbest none\n')
        with Service(self.path) as service:
            self.assertEqual((service.version, service.best().walk, service.version), (0, '1-2', 3))
            self.assertEqual((service.best(), service.version), (None, 7))

    def test_refusals_before_an_answer(self) -> None:
        self.say('at 1 lines 1\nrecord 1 refused 72\nat 2 lines 2\nrecord 2 refused 24\nversion 2 entries 9 flights 4\n')
        with Service(self.path) as service:
            service.send('price,0,5')
            service.price(3, 5)
            version = service.settle()
            self.assertEqual([(it.number, it.record, it.name) for it in version.refused],
                             [(1, 'price,0,5', 'BadField'), (2, 'price,3,5', 'NoFlight')])
            self.assertEqual((version.number, service.version), (2, 2))

    def test_a_service_without_room(self) -> None:
        self.say('at 0 lines 1\nrecord 1 refused 64\n')
        with self.assertRaises(Refused) as fault, Service(self.path) as service:
            service.load(there_and_back())
            service.settle()
        self.assertEqual(fault.exception.name, 'TooManyClients')

    def test_a_service_without_room_that_is_sent_much(self) -> None:
        self.stand(lambda it: it.sendall(b'at 0 lines 1\nrecord 1 refused 64\n'))
        with self.assertRaises(Refused) as fault, Service(self.path) as service:
            while True:
                service.price(1, 5)
        self.assertEqual(fault.exception.reason, 64)

    def test_a_relay_that_is_none(self) -> None:
        self.say('HTTP/1.1 400 Bad Request\n')
        with self.assertRaises(NotUnderstood), Service(self.path) as service:
            service.best()

    def test_half_a_line(self) -> None:
        self.say('at 0 lines 1\nbest no')
        with self.assertRaises(EngineEnded), Service(self.path) as service:
            service.best()

    def test_no_answer(self) -> None:
        self.say('')
        with self.assertRaises(EngineEnded), Service(self.path) as service:
            service.best()

    def test_an_answer_that_takes_too_long(self) -> None:
        self.stand(lambda it: time.sleep(0.3))
        with self.assertRaisesRegex(EngineEnded, 'within 0.1 seconds'), Service(self.path, timeout=0.1) as service:
            service.best()

    def test_no_relay(self) -> None:
        with self.assertRaises(EngineEnded):
            Service(self.path)
        with self.assertRaises(EngineEnded):
            Service(('127.0.0.1', 1))


class Services(Folders):
    def relay(self, *words: str, where: tuple[str, ...] | None = None, faults: int | None = DEVNULL) -> str:
        """Starts a relay: what it says once it is ready."""
        process = Popen([RELAY, *(where or ('--socket', self.path)), PROGRAM, 'serve', *words], stdout=PIPE,
                        stderr=faults, text=True)
        self.process = process

        def stop() -> None:
            process.terminate()
            process.wait()
            process.stdout.close()

        self.addCleanup(stop)
        return process.stdout.readline()

    def test_a_pairing_and_its_parts(self) -> None:
        self.relay()
        with Service(self.path) as service:
            self.assertIsNone(service.best())
            self.assertEqual(service.version, 0)
            service.load(there_and_back())
            version = service.settle()
            self.assertEqual((version.number, version.entries, version.flights, version.refused), (1, 3, 2, ()))
            self.assertEqual(service.version, 1)
            best = service.best()
            self.assertEqual((best.base, best.duties, best.cost), ('BOS', ((Leg(1), Leg(2)),), 2_200))
            self.assertEqual([it.cost for it in service.pairings(10, share=1, base='BOS')], [2_200])
            (entry,) = service.front('BOS', '1-2')
            self.assertEqual(entry.vector, (800, -600, 2_200, 320, 200, 1, 350))
            self.assertIsNone(service.front('BOS', '2-1'))
            self.assertIsInstance(service.explain('BOS', '1-2'), Legal)
            self.assertEqual(service.explain('BOS', '1'), Broken('returns', None, 1, None, None, None))
            self.assertEqual(service.audit(10).pairings, 1)

    def test_what_a_session_answers(self) -> None:
        self.relay('--away-cap', '14400')
        answers = []
        with Service(self.path) as service, Session(PROGRAM, away_cap=14_400) as session:
            for client in (service, session):
                client.load(there_and_back(3))
                client.settle()
                client.price(1, 2_000)
                client.price(9, 1)
                answers.append((client.settle(), client.version, client.best(), client.pairings(20), client.audit(1_000),
                                client.front('BOS', '3-4'), client.explain('BOS', '1-2 3-4')))
        self.assertEqual(repr(answers[0]), repr(answers[1]))

    def test_two_clients(self) -> None:
        self.relay()
        with Service(self.path) as planner, Service(self.path) as screen:
            planner.load(there_and_back())
            planner.settle()
            self.assertEqual((screen.best().cost, screen.version), (2_200, 1))
            screen.price(1, 1_500)
            screen.price(9, 5)
            self.assertEqual((screen.best().cost, planner.best().cost), (2_200, 2_200))
            version = planner.settle()
            self.assertEqual((version.number, version.entries, version.refused), (2, 5, ()))
            self.assertEqual((planner.best().cost, screen.best().cost, screen.version), (1_700, 1_700, 2))
            version = screen.settle()
            self.assertEqual([it.name for it in version.refused], ['NoFlight'])
            self.assertGreaterEqual(version.number, 2)

    def test_a_zone_of_each(self) -> None:
        self.relay()
        with Service(self.path) as first, Service(self.path) as second:
            first.load(there_and_back())
            second.send('retime,1,BOS,2026-06-09T12:10,2026-06-09T13:50')
            version = second.settle()
            self.assertEqual([it.name for it in version.refused], ['NoZone'])
            second.zone('BOS', 'EST5')
            self.assertEqual(second.settle().refused, ())

    def test_a_question_that_is_refused(self) -> None:
        self.relay()
        with Service(self.path) as service:
            service.load(there_and_back())
            service.settle()
            with self.assertRaises(Refused) as fault:
                service.audit(1)
            self.assertEqual((fault.exception.reason, service.version), (45, 1))
            self.assertEqual(service.audit(2).pairings, 1)
            with self.assertRaises(Refused) as fault:
                service.ask('nothing')
            self.assertEqual((fault.exception.name, fault.exception.number), ('UnknownRecord', service.sent))

    def test_many_edits_that_are_refused_at_once(self) -> None:
        self.relay()
        with Service(self.path) as service:
            service.send_all('price,0,5' for _ in range(5_000))
            version = service.settle()
        self.assertEqual(len({it.number for it in version.refused}), 5_000)
        self.assertEqual({(it.record, it.reason) for it in version.refused}, {('price,0,5', 72)})

    def test_edits_of_a_client_that_has_left(self) -> None:
        self.relay()
        with Service(self.path) as first:
            first.load(there_and_back())
        with Service(self.path) as second:
            self.assertEqual(second.settle().flights, 2)
            self.assertEqual(second.sent, 1)

    def test_a_seat_too_many(self) -> None:
        self.relay('--seats', '1')
        with Service(self.path) as first, Service(self.path) as second:
            first.load(there_and_back())
            first.best()
            second.price(1, 5)
            self.assertEqual([it.name for it in second.settle().refused], ['TooManySeats'])

    def test_a_port(self) -> None:
        told = self.relay(where=('--port', '0'))
        with Service(('127.0.0.1', int(told.rpartition(':')[2]))) as service:
            self.assertIsNone(service.best())

    def test_the_end_of_the_relay(self) -> None:
        self.relay()
        with self.assertRaises(EngineEnded), Service(self.path) as service:
            service.load(there_and_back())
            service.settle()
            self.process.terminate()
            self.assertEqual(self.process.wait(), 0)
            service.best()

    def test_a_record_of_two_lines(self) -> None:
        self.relay()
        with Service(self.path) as service, self.assertRaises(ValueError):
            service.send('price,1,5\nsettle')

    def test_closed_twice(self) -> None:
        self.relay()
        service = Service(self.path)
        service.price(1, 5)
        self.assertEqual((service.close(), service.close()), (0, 0))


if __name__ == '__main__':
    PROGRAM = sys.argv.pop(1) if len(sys.argv) > 1 else PROGRAM
    unittest.main()
