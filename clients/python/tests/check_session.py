#!/usr/bin/env python3
"""Sessions by calls: what is refused, engines that end or say something else, and long runs of refused edits. Usage:
check_session.py PROGRAM"""
import os
import stat
import sys
import tempfile
import unittest
from datetime import datetime, timedelta, timezone
from pathlib import Path

sys.path.insert(0, str(Path(__file__).resolve().parents[1]))

from crewprice import (Broken, DutyFigures, EngineEnded, Flight, Leg, Legal, NotUnderstood, Refused,  # noqa: E402
                       Session, Timetable)

PROGRAM = 'crewprice'
MORNING = datetime(2026, 6, 9, 12, 0, tzinfo=timezone.utc)


def there_and_back(days: int = 1) -> Timetable:
    """On each day a flight from Boston to Chicago and one back, an hour later: 100 minutes each."""
    timetable = Timetable({'BOS': 'EST5EDT,M3.2.0,M11.1.0', 'ORD': 'CST6CDT,M3.2.0,M11.1.0'}, {'BOS': 0})
    for day in range(days):
        out = MORNING + timedelta(days=day)
        back = out + timedelta(minutes=160)
        long = timedelta(minutes=100)
        timetable.flights[2 * day + 1] = Flight(2 * day + 1, 'BOS', 'ORD', out, out + long, 1_000)
        timetable.flights[2 * day + 2] = Flight(2 * day + 2, 'ORD', 'BOS', back, back + long, 1_000)
    return timetable


class Stand(unittest.TestCase):
    """A script in the engine's place, which writes what it is told to."""

    def stand(self, text: str) -> str:
        handle, path = tempfile.mkstemp()
        self.addCleanup(os.unlink, path)
        with os.fdopen(handle, 'w') as file:
            file.write('#!/bin/sh\n' + text)
        os.chmod(path, stat.S_IRWXU)
        return path

    def test_an_engine_that_ends(self) -> None:
        with self.assertRaises(EngineEnded) as fault, Session(self.stand('exit 3\n')) as session:
            session.settle()
        self.assertEqual(fault.exception.status, 3)

    def test_an_engine_that_is_none(self) -> None:
        with self.assertRaises(NotUnderstood), Session(self.stand('read x; echo hello; cat > /dev/null\n')) as session:
            session.settle()

    def test_no_engine(self) -> None:
        with self.assertRaises(EngineEnded):
            Session('/nowhere/crewprice')

    def test_half_a_line(self) -> None:
        with self.assertRaises(EngineEnded), Session(self.stand('read x; printf "version 1"\n')) as session:
            session.settle()


class Sessions(unittest.TestCase):
    def test_a_pairing_and_its_parts(self) -> None:
        with Session(PROGRAM) as session:
            session.load(there_and_back())
            version = session.settle()
            best = session.best()
        self.assertEqual((version.number, version.entries, version.flights, version.refused), (1, 3, 2, ()))
        # 200 flight minutes at 14 are 2,800; report to release 350 minutes at 7 are 2,450; a duty's least is 2,520; the
        # guarantee of a duty is 4,200, which is the most
        self.assertEqual((best.base, best.walk, best.pay, best.cost, best.away), ('BOS', '1-2', 4_200, 2_200, 350))
        self.assertEqual(best.duties, ((Leg(1), Leg(2)),))
        self.assertEqual(best.flights, (1, 2))

    def test_turns_and_follow_ons(self) -> None:
        with Session(PROGRAM) as session:
            session.load(there_and_back())
            session.turn(1, 2, 61)  # there are 60 minutes
            session.settle()
            self.assertIsNone(session.best())
            broken = session.explain('BOS', '1-2')
            self.assertEqual((broken.rule, broken.found, broken.limit), ('turn', 60, 61))
            session.turn(1, 2, 60)
            session.settle()
            self.assertEqual(session.best().walk, '1-2')
            session.take_turn(1, 2)
            session.follow(1, 2)
            session.follow(1, 2)
            version = session.settle()
            self.assertEqual([(it.reason, it.name) for it in version.refused], [(36, 'Taken')])
            self.assertEqual(session.best().walk, '1-2')
            self.assertEqual(session.explain('BOS', '1').rule, 'returns')
            session.take_follow(1)
            session.take_follow(1)
            session.take_turn(1, 2)
            self.assertEqual([it.name for it in session.settle().refused], ['NoFollowOn', 'NoTurn'])

    def test_the_status_of_a_session(self) -> None:
        session = Session(PROGRAM)
        self.assertIsNone(session.best())
        self.assertEqual(session.close(), 0)
        self.assertEqual(session.close(), 0)

    def test_settings(self) -> None:
        with Session(PROGRAM, sit=50, connect=20) as session:
            session.load(there_and_back())
            session.settle()
            self.assertIsNone(session.best())  # an hour on the ground is more than 50 minutes
        with self.assertRaises(EngineEnded) as fault, Session(PROGRAM, max_duties=13) as session:
            session.settle()
        self.assertEqual(fault.exception.status, 4)

    def test_edits_that_are_refused(self) -> None:
        with Session(PROGRAM) as session:
            session.load(there_and_back())
            at_once = session.send('price,0,5')
            later = session.price(3, 5)
            version = session.settle()
            self.assertEqual([(it.number, it.reason, it.record, it.name) for it in version.refused],
                             [(at_once, 72, 'price,0,5', 'BadField'), (later, 24, 'price,3,5', 'NoFlight')])
            session.cancel(1)
            self.assertEqual(session.settle().refused, ())

    def test_a_question_that_is_refused(self) -> None:
        with Session(PROGRAM) as session:
            session.load(there_and_back())
            session.settle()
            with self.assertRaises(Refused) as fault:
                session.audit(1)
            self.assertEqual(fault.exception.reason, 45)
            self.assertEqual(session.audit(2).pairings, 1)
            with self.assertRaises(Refused) as fault:
                session.pairings(0)
            self.assertEqual(fault.exception.reason, 72)

    def test_fronts(self) -> None:
        with Session(PROGRAM) as session:
            session.load(there_and_back())
            session.settle()
            self.assertIsNone(session.front('BOS', '2-1'))
            self.assertIsNone(session.front('ORD', (Leg(1), Leg(2))))
            (entry,) = session.front('BOS', (Leg(1), Leg(2)))
            self.assertEqual(entry.vector, (800, -600, 2_200, 320, 200, 1, 350))
            self.assertEqual((entry.cost, entry.walk), (2_200, '1-2'))

    def test_fronts_of_long_pairings(self) -> None:
        with Session(PROGRAM, away_cap=14_400) as session:
            session.load(there_and_back())
            session.settle()
            (entry,) = session.front('BOS', '1-2')
            self.assertEqual(entry.vector, (800, -600, 2_200, 320, 200, 1, 350, 0))

    def test_explanations(self) -> None:
        with Session(PROGRAM) as session:
            session.load(there_and_back())
            session.settle()
            legal = session.explain('BOS', '1-2')
            # report is an hour before 12:00 UTC, at 07:00 in Boston: Table B gives 14 hours to two segments, Table A 9
            self.assertEqual(legal, Legal(2_200, 4_200, 350, 'guarantee',
                                          (DutyFigures('1-2', 0, 350, 320, 840, 200, 540, '07:00', None),)))
            self.assertEqual(session.explain('BOS', '1'), Broken('returns', None, 1, None, None, None))
            self.assertEqual(session.explain('ORD', '2'), Broken('base', None, None, None, None, None))
            self.assertEqual(session.explain('BOS', '1-3'), Broken('flight', None, 1, 2, None, None))
            self.assertEqual(session.explain('BOS', '1-2 1').rule, 'rest')
        with Session(PROGRAM, sit=59) as session:
            session.load(there_and_back())
            session.settle()
            self.assertEqual(session.explain('BOS', '1-2'), Broken('sit', None, 1, 2, 60, 59))

    def test_many_edits_that_are_refused_at_once(self) -> None:
        with Session(PROGRAM) as session:
            session.send_all('price,0,5' for _ in range(50_000))
            version = session.settle()
        self.assertEqual(len(version.refused), 50_000)
        self.assertEqual({it.reason for it in version.refused}, {72})

    def test_times(self) -> None:
        flight = Flight(1, 'BOS', 'ORD', datetime(2026, 6, 9, 8, tzinfo=timezone(timedelta(hours=-4))),
                        datetime(2026, 6, 9, 13, 40))
        self.assertEqual(flight.record, 'flight,1,BOS,ORD,2026-06-09T12:00,2026-06-09T13:40,0')
        with self.assertRaises(ValueError):
            _ = Flight(1, 'BOS', 'ORD', MORNING, MORNING + timedelta(seconds=5)).record

    def test_a_record_of_two_lines(self) -> None:
        with Session(PROGRAM) as session, self.assertRaises(ValueError):
            session.send('price,1,5\nsettle')


if __name__ == '__main__':
    PROGRAM = sys.argv.pop(1) if len(sys.argv) > 1 else PROGRAM
    unittest.main()
