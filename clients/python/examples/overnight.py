#!/usr/bin/env python3
"""Two bases, eight flights of two days, an hour's delay, and the best pairing before and after it: the session of
docs/sessions.md, by calls. Usage: overnight.py [PROGRAM]"""
import sys
from datetime import timedelta
from pathlib import Path

sys.path.insert(0, str(Path(__file__).resolve().parents[1]))

from crewprice import Pairing, Session, Timetable  # noqa: E402

EXAMPLES = Path(__file__).resolve().parents[3] / 'examples'


def told(pairing: Pairing | None) -> str:
    if pairing is None:
        return 'no legal pairing'
    return f'{pairing.walk} from {pairing.base}: cost {pairing.cost}, pay {pairing.pay}, {pairing.away} minutes away'


def main(program: str) -> None:
    timetable = Timetable.read(EXAMPLES / 'overnight.session')
    with Session(program) as session:
        session.load(timetable)
        version = session.settle()
        print(f'version {version.number}: {version.flights} flights')
        for refused in version.refused:
            print(f'{refused.record!r} is refused: {refused.name}')
        print('best:', told(session.best()))
        print('best of ORD:', told(session.best('ORD')))
        for entry in session.front('BOS', '21-22') or []:
            print(f'front: {entry.walk}, cost {entry.cost}')

        early = timetable.flights[13]
        half_an_hour = timedelta(minutes=30)
        session.retime(13, early.origin, early.departure - half_an_hour, early.arrival - half_an_hour)
        session.settle()
        print('best after flight 13 leaves half an hour earlier:', told(session.best()))
        for pairing in session.pairings(10, share=1):
            print('of those that share no flight:', told(pairing))
        print('counted one by one:', session.audit(1_000))


if __name__ == '__main__':
    main(sys.argv[1] if len(sys.argv) > 1 else 'crewprice')
