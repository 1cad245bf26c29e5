"""Clients of the pricing engine `crewprice`: flights and dual prices in, legal crew pairings of least reduced cost out.
A `Session` is a process of one's own, a `Service` a connection to an engine that several clients share.

    from crewprice import Session, Timetable

    with Session('crewprice', sit=180) as session:
        session.load(Timetable.read('week.session'))
        session.settle()
        print(session.best())
"""
from .client import Audit, Version
from .explanation import Broken, DutyFigures, Legal
from .faults import EngineEnded, EngineError, NotUnderstood, Refused
from .pairing import Entry, Leg, Pairing
from .service import Service
from .session import Session
from .timetable import Flight, Timetable

__all__ = ['Audit', 'Broken', 'DutyFigures', 'EngineEnded', 'EngineError', 'Entry', 'Flight', 'Leg', 'Legal',
           'NotUnderstood', 'Pairing', 'Refused', 'Service', 'Session', 'Timetable', 'Version']
