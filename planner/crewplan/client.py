"""Sessions by calls, from the folder `clients/python` of this repository."""
import sys
from pathlib import Path

sys.path.insert(0, str(Path(__file__).resolve().parents[2] / 'clients' / 'python'))

from crewprice import EngineEnded, NotUnderstood, Refused, Session  # noqa: E402

__all__ = ['EngineEnded', 'NotUnderstood', 'Refused', 'Session']
