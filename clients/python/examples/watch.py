#!/usr/bin/env python3
"""A planner, a screen and a feed of delays at one engine: three connections to a relay that this starts itself. Usage:
watch.py [PROGRAM]"""
import sys
import tempfile
from collections.abc import Iterator
from contextlib import contextmanager
from datetime import timedelta
from pathlib import Path
from subprocess import PIPE, Popen

sys.path.insert(0, str(Path(__file__).resolve().parents[1]))

from crewprice import Service, Timetable  # noqa: E402

TOP = Path(__file__).resolve().parents[3]


@contextmanager
def relay(program: str) -> Iterator[str]:
    """A relay before the engine, while the block runs: the path of its socket."""
    with tempfile.TemporaryDirectory() as folder:
        path = f'{folder}/crewprice'
        with Popen([TOP / 'clients/relay/relay', '--socket', path, program, 'serve'], stdout=PIPE) as process:
            process.stdout.readline()  # `ready at ..`
            yield path
            process.terminate()
    print('the relay ended with status', process.returncode)


def look(screen: Service, when: str) -> None:
    best = screen.best()
    shown = 'no legal pairing' if best is None else f'{best.walk} from {best.base}, cost {best.cost}'
    print(f'{when}: {shown} (version {screen.version})')


def main(program: str) -> None:
    timetable = Timetable.read(TOP / 'examples' / 'overnight.session')
    with relay(program) as path, Service(path) as planner, Service(path) as screen, Service(path) as feed:
        look(screen, 'before all')
        planner.load(timetable)
        version = planner.settle()
        print(f'the planner settled version {version.number}: {version.flights} flights, {len(version.refused)} refused')
        look(screen, 'on the screen')

        early = timetable.flights[13]
        half_an_hour = timedelta(minutes=30)
        feed.zone('ORD', timetable.zones['ORD'])  # each client names the clocks that its flights need
        feed.retime(13, early.origin, early.departure - half_an_hour, early.arrival - half_an_hour)
        look(feed, 'once the feed has sent a retime')  # its answer says that all before it was taken
        look(screen, 'on the screen')
        version = planner.settle()  # whose settle it is doesn't matter
        print(f'the planner settled version {version.number}: {version.entries} entries')
        look(screen, 'on the screen')
        print('of ORD:', screen.best('ORD'))


if __name__ == '__main__':
    main(sys.argv[1] if len(sys.argv) > 1 else 'crewprice')
