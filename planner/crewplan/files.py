"""Files that are written whole or not at all."""
from __future__ import annotations

import os
import tempfile
from pathlib import Path

from .faults import Fault


def check_folder(path: Path) -> None:
    """Raises Fault where a file can't be written there."""
    if not path.parent.is_dir() or not os.access(path.parent, os.W_OK):
        raise Fault(f'{path}: its folder is not there, or nothing can be written to it')
    if path.is_dir():
        raise Fault(f'{path}: it is a folder')


def write_whole(contents: dict[Path, bytes]) -> None:
    """Writes files, all of them or none: each under another name first, and then all take their names."""
    made: dict[Path, str] = {}
    mask = os.umask(0)
    os.umask(mask)
    try:
        for path, content in contents.items():
            with tempfile.NamedTemporaryFile(dir=path.parent, prefix=f'.{path.name}.', delete=False) as file:
                made[path] = file.name
                file.write(content)
            os.chmod(file.name, 0o666 & ~mask)
        for path in list(made):
            os.replace(made.pop(path), path)
    except OSError as fault:
        raise Fault(f'{path}: {fault.strerror}') from None
    finally:
        for name in made.values():
            os.unlink(name)
