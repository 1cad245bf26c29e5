#!/usr/bin/env python3
"""Prints the definitions that the contracts of two calls cite, each after those that it stands on.

Usage: tests/cited.py [--names] [--working] [--dropped]

The calls are `crew_core::play`, whose contract is the headline, and `crew_session::run`, whose is the
session's. What their `requires` and `ensures` name is followed through all folders `specs/`,
definition by definition: through `use` and `ghost use` lines, names that are passed on by `pub use`,
and types of the code. Of a type the fields count, and where it has a `Model` only what that shows:
its value, and its invariant where the value is all there is of it (an `inverse`). Of a trait that a
call is generic over the ghosts count. Definitions of the kit, blank lines and comments aren't counted.

  --names    prints each definition, and not only how many a file has
  --working  prints the other files of definitions, each with the crates whose code names it
  --dropped  prints the names that stand for a variable where a definition has the same name
"""

from __future__ import annotations

import argparse
import sys
from dataclasses import dataclass, field
from functools import lru_cache

import sources
from sources import Item, Kind, Place

# The calls whose contracts are followed, in the order in which their definitions are to be read.
CALLS = (("crew_core", "play"), ("crew_session", "run"))


@dataclass
class Cited:
    """What the contract of a call cites, beside what earlier calls cite."""

    call: str
    items: list[Item] = field(default_factory=list)

    def definitions(self) -> list[Item]:
        return [it for it in self.items if it.kind is Kind.DEFINITION]

    def types(self) -> list[Item]:
        return [it for it in self.items if it.kind is Kind.TYPE]

    def by_file(self) -> dict[str, list[Item]]:
        """Its definitions by file, each file after those on which its definitions stand."""
        files: dict[str, list[Item]] = {}
        for item in self.definitions():
            files.setdefault(item.place.file, []).append(item)
        return {file: files[file] for file in in_order(files)}

    def lines(self) -> int:
        return sum(it.lines for it in self.definitions())


def reached(roots: list[Item], seen: set[Place]) -> list[Item]:
    """What these items cite, they too, each after what it cites, without what was seen."""
    found: list[Item] = []
    # An item stands here once before what it cites, and once after it.
    todo = [(it, False) for it in reversed(roots)]
    while todo:
        item, is_done = todo.pop()
        if is_done:
            found.append(item)
            continue
        if item.place in seen:
            continue
        seen.add(item.place)
        todo.append((item, True))
        todo += [(it, False) for it in reversed(item.cites())]
    return found


def in_order(files: dict[str, list[Item]]) -> list[str]:
    """The files, each after those on which the definitions of it stand."""
    below = {file: files_below(items, set(files)) - {file} for file, items in files.items()}
    order: list[str] = []
    left = list(files)
    while left:
        ready = [it for it in left if below[it] <= set(order)]
        if not ready:
            raise SystemExit(f"cited: the files {', '.join(left)} stand on one another")
        order.append(ready[0])
        left.remove(ready[0])
    return order


def files_below(items: list[Item], files: set[str]) -> set[str]:
    """The files that these definitions cite, through types of the code too."""
    found: set[str] = set()
    seen: set[Place] = set()
    todo = list(items)
    while todo:
        item = todo.pop()
        if item.place in seen:
            continue
        seen.add(item.place)
        for it in item.cites():
            if it.kind is Kind.DEFINITION:
                found.add(it.place.file)
            else:
                todo.append(it)
    return found & files


@lru_cache(maxsize=None)
def path() -> tuple[Cited, ...]:
    """What each call cites that the calls before it don't, in order."""
    seen: set[Place] = set()
    told = []
    for crate, call in CALLS:
        root = sources.function(crate, call)
        items = [it for it in reached([root], seen) if it is not root]
        told.append(Cited(f"{crate}::{call}", items))
    return tuple(told)


def cited_by(call: tuple[str, str]) -> Cited:
    """All that the contract of one call cites."""
    root = sources.function(*call)
    items = [it for it in reached([root], set()) if it is not root]
    return Cited("::".join(call), items)


def path_files() -> set[str]:
    """The files that have a definition which one of the calls cites."""
    return {it.place.file for told in path() for it in told.definitions()}


def working() -> dict[str, list[str]]:
    """The files of which neither call cites a definition, each with the crates whose code names it.

    Not those in the folders `Machinery`, of which `named_machinery` tells, and not those of tests.
    """
    found = {}
    for file in sources.files_of_definitions():
        if file.startswith("crates/crew_") and not is_machinery(file) and file not in path_files():
            found[file] = sorted(it for it in named_by()[file] if it.startswith("crew_"))
    return found


def is_machinery(file: str) -> bool:
    return "/specs/Machinery" in file


@lru_cache(maxsize=None)
def named_by() -> dict[str, set[str]]:
    """Of each file of definitions the crates whose code has a `ghost use` of it."""
    found: dict[str, set[str]] = {file: set() for file in sources.files_of_definitions()}
    for path_of_code in sources.CRATES.glob("*/src/**/*.rt"):
        crate = path_of_code.relative_to(sources.CRATES).parts[0]
        header = sources.ghost_header(path_of_code.read_text(encoding="utf-8"))
        modules = [it[:-1] for it in header.items.values()] + list(header.modules.values())
        for steps in modules:
            told = sources.module(tuple(steps))
            if told is not None and told.file in found:
                found[told.file].add(crate)
    return found


def named_machinery() -> dict[str, set[str]]:
    """The definitions outside of the folders `Machinery` that name one there, by crate and name."""
    found: dict[str, set[str]] = {}
    for file in sources.files_of_definitions():
        if is_machinery(file):
            continue
        for item in sources.definitions(file).items.values():
            parts = {it.place.file for it in item.cites() if is_machinery(it.place.file)}
            if parts:
                found[f"{file.split('/')[1]}::{item.name}"] = parts
    return found


def show(told: Cited, names: bool) -> None:
    print(f"{told.call}: {len(told.definitions())} definitions, {told.lines()} lines")
    for file, items in told.by_file().items():
        lines = sum(it.lines for it in items)
        print(f"  {sources.short(file)}: {len(items)} definitions, {lines} lines")
        if names:
            for item in items:
                print(f"    {item.name}: {item.lines}")


def main() -> int:
    parser = argparse.ArgumentParser(description=__doc__.split("\n\n")[0])
    parser.add_argument("--names", action="store_true", help="print each definition")
    parser.add_argument("--working", action="store_true", help="print the other files too")
    parser.add_argument("--dropped", action="store_true", help="print what was taken for a variable")
    asked = parser.parse_args()
    for call in CALLS:
        alone = cited_by(call)
        print(f"{alone.call} alone: {len(alone.definitions())} definitions, {alone.lines()} lines")
    for told in path():
        show(told, asked.names)
    both = [it for told in path() for it in told.definitions()]
    print(f"both: {len(both)} definitions, {sum(it.lines for it in both)} lines")
    if asked.working:
        for file, crates in working().items():
            print(f"{sources.short(file)}: {', '.join(crates) or 'no code'}")
        for name, files in named_machinery().items():
            print(f"{name} names {', '.join(sources.short(it) for it in sorted(files))}")
    if asked.dropped:
        for told in path():
            for item in told.items:
                for name in sorted(item.dropped):
                    print(f"dropped: {item.place.file} {item.name}: {name}")
    return 0


if __name__ == "__main__":
    sys.exit(main())
