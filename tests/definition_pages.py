"""Holds docs/definitions.md and docs/working-definitions.md against what tests/cited.py finds."""

from __future__ import annotations

import re
from collections.abc import Iterator

import cited
import sources
from cited import Cited

PATH = "docs/definitions.md"
REST = "docs/working-definitions.md"
# Where the part of the second call begins.
SECOND = "## What `run` cites beside that"
FILE = re.compile(r"`([a-z_]+/specs/[A-Za-z/]+)`")


def cells_of(row: str) -> list[str]:
    return [it.strip() for it in row.strip().strip("|").split("|")]


def rows_of(text: str, column: int) -> Iterator[tuple[str, list[str]]]:
    """The rows of tables that name one file of definitions in this column: its name, the cells."""
    for row in text.splitlines():
        cells = cells_of(row)
        if row.startswith("|") and len(cells) > column:
            found = FILE.fullmatch(cells[column])
            if found is not None:
                yield found[1], cells


def lines_of(items: list[sources.Item]) -> int:
    return sum(it.lines for it in items)


def lines_of_files(files: list[str]) -> int:
    return sum(lines_of(list(sources.definitions(it).items.values())) for it in files)


def path_faults(text: str, told: Cited, before: set[str]) -> Iterator[str]:
    """What isn't so of the rows of one part: its files, their lines, and their order."""
    files = told.by_file()
    names = {sources.short(it): it for it in files}
    above: set[str] = set()
    for name, cells in rows_of(text, 2):
        if name in above:
            yield f"{name} stands twice in one part"
        above.add(name)
        if name not in names:
            yield f"{told.call} cites no definition of {name} there"
            continue
        items = files[names[name]]
        if cells[3].replace(",", "") != str(lines_of(items)):
            yield f"{name} has {lines_of(items)} cited lines, and not {cells[3]}"
        listed = set(re.findall(r"`([^`]+)`", cells[0]))
        if listed and listed != {it.name for it in items}:
            yield f"of {name} are cited {', '.join(it.name for it in items)}"
        below = {sources.short(it) for it in cited.files_below(items, set(files))}
        for missing in sorted(below - above - before):
            yield f"{name} stands on {missing}, which doesn't stand above it"
    for name in sorted(set(names) - above):
        yield f"{told.call} cites {name}, of which there is no row"


def counts_told(text: str, shape: str) -> tuple[int, ...]:
    found = re.search(shape, text)
    return tuple(int(it.replace(",", "")) for it in found.groups()) if found else ()


def of_path() -> Iterator[str]:
    text = sources.text_of(PATH)
    first, _, second = text.partition(SECOND)
    play, more = cited.path()
    yield from path_faults(first, play, set())
    yield from path_faults(second, more, {sources.short(it) for it in play.by_file()})
    run = cited.cited_by(cited.CALLS[1])
    wanted = {
        r"What `play` cites: ([\d,]+) definitions, ([\d,]+) lines": play,
        r"What `run` cites: ([\d,]+) definitions, ([\d,]+) lines": run,
        r"the others, ([\d,]+) definitions and ([\d,]+) lines": more,
    }
    for shape, part in wanted.items():
        count = (len(part.definitions()), part.lines())
        if counts_told(text, shape) != count:
            yield f"{part.call} cites {count[0]} definitions of {count[1]} lines there"
    types = {f"{it.place.file.split('/')[1]}::{it.name}" for it in [*play.types(), *more.types()]}
    named = set(re.findall(r"`(crew_[a-z]+::[A-Z]\w*)`", text.partition("## Types of the code")[2]))
    for name in sorted(types ^ named):
        yield f"{name} is {'not named' if name in types else 'no type that they speak of'}"


def of_rest() -> Iterator[str]:
    text = sources.text_of(REST)
    files = cited.working()
    wanted = {sources.short(it): ", ".join(crates) for it, crates in files.items()}
    rows = {name: cells[2] for name, cells in rows_of(text.partition("## Machinery")[0], 1)}
    for name in sorted(set(wanted) ^ set(rows)):
        yield f"{name} {'has no row' if name in wanted else 'is no working file'}"
    for name in sorted(set(wanted) & set(rows)):
        if rows[name] != wanted[name]:
            yield f"{name} is named by {wanted[name] or 'no code'}"
    count = (len(files), lines_of_files(list(files)))
    if counts_told(text, r"These (\d+) files have ([\d,]+) lines of definitions") != count:
        yield f"there are {count[0]} files of {count[1]} lines"
    parts = [it for it in sources.files_of_definitions() if cited.is_machinery(it)]
    lines = lines_of_files(parts)
    if counts_told(text, r"`specs/Machinery` have ([\d,]+) lines") != (lines,):
        yield f"the folders `specs/Machinery` have {lines} lines"
    told = {}
    for row in text.partition("## Machinery")[2].splitlines():
        found = re.match(r"\| `(crew_[a-z]+::\w+)` \|", row)
        if found:
            told[found[1]] = set(FILE.findall(row))
    named = {name: {sources.short(it) for it in part} for name, part in cited.named_machinery().items()}
    for name in sorted(set(told) | set(named)):
        if told.get(name) != named.get(name):
            yield f"{name} names {', '.join(sorted(named.get(name, {'none of them'})))}"


def faults() -> Iterator[tuple[str, str]]:
    """Each fault of both pages, with the page."""
    yield from ((PATH, it) for it in of_path())
    yield from ((REST, it) for it in of_rest())
