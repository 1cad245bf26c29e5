"""Reads definitions (`specs/*.antt`), contracts and types (`src/*.rt`), and finds what each names.

A *place* is a file and a name in it. An `Item` is a definition, a type of the code, or a function of
which the contract counts; `cites` gives the items of this repository that its text names. A name is
found as the languages find it: in its own file, by a `use` or `ghost use` line, behind the name of a
module, and through what `pub use` passes on, in `specs/Lib.antt` and in `src/lib.rt`. What it leads
to outside of the repository's crates isn't followed.
"""

from __future__ import annotations

import re
from dataclasses import dataclass, field
from enum import Enum
from functools import lru_cache
from pathlib import Path

TOP = Path(__file__).resolve().parent.parent
CRATES = TOP / "crates"

# Letters of a name in definitions: all but blanks, brackets and separators.
NAME = r"[^\s(){}\[\],;.]+"
DECLARES = re.compile(
    rf"(?:(?:pattern|unfoldable|abbrev|pub)\s+)*(?:(record|data|axiom)\s+)?({NAME})(\s.*)?$", re.S)
SIGNED = re.compile(rf"(?:(?:pattern|unfoldable|abbrev|pub)\s+)*{NAME}(?:\s+\{{[^}}]*\}})*\s+:(?:\s|$)")
TYPED = re.compile(r"(?:(?:abbrev|pub)\s+)*(?:record|data|axiom)\s")
# Words of the language that name nothing.
WORDS = {"pub", "abbrev", "unfoldable", "record", "data", "where", "let", "in", "elim", "as", "open",
         "unfolding", "unfold", "module", "_", "use", "→", "↦", "|", ":", "=", "λ", "×", "Type"}


class Kind(Enum):
    """What an item is."""

    DEFINITION = "definition"
    TYPE = "type"
    CALL = "call"


@dataclass(frozen=True)
class Place:
    """A file, from the top of the repository, and a name in it."""

    file: str
    name: str


@dataclass(eq=False)
class Item:
    """Something that can be cited."""

    kind: Kind
    place: Place
    text: str
    lines: int
    dropped: set[str] = field(default_factory=set)
    known: list[Item] | None = None

    @property
    def name(self) -> str:
        return self.place.name

    def cites(self) -> list[Item]:
        """The items that its text names, in the order in which it does."""
        if self.known is None:
            found = cited_in_definition(self) if self.kind is Kind.DEFINITION else cited_in_code(self)
            self.known = [it for it in dict.fromkeys(found) if it is not self]
        return self.known


def short(file: str) -> str:
    """`crates/crew_x/specs/Y.antt` as `crew_x/specs/Y`."""
    return file.removeprefix("crates/").removesuffix(".antt")


def is_crate(name: str) -> bool:
    return (CRATES / name).is_dir()


def files_of_definitions() -> list[str]:
    """All files of definitions, but for those that only list others."""
    found = sorted(str(it.relative_to(TOP)) for it in CRATES.glob("*/specs/**/*.antt"))
    return [it for it in found if definitions(it).items]


@lru_cache(maxsize=None)
def text_of(file: str) -> str:
    return (TOP / file).read_text(encoding="utf-8")


def there(path: Path) -> str | None:
    """A file by its path from the top, if it is there."""
    return str(path.relative_to(TOP)) if path.is_file() else None


def without_comments(text: str, mark: str) -> str:
    return "\n".join(re.sub(rf"(^|\s){mark}.*", r"\1", line) for line in text.split("\n"))


# ---- files of definitions


@dataclass
class Header:
    """The names that the `use` lines of a file bring: items and modules, each by its path."""

    items: dict[str, list[str]] = field(default_factory=dict)
    modules: dict[str, list[str]] = field(default_factory=dict)

    def add(self, line: str) -> None:
        """Takes what stands after `use`."""
        path, braces, names = line.partition(".{")
        if braces:
            for word in names.rstrip("} ;").split(","):
                whole, _, other = word.strip().partition(" as ")
                if whole:
                    steps = path.strip().split(".") + split_path(whole)
                    self.items[other.strip() or steps[-1]] = steps
            return
        whole, _, other = line.strip(" ;").partition(" as ")
        steps = whole.strip().split(".")
        self.modules[other.strip() or steps[-1]] = steps


def split_path(whole: str) -> list[str]:
    """The steps of a path in braces; an operator such as `◌..◌` is one step."""
    return whole.split(".") if re.fullmatch(r"[\w.-]+", whole) else [whole]


@dataclass
class Definitions:
    """A file of definitions."""

    file: str
    header: Header = field(default_factory=Header)
    items: dict[str, Item] = field(default_factory=dict)
    # Each constructor's type.
    made_by: dict[str, str] = field(default_factory=dict)


@lru_cache(maxsize=None)
def definitions(file: str) -> Definitions:
    told = Definitions(file)
    block: list[str] = []
    inside = ""
    head: Item | None = None
    for line in text_of(file).split("\n"):
        if re.match(r"(?:unfoldable\s+)?(?:pub\s+)?use\s", line):
            told.header.add(re.sub(r"^.*?use\s+", "", line))
        elif re.match(r"(?:pub\s+)?mod\s", line):
            continue
        elif re.match(r"module _\s", line):
            close(told, block, head)
            block, inside, head = [line], "  ", None
        elif inside and not line.startswith(inside) and line.strip() and not is_head_line(block):
            close(told, block, head)
            block, inside, head = [line], "", None
        elif begins(line, inside):
            if is_head_line(block):
                head = Item(Kind.DEFINITION, Place(file, "module"), "\n".join(block), len(whole_lines(block)))
            else:
                close(told, block, head)
            block = [line]
        else:
            block.append(line)
    close(told, block, head)
    return told


def is_head_line(block: list[str]) -> bool:
    """Whether these lines are the head of a block of definitions with parameters of their own."""
    return bool(block) and block[0].startswith("module _")


def begins(line: str, inside: str) -> bool:
    """Whether a definition begins with this line."""
    if not line.startswith(inside) or line[len(inside):len(inside) + 1] in ("", " ", "-", "}"):
        return False
    rest = line[len(inside):]
    return bool(SIGNED.match(rest) or TYPED.match(rest))


def whole_lines(block: list[str]) -> list[str]:
    """The lines of a definition, without blank ones, comments, and what tells how operators bind."""
    return [it for it in block if it.strip() and not it.strip().startswith(("--", "infix"))]


def close(told: Definitions, block: list[str], head: Item | None) -> None:
    """Takes the definition of these lines into its file, with the head of the block around it."""
    whole = whole_lines(block)
    if not whole or is_head_line(whole):
        return
    found = DECLARES.match(whole[0].strip())
    if found is None:
        return
    name = found[2]
    text = "\n".join(whole)
    if head is not None:
        text = head.text + "\n" + text
    told.items[name] = Item(Kind.DEFINITION, Place(told.file, name), text, len(whole))
    if found[1] == "data":
        for line in whole[1:]:
            made = re.match(rf"\s+({NAME})\s+:", line)
            if made:
                told.made_by[made[1]] = name


# ---- modules, by their paths


@dataclass(frozen=True)
class Module:
    """A module: a file of definitions, or what the language makes of a type of the code."""

    crate: str
    file: str | None = None
    folder: Path | None = None
    # For what is made of the code: the steps below `declared`.
    declared: tuple[str, ...] | None = None


@lru_cache(maxsize=None)
def module(steps: tuple[str, ...]) -> Module | None:
    """The module of a path, if it is one of this repository's definitions or types."""
    if steps and steps[0] == "package":
        steps = steps[1:]
    if len(steps) < 3 or steps[0] != "Rattle" or not is_crate(steps[1]) or steps[2] != "specs":
        return None
    folder = CRATES / steps[1] / "specs"
    at: Module | None = Module(steps[1], there(folder / "Lib.antt"), folder)
    for step in steps[3:]:
        at = below(at, step)
        if at is None:
            return None
    return at


def below(at: Module, step: str) -> Module | None:
    """The module of this name below another: its own, or one that it passes on."""
    if at.declared is not None:
        return Module(at.crate, declared=(*at.declared, step))
    if step == "declared" and at.folder == CRATES / at.crate / "specs":
        return Module(at.crate, declared=())
    folder = at.folder / step
    file = there(at.folder / f"{step}.antt") or there(folder / "Lib.antt")
    if file is not None:
        return Module(at.crate, file, folder)
    if at.file is not None:
        passed = definitions(at.file).header.modules.get(step)
        if passed is not None:
            return module(tuple(passed))
    return None


def item_of(at: Module, name: str) -> Item | None:
    """The item of this name in a module: its own, a constructor's type, or one passed on."""
    if at.declared is not None:
        return declared_type(at.crate, (*at.declared, name))
    if at.file is None:
        return None
    told = definitions(at.file)
    if name in told.items:
        return told.items[name]
    if name in told.made_by:
        return told.items[told.made_by[name]]
    if name in told.header.items:
        return item_at(told.header.items[name])
    return None


def item_at(steps: list[str]) -> Item | None:
    at = module(tuple(steps[:-1]))
    return None if at is None else item_of(at, steps[-1])


# ---- the text of definitions


@dataclass
class Scope:
    """What names mean in a file: its own items and what its `use` lines bring."""

    own: Definitions | None
    header: Header

    def find(self, word: str) -> Item | None:
        """The item that a word of a text names, if it is one of this repository."""
        if word in self.header.items:
            return item_at(self.header.items[word])
        if self.own is not None and word in self.own.items:
            return self.own.items[word]
        if self.own is not None and word in self.own.made_by:
            return self.own.items[self.own.made_by[word]]
        first, dot, rest = word.partition(".")
        if dot and first in self.header.modules:
            return self.behind(self.header.modules[first], rest.split("."))
        if dot and first == "Rattle":
            return self.behind(["Rattle"], rest.split("."))
        return self.find(first) if dot and first else None

    def behind(self, start: list[str], steps: list[str]) -> Item | None:
        """The first item that a path comes to, module by module."""
        for last in range(len(steps)):
            found = item_at([*start, *steps[:last + 1]])
            if found is not None:
                return found
        return None

    def operators(self) -> dict[str, str]:
        """Each symbol of an operator of this repository, with the operator's name."""
        names = list(self.header.items) + (list(self.own.items) if self.own else [])
        return {part: name for name in names if "◌" in name for part in name.split("◌") if part}


def words_of(text: str) -> list[str]:
    """The words of a text, and its brackets and separators."""
    return re.findall(r"[(){}\[\],;]|[^\s(){}\[\],;]+", text)


def binders_of(text: str) -> set[str]:
    """The variables that a text binds, but for those of patterns."""
    found: set[str] = set()
    for names in re.findall(rf"[({{]\s*((?:{NAME}\s+)*{NAME})\s+:\s", text):
        found.update(names.split())
    for names in re.findall(r"λ\s+([^.]*)\.", text):
        found.update(re.findall(NAME, names))
    found.update(re.findall(rf"\blet\s+({NAME})\s", text))
    for pattern in re.findall(r"[\[|]\s*([^\[\]|↦]*)↦", text):
        found.update(it for it in re.findall(NAME, pattern) if is_variable(it))
    return found


def is_variable(word: str) -> bool:
    """Whether a word of a pattern can be a variable: constructors begin with a capital."""
    return word[:1].islower() and word not in ("zero", "suc", "true", "false", "tt")


def cited_in_definition(item: Item) -> list[Item]:
    told = definitions(item.place.file)
    scope = Scope(told, told.header)
    text = without_comments(item.text, "--")
    found: list[Item] = []
    outer: set[str] = set()
    for part, bound, later in parts_of(item.name, text):
        found += cited_in_text(part, scope, outer | bound, item)
        outer |= later
    return found


def parts_of(name: str, text: str) -> list[tuple[str, set[str], set[str]]]:
    """The parts of a definition, each with its variables and those that it binds for later parts."""
    lines = text.split("\n")
    head = next((at for at, line in enumerate(lines) if TYPED.match(line.strip())), None)
    if head is not None:
        return parts_of_type(lines, head)
    parts: list[list[str]] = [[]]
    for line in lines:
        shift = len(line) - len(line.lstrip())
        if parts[-1] and shift in (0, 2) and is_clause(name, line.strip()):
            parts.append([])
        parts[-1].append(line)
    told = []
    for number, part in enumerate(parts):
        whole = "\n".join(part)
        bound = binders_of(whole)
        later = binders_of(whole) if number == 0 and whole.startswith("module _") else set()
        if number > 0:
            left = re.split(r"\s=(?:\s|$)", whole, maxsplit=1)[0]
            bound |= {it for it in re.findall(NAME, left) if is_variable(it)} - {name}
        told.append((whole, bound, later))
    return told


def is_clause(name: str, line: str) -> bool:
    """Whether a clause of the definition of this name begins with this line."""
    if "◌" in name:
        return any(part in line.split() for part in name.split("◌") if part)
    return line == name or line.startswith((name + " ", name + "\n"))


def parts_of_type(lines: list[str], head: int) -> list[tuple[str, set[str], set[str]]]:
    """A record's or a data type's head and fields: each field may name those before it."""
    parts: list[list[str]] = [[]]
    for number, line in enumerate(lines):
        if number > head and re.match(rf"\s+(?:pub\s+)?{NAME}\s+:(\s|$)", line):
            parts.append([])
        parts[-1].append(line)
    told = []
    for number, part in enumerate(parts):
        whole = "\n".join(part)
        if number == 0:
            told.append((whole, binders_of(whole), binders_of(whole)))
            continue
        name = re.match(rf"\s+(?:pub\s+)?({NAME})\s+:", whole)[1]
        kind = re.sub(rf"^\s+(?:pub\s+)?{re.escape(name)}\s+:", "", whole)
        told.append((kind, binders_of(kind), {name} if is_variable(name) else set()))
    return told


def cited_in_text(text: str, scope: Scope, bound: set[str], item: Item) -> list[Item]:
    """The items of this repository that a text names; notes those that stand for a variable."""
    found: list[Item] = []
    operators = scope.operators()
    words = words_of(text)
    for at, word in enumerate(words):
        word = word.rstrip(".") if word.strip(".") else word
        if word in WORDS or word.startswith("."):
            continue
        if at + 1 < len(words) and words[at + 1] == "=" and at > 0 and words[at - 1] in "{;":
            continue
        target = scope.find(operators.get(word, word))
        if target is None:
            continue
        if word.split(".")[0] in bound:
            item.dropped.add(f"{word} ({short(target.place.file)})")
            continue
        found.append(target)
    return found


# ---- types and contracts of the code


@lru_cache(maxsize=None)
def declared_type(crate: str, steps: tuple[str, ...]) -> Item | None:
    """The type of the code to which a path below `declared` leads, if it names one."""
    folder = CRATES / crate / "src"
    for length in range(len(steps) - 1, -1, -1):
        file = there(folder.joinpath(*steps[:length]).with_suffix(".rt")) if length else None
        file = file or (there(folder / "lib.rt") if length == 0 else None)
        if file is not None and length < len(steps):
            return code_type(file, steps[length])
    return None


@lru_cache(maxsize=None)
def code_type(file: str, name: str) -> Item | None:
    """A struct, enum, trait or alias of a file of the code, with its `Model`."""
    text = without_comments(text_of(file), "//")
    shape = rf"^(?:pub(?:\([a-z]+\))?\s+)?(struct|enum|trait|type|union)\s+{re.escape(name)}\b"
    found = re.search(shape, text, re.M)
    if found is None:
        return None
    body = block_at(text, found.start())
    if found[1] == "trait":
        return Item(Kind.TYPE, Place(file, name), "\n".join(ghosts_of(body)), 0)
    model = re.search(rf"^impl(?:<[^{{]*>)?\s+Model\s+for\s+{re.escape(name)}\b", text, re.M)
    if model is not None:
        body = shown_by(block_at(text, model.start()))
    return Item(Kind.TYPE, Place(file, name), body, 0)


def block_at(text: str, start: int) -> str:
    """The text from here to the end of its braces, or to a semicolon before any."""
    depth = 0
    for at in range(start, len(text)):
        if text[at] == "{":
            depth += 1
        elif text[at] == "}":
            depth -= 1
            if depth == 0:
                return text[start:at + 1]
        elif text[at] == ";" and depth == 0:
            return text[start:at + 1]
    return text[start:]


def ghosts_of(body: str) -> list[str]:
    """The ghosts of an impl or a trait, with their `ghost use` lines."""
    found = re.findall(r"^\s+ghost use [^;]*;", body, re.M)
    for at in re.finditer(r"^\s+ghost (?!use)", body, re.M):
        found.append(block_at(body, at.start()))
    return found


def shown_by(model: str) -> str:
    """What a `Model` shows: its value, and its invariant where the value is all there is."""
    parts = ghosts_of(model)
    wanted = ["use", "Value"]
    if any(re.match(r"\s*ghost inverse\b", it) for it in parts):
        wanted.append("invariant")
    return "\n".join(it for it in parts if it.split()[1] in wanted)


@lru_cache(maxsize=None)
def function(crate: str, name: str) -> Item:
    """A function of a crate: its parameters, its bounds and its contract."""
    for file in sorted((CRATES / crate / "src").glob("**/*.rt")):
        text = without_comments(file.read_text(encoding="utf-8"), "//")
        found = re.search(rf"^pub fn {re.escape(name)}\b.*?(?=^\{{)", text, re.M | re.S)
        if found is not None:
            return Item(Kind.CALL, Place(str(file.relative_to(TOP)), name), found[0], 0)
    raise SystemExit(f"cited: {crate} has no function {name}")


def ghost_header(text: str) -> Header:
    """What the `ghost use` lines of a text bring."""
    header = Header()
    for line in re.findall(r"ghost use ([^;]*);", text):
        header.add(" ".join(line.split()))
    return header


def cited_in_code(item: Item) -> list[Item]:
    whole = without_comments(text_of(item.place.file), "//")
    top = "\n".join(re.findall(r"^ghost use [^;]*;", whole, re.M | re.S))
    header = ghost_header(top)
    own = ghost_header(item.text)
    header.items.update(own.items)
    header.modules.update(own.modules)
    text = re.sub(r"ghost use [^;]*;", "", item.text)
    scope = Scope(None, header)
    # Clauses and ghosts stand in braces, and are written as definitions are; the rest is code.
    found: list[Item] = []
    for word in re.findall(r"[A-Za-z_]\w*", text):
        target = code_name(item.place.file, word)
        if target is not None:
            found.append(target)
    found += cited_in_text(text, scope, binders_of(text), item)
    return found


@lru_cache(maxsize=None)
def code_name(file: str, name: str) -> Item | None:
    """The type that a name means in a file of the code, if it is one of this repository."""
    own = code_type(file, name)
    if own is not None:
        return own
    crate = file.split("/")[1]
    for line in re.findall(r"^(?:pub\s+)?use ([^;]*);", text_of(file), re.M):
        for path, known in uses_of(line):
            if known == name:
                return code_path(crate, path)
    return None


def uses_of(line: str) -> list[tuple[list[str], str]]:
    """The paths that a `use` line brings, each with the name that it gets."""
    line = " ".join(line.split())
    start, braces, names = line.partition("::{")
    words = names.rstrip("} ").split(",") if braces else [""]
    found = []
    for word in words:
        whole = f"{start}::{word.strip()}" if word.strip() else start
        if braces and not word.strip():
            continue
        path, _, other = whole.partition(" as ")
        steps = path.strip().split("::")
        if steps[-1] == "self":
            steps = steps[:-1]
        found.append((steps, other.strip() or steps[-1]))
    return found


def code_path(crate: str, steps: list[str]) -> Item | None:
    """The type of a path in the code, from a file of this crate."""
    if steps[0] == "crate":
        steps = [crate, *steps[1:]]
    if not is_crate(steps[0]):
        return None
    folder = CRATES / steps[0] / "src"
    for length in range(len(steps) - 2, 0, -1):
        file = there(folder.joinpath(*steps[1:length + 1]).with_suffix(".rt"))
        if file is not None:
            return code_name(file, steps[length + 1])
    root = there(folder / "lib.rt")
    return None if root is None else passed_on(root, steps[0], steps[1:])


def passed_on(root: str, crate: str, steps: list[str]) -> Item | None:
    """What a crate's root passes on under a path."""
    own = code_type(root, steps[0]) if len(steps) == 1 else None
    if own is not None:
        return own
    for line in re.findall(r"^pub use ([^;]*);", text_of(root), re.M):
        for path, known in uses_of(line):
            if known != steps[0]:
                continue
            if path[0] in ("crate", "self"):
                path = path[1:]
            if is_crate(path[0]):
                return code_path(crate, [*path, *steps[1:]])
            return code_path(crate, [crate, *path, *steps[1:]])
    return None
