"""What the program answers, taken apart."""

from __future__ import annotations

import re
from dataclasses import dataclass
from typing import List, Optional, Tuple, Union

from .errors import MasklayError, ProcessError, StepError

Point = Tuple[int, int]

REPLY = re.compile(rb"\((\d+) (\d+) (.*)\);\n")
ODD = re.compile(rb"\(fault line (\d+)\);\n")
FAULT = re.compile(r"fault (\d+) (\w+)(?: (\d+\.\d+))?")
MADE = re.compile(r"made (\d+\.\d+)\.(\d+)(?: to \1\.(\d+))?")


@dataclass(frozen=True)
class Shape:
    """A shape that was looked at: its cell (`top` or a symbol's number), its layer, and its rings in database units."""

    cell: Union[str, int]
    layer: str
    rings: Tuple[Tuple[Point, ...], ...]


@dataclass(frozen=True)
class Placed:
    """A call that was looked at: its cell, the symbol that is called, its turn (`r0` to `r270`, `m0` to `m270`) and its shift."""

    cell: Union[str, int]
    target: int
    turn: str
    at: Point


@dataclass(frozen=True)
class Committed:
    """A committed transaction: its name, and whether it is live or undone."""

    name: str
    live: bool


@dataclass(frozen=True)
class Change:
    """What a commit did: to the item of this id, or to the symbol of this number, which was `made`, `changed` or `gone` by it."""

    what: str
    item: Optional[str] = None
    symbol: Optional[int] = None


def words_of(line: bytes, session: int, number: int) -> str:
    """Returns the words of a reply, which has to be to the session's step of this number."""
    if ODD.fullmatch(line):
        raise StepError("the program takes this for no step")
    found = REPLY.fullmatch(line)
    if found is None or (int(found[1]), int(found[2])) != (session, number):
        raise ProcessError(f"no reply to step {number} of session {session}: {line!r}")
    return found[3].decode("ascii", "replace")


def accepted(words: str) -> str:
    """Returns the words of a reply. Raises `MasklayError` where they are a refusal."""
    refused = FAULT.fullmatch(words)
    if refused is not None:
        raise MasklayError(int(refused[1]), refused[2], refused[3])
    return words


def ids_of(words: str) -> List[str]:
    """Returns the ids that `made s.t.q`, `made s.t.q to s.t.r` or `empty` tells."""
    found = MADE.fullmatch(words)
    if found is None:
        return []
    first = int(found[2])
    return [f"{found[1]}.{number}" for number in range(first, int(found[3] or first) + 1)]


def change_of(words: str) -> Change:
    """Returns the change that a line tells."""
    first, second, *rest = words.split(" ")
    return Change(rest[0], symbol=int(second)) if first == "symbol" else Change(second, item=first)


def cell_of(word: str) -> Union[str, int]:
    """Returns the cell of a word."""
    return word if word == "top" else int(word)


def item_of(words: str) -> Union[Shape, Placed]:
    """Returns the item that a look tells."""
    kind, cell, *rest = words.split(" ")
    if kind == "placed":
        target, turn, x, y = rest
        return Placed(cell_of(cell), int(target), turn, (int(x), int(y)))
    rings = []
    for ring in " ".join(rest[1:]).split(" / "):
        numbers = [int(word) for word in ring.split()]
        rings.append(tuple(zip(numbers[::2], numbers[1::2])))
    return Shape(cell_of(cell), rest[0], tuple(rings))
