"""CIF texts as the program writes them, flattened: polygons of a layer, through all calls."""

from __future__ import annotations

import re
import subprocess
from dataclasses import dataclass, field
from typing import Dict, Iterator, List, Tuple, Union

from .errors import ProcessError
from .process import Program, text_bytes, words_of_program

Point = Tuple[int, int]
Polygon = Tuple[Point, ...]
#: A turn of points: x' = a x + b y + e, y' = c x + d y + f, as (a, b, c, d, e, f).
Turn = Tuple[int, int, int, int, int, int]

UNTURNED: Turn = (1, 0, 0, 1, 0, 0)
QUARTERS = {(0, 1): (0, -1, 1, 0), (-1, 0): (-1, 0, 0, -1), (0, -1): (0, 1, -1, 0)}
CALL = re.compile(r"C (\d+)( M X)?(?: R (-?\d) (-?\d))?(?: T (-?\d+) (-?\d+))?;")


@dataclass
class Cell:
    """A symbol: its polygons by layer, and its calls."""

    polygons: Dict[str, List[Polygon]] = field(default_factory=dict)
    calls: List[Tuple[int, Turn]] = field(default_factory=list)


def cells_of(cif: Union[bytes, str], program: Program = "masklay") -> Tuple[Dict[int, Cell], Cell]:
    """Returns the symbols of a CIF text by their numbers, and the top cell, in database units of 5 nm.

    The program reads the text first, so any text that it reads is taken. Raises `ProcessError` where it isn't read.
    """
    job = b"%cif\n" + text_bytes(cif)
    done = subprocess.run(words_of_program(program), input=job, stdout=subprocess.PIPE, stderr=subprocess.PIPE)
    if done.returncode != 0:
        raise ProcessError("the text isn't read", done.returncode, done.stderr.decode("utf-8", "replace"))
    cells: Dict[int, Cell] = {}
    top = at = Cell()
    layer = ""
    for line in done.stdout.decode("ascii").splitlines():
        if line.startswith("P"):
            numbers = list(map(int, line[1:-1].split()))
            at.polygons.setdefault(layer, []).append(tuple(zip(numbers[::2], numbers[1::2])))
        elif line.startswith("C"):
            at.calls.append(call_of(line))
        elif line.startswith("L"):
            layer = line[2:-1]
        elif line.startswith("DS"):
            at = cells[int(line.split()[1])] = Cell()
        elif line == "DF;":
            at = top
    return cells, top


def call_of(line: str) -> Tuple[int, Turn]:
    """Returns the symbol that a written call names, and its turn."""
    found = CALL.fullmatch(line)
    if found is None:
        raise ProcessError(f"no call: {line!r}")
    a, b, c, d = QUARTERS.get((int(found[3] or 1), int(found[4] or 0)), (1, 0, 0, 1))
    if found[2]:
        a, c = -a, -c
    return int(found[1]), (a, b, c, d, int(found[5] or 0), int(found[6] or 0))


def after(turn: Turn, inner: Turn) -> Turn:
    """Returns the turn that takes a point where `turn` takes what `inner` makes of it."""
    a, b, c, d, e, f = turn
    g, h, i, j, k, l = inner  # noqa: E741
    return a * g + b * i, a * h + b * j, c * g + d * i, c * h + d * j, a * k + b * l + e, c * k + d * l + f


def polygons_of(cif: Union[bytes, str], layer: str, program: Program = "masklay") -> Iterator[Polygon]:
    """Yields the polygons of a layer, through all calls from the top cell. Each is filled by the even-odd rule."""
    cells, top = cells_of(cif, program)
    left: List[Tuple[Cell, Turn]] = [(top, UNTURNED)]
    while left:
        cell, turn = left.pop()
        a, b, c, d, e, f = turn
        for polygon in cell.polygons.get(layer, ()):
            yield tuple((a * x + b * y + e, c * x + d * y + f) for x, y in polygon)
        left += [(cells[number], after(turn, inner)) for number, inner in cell.calls]
