"""Booleans of any size, by tiles.

The program combines layers of at most 65,536 sides. `combined` divides the plane into squares, gives each with what touches it to a
process of its own, and cuts what comes back by the square. So the polygons of the result end at the borders of tiles.

Of right-angled data the area is exact. Of slanted data a crossing is rounded to the grid in its tile, where in the whole another edge
may be near: the result differs from that of the whole by less than a database unit along edges, and at the borders of tiles, where
slanted edges are cut.

    from masklay.tiles import combined
    polygons = combined("and", metal, poly, tile=200_000, processes=4)
"""

from __future__ import annotations

import argparse
import os
import subprocess
import sys
from concurrent.futures import Executor, ProcessPoolExecutor
from typing import Dict, Iterable, Iterator, List, NamedTuple, Optional, Sequence, Tuple

from .errors import MasklayError, ProcessError
from .flat import Point, Polygon, polygons_of
from .process import Program, words_of_program
from .replies import FAULT

#: The sides of both layers that an operation takes.
MAX_SIDES = 65_536
OPERATIONS = ("and", "or", "not", "xor")


class Tile(NamedTuple):
    """A rectangle, whose right and upper side are its neighbours': its lower left and upper right corner."""

    left: int
    low: int
    right: int
    high: int


class Work(NamedTuple):
    """What is to be done in a tile: the operation, and the polygons of both layers that touch it."""

    tile: Tile
    op: str
    a: List[Polygon]
    b: List[Polygon]
    program: Sequence[str]


def combined(
    op: str,
    a: Iterable[Polygon],
    b: Iterable[Polygon],
    *,
    tile: int,
    program: Program = "masklay",
    processes: Optional[int] = None,
    executor: Optional[Executor] = None,
    progress: Optional[bool] = None,
) -> Iterator[Polygon]:
    """Yields the polygons of an operation on two layers, tile by tile, each filled by the even-odd rule.

    `op` is `and`, `or`, `not` or `xor`; a polygon is a sequence of points in database units, and is filled by the even-odd rule
    itself; a layer is the union of its polygons. `tile` is the side of a square; a tile of too many sides is divided in four.
    `executor` runs the tiles: any of `concurrent.futures`, as one of an engine that has such; without one, `processes` on this
    machine do, by default one for each processor. With `progress` a line on standard error counts tiles; by default it does where
    that is a terminal.

    Raises `MasklayError` where the program refuses an operation for another cause than its size.
    """
    if op not in OPERATIONS:
        raise ValueError(f"an operation is and, or, not or xor, and not {op!r}")
    if tile < 2:
        raise ValueError(f"a tile has a side of at least 2, and not {tile}")
    words = words_of_program(program)
    works = [Work(at, op, left, right, words) for at, (left, right) in sorted(tiles_of(a, b, tile).items())]
    if op in ("and", "not"):
        works = [it for it in works if it.a and (it.b or op == "not")]
    show = sys.stderr.isatty() if progress is None else progress
    if executor is not None:
        yield from ran(executor, works, show)
        return
    with ProcessPoolExecutor(processes or os.cpu_count()) as own:
        yield from ran(own, works, show)


def ran(executor: Executor, works: List[Work], show: bool) -> Iterator[Polygon]:
    """Yields what the tiles give, in their order."""
    for count, polygons in enumerate(executor.map(worked, works), 1):
        if show:
            print(f"\rmasklay: {count} of {len(works)} tiles", end="\n" if count == len(works) else "", file=sys.stderr, flush=True)
        yield from polygons


def tiles_of(a: Iterable[Polygon], b: Iterable[Polygon], size: int) -> Dict[Tile, Tuple[List[Polygon], List[Polygon]]]:
    """Returns the tiles that polygons touch, with the polygons of both layers."""
    tiles: Dict[Tile, Tuple[List[Polygon], List[Polygon]]] = {}
    for index, polygons in enumerate((a, b)):
        for polygon in polygons:
            xs, ys = [x for x, _ in polygon], [y for _, y in polygon]
            for column in range(min(xs) // size, max(xs) // size + 1):
                for row in range(min(ys) // size, max(ys) // size + 1):
                    at = Tile(column * size, row * size, (column + 1) * size, (row + 1) * size)
                    tiles.setdefault(at, ([], []))[index].append(polygon)
    return tiles


def worked(work: Work) -> List[Polygon]:
    """Returns the polygons of an operation in its tile. A tile of too many sides is divided in four."""
    found: List[Polygon] = []
    left = [work]
    while left:
        it = left.pop()
        sides = sum(map(len, it.a)) + sum(map(len, it.b))
        polygons = None if sides > MAX_SIDES else in_tile(it)
        if polygons is None:
            left += quarters(it)
        else:
            found += polygons
    return found


def quarters(work: Work) -> List[Work]:
    """Returns the work of the four quarters of a tile."""
    left, low, right, high = work.tile
    if right - left < 2:
        raise MasklayError(8, "TooMany")
    x, y = (left + right) // 2, (low + high) // 2
    tiles = [Tile(*it) for it in ((left, low, x, y), (x, low, right, y), (left, y, x, high), (x, y, right, high))]
    return [work._replace(tile=tile, a=touching(work.a, tile), b=touching(work.b, tile)) for tile in tiles]


def touching(polygons: List[Polygon], tile: Tile) -> List[Polygon]:
    """Returns the polygons that touch the tile."""
    return [it for it in polygons if touches(it, tile)]


def touches(polygon: Polygon, tile: Tile) -> bool:
    """Returns whether the box of the polygon touches the tile."""
    xs, ys = [x for x, _ in polygon], [y for _, y in polygon]
    return min(xs) < tile.right and max(xs) >= tile.left and min(ys) < tile.high and max(ys) >= tile.low


def in_tile(work: Work) -> Optional[List[Polygon]]:
    """Returns the polygons of an operation in its tile, or None where the program says that it is too large."""
    left, low, right, high = work.tile
    lines = ["%cif", "DS 1 1 2;"]
    for layer, polygons in (("A", work.a), ("B", work.b)):
        lines.append(f"L {layer};")
        lines += ["P " + " ".join(f"{px} {py}" for px, py in polygon) + ";" for polygon in polygons]
    lines += ["L T;", f"P {left} {low} {right} {low} {right} {high} {left} {high};", "DF;", "C 1;", "E"]
    lines += ["%session 1", "open", f"{work.op} 1 A B R", "and 1 R T Q", "commit", ""]
    done = subprocess.run([*work.program], input="\n".join(lines).encode(), stdout=subprocess.PIPE, stderr=subprocess.PIPE)
    if done.returncode != 0:
        raise ProcessError(f"a tile ended with status {done.returncode}", done.returncode, done.stderr.decode("utf-8", "replace"))
    output = done.stdout.decode("ascii").splitlines()
    refused = FAULT.search(" ".join(output[:4]))
    if refused is not None and refused[2] == "TooMany":
        return None
    if refused is not None:
        raise MasklayError(int(refused[1]), refused[2], refused[3])
    return paths_on(output, "Q")


def paths_on(output: List[str], wanted: str) -> List[Polygon]:
    """Returns the polygons of a layer of what is written."""
    found: List[Polygon] = []
    layer = ""
    for line in output:
        if line.startswith("L "):
            layer = line[2:-1]
        elif line.startswith("P ") and layer == wanted:
            numbers = list(map(int, line[2:-1].split()))
            found.append(tuple(zip(numbers[::2], numbers[1::2])))
    return found


def main() -> None:
    """`python3 -m masklay.tiles OP FILE A B`: combines two layers of a CIF text, and writes the polygons as CIF."""
    words = argparse.ArgumentParser(prog="masklay.tiles", description=(main.__doc__ or "").split(": ")[1])
    words.add_argument("op", choices=OPERATIONS)
    words.add_argument("file")
    words.add_argument("a")
    words.add_argument("b")
    words.add_argument("--tile", type=int, default=200_000, help="the side of a tile in database units of 5 nm")
    words.add_argument("--processes", type=int)
    words.add_argument("--program", default="masklay")
    words.add_argument("--layer", default="Q", help="the layer of what is written")
    asked = words.parse_args()
    with open(asked.file, "rb") as file:
        text = file.read()
    a, b = (polygons_of(text, layer, asked.program) for layer in (asked.a, asked.b))
    print(f"DS 1 1 2;\nL {asked.layer};")
    for polygon in combined(asked.op, a, b, tile=asked.tile, program=asked.program, processes=asked.processes):
        print("P " + " ".join(f"{x} {y}" for x, y in polygon) + ";")
    print("DF;\nC 1;\nE")


if __name__ == "__main__":
    main()
