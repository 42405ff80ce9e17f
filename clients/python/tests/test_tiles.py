"""Tests of Booleans by tiles against an independent sweep: env MASKLAY, else crates/masklay/out/masklay of this repository."""

import os
import random
import subprocess
import sys
import tempfile
import unittest
from concurrent.futures import ThreadPoolExecutor
from pathlib import Path

from masklay import ProcessError
from masklay.flat import polygons_of
from masklay.tiles import combined

HERE = Path(__file__).resolve().parent
PROGRAM = os.environ.get("MASKLAY", str(HERE.parents[2] / "crates/masklay/out/masklay"))
HOLDS = {
    "and": lambda a, b: a and b, "or": lambda a, b: a or b, "not": lambda a, b: a and not b, "xor": lambda a, b: a != b,
}  # fmt: skip


def box(x, y, width, height):
    return ((x, y), (x + width, y), (x + width, y + height), (x, y + height))


def boxes(seed, count, side, size):
    """Returns boxes by chance."""
    given = random.Random(seed)
    at = lambda: given.randrange(-side, side)  # noqa: E731
    return [box(at(), at(), given.randrange(1, size), given.randrange(1, size)) for _ in range(count)]


def covered(polygons):
    """Returns for each strip of heights the intervals in which upright polygons are, each by the even-odd rule, united."""
    ys = sorted({y for it in polygons for _, y in it})
    edges = [(x, min(y, y2), max(y, y2), k) for k, it in enumerate(polygons) for (x, y), (x2, y2) in zip(it, it[1:] + it[:1]) if x == x2]
    strips = {}
    for low, high in zip(ys, ys[1:]):
        inside, last, spans = set(), None, []
        for x, _, _, k in sorted(it for it in edges if it[1] <= low and high <= it[2]):
            if inside and x > last:
                spans.append((last, x))
            inside ^= {k}
            last = x
        strips[low, high] = spans
    return strips


def area_of(polygons):
    """Returns the area of the union of upright polygons."""
    return sum((high - low) * (b - a) for (low, high), spans in covered(polygons).items() for a, b in spans)


def area_of_operation(op, a, b):
    """Returns the area where the operation holds of two unions of upright polygons, on the grid of all their coordinates."""
    xs = sorted({x for it in a + b for x, _ in it})
    ys = sorted({y for it in a + b for _, y in it})
    column, row = ({x: i for i, x in enumerate(it)} for it in (xs, ys))
    grids = []
    for polygons in (a, b):
        grid = [bytearray(len(xs)) for _ in ys]
        for it in polygons:
            for y in range(row[min(y for _, y in it)], row[max(y for _, y in it)]):
                first, last = column[min(x for x, _ in it)], column[max(x for x, _ in it)]
                grid[y][first:last] = b"\1" * (last - first)
        grids.append(grid)
    area = 0
    for j in range(len(ys) - 1):
        for i in range(len(xs) - 1):
            if HOLDS[op](grids[0][j][i], grids[1][j][i]):
                area += (xs[i + 1] - xs[i]) * (ys[j + 1] - ys[j])
    return area


class Tiles(unittest.TestCase):
    """What is combined by tiles."""

    def test_areas_are_exact(self):
        """Could catch a tile that is left out or taken twice, a polygon that a tile misses, and a border that is cut wrongly."""
        a, b = boxes(1, 150, 500, 90), boxes(2, 150, 500, 90)
        for op in HOLDS:
            wanted = area_of_operation(op, a, b)
            for tile in (64, 333, 5_000):
                with ThreadPoolExecutor(4) as executor:
                    found = list(combined(op, a, b, tile=tile, program=PROGRAM, executor=executor))
                self.assertEqual(area_of(found), wanted, f"{op}, tiles of {tile}")
                for it in found:
                    for low, high in ((min(c), max(c)) for c in zip(*it)):
                        self.assertEqual(low // tile, (high - 1) // tile, "a polygon of two tiles")

    def test_a_tile_of_too_many_sides(self):
        """Could catch a tile that isn't divided, and quarters that overlap."""
        a = [box(10 * x, 10 * y, 4, 4) for x in range(130) for y in range(130)]
        found = list(combined("or", a, [], tile=10_000, program=PROGRAM, processes=2))
        self.assertEqual((area_of(found), sum(map(len, found)) >= 4 * len(a)), (16 * len(a), True))

    def test_a_text_is_flattened(self):
        """Could catch a call that is turned, mirrored or shifted otherwise than the program does."""
        text = "DS 1; L A; P 0 0 3 0 3 1 1 1 1 2 0 2; DF; DS 2; C 1 M X R 0 1 T 7 3; C 1 R -1 0; DF; C 2 T 5 5; C 2 M X R 0 -1; C 1; E"
        job = f"%cif\n{text}\n%session 1\nopen\nor top A Z Q\ncommit\n"
        done = subprocess.run([PROGRAM], input=job.encode(), capture_output=True).stdout.decode().splitlines()
        at = next(n for n, line in enumerate(done) if line == "L Q;")
        wanted = [line for line in done[at + 1 :] if line.startswith("P ")]
        shapes = [tuple(zip(*[iter(map(int, line[2:-1].split()))] * 2)) for line in wanted]
        self.assertEqual(area_of(list(polygons_of(text, "A", PROGRAM))), area_of(shapes))

    def test_refusals_and_arguments(self):
        """Could catch a refusal that is taken for an empty result."""
        with self.assertRaises(ProcessError):
            list(combined("or", [box(0, 0, 1 << 30, 1), box(0, 0, 1 << 31, 2)], [], tile=1 << 31, program=PROGRAM, processes=1))
        for op, tile in (("nor", 10), ("or", 1)):
            with self.assertRaises(ValueError):
                list(combined(op, [], [], tile=tile, program=PROGRAM))

    def test_the_command(self):
        """Could catch a command that writes another layer, or no text."""
        with tempfile.TemporaryDirectory() as folder:
            path = Path(folder) / "two.cif"
            path.write_text("L A; B 4 4 0 0; L B; B 4 4 2 2; E")
            words = ["-m", "masklay.tiles", "and", str(path), "A", "B", "--tile", "3", "--processes", "2", "--program", PROGRAM]
            env = {**os.environ, "PYTHONPATH": str(HERE.parent / "src"), "PYTHONDONTWRITEBYTECODE": "1"}
            done = subprocess.run([sys.executable, *words], env=env, capture_output=True, timeout=60)
            self.assertEqual((done.returncode, done.stderr), (0, b""))
            self.assertEqual(area_of(list(polygons_of(done.stdout, "Q", PROGRAM))), 16)


if __name__ == "__main__":
    unittest.main()
