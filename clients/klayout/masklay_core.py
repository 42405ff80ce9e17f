"""What the macro does: operations on layers of a shown cell by masklay, and their undo by name.

It needs KLayout's `pya`, the Python client of masklay (`clients/python`) and the program. Without a window it is used as here:

    session = LayerSession(cell, "masklay")
    name = session.run("and", (1, 0), (2, 0), (10, 0))     # "1.1"
    session.undo(name)                                      # or MasklayError, as Depends
"""

from __future__ import annotations

from typing import Dict, List, Set, Tuple

import pya

from masklay import Layout, rewritten
from masklay.tiles import paths_on

#: A layer and its datatype.
Layer = Tuple[int, int]
#: masklay's database unit in micrometres.
UNIT = 0.005


def name_of(layer: Layer) -> str:
    """Returns masklay's name of a layer."""
    return f"L{layer[0]}D{layer[1]}"


class LayerSession:
    """The layers of a cell, flattened, in a run of masklay. Each operation is a transaction with a name."""

    def __init__(self, cell: "pya.Cell", program: str = "masklay") -> None:
        """Gives the cell's layers to masklay. `ValueError` where a coordinate isn't on its grid of 5 nm."""
        self.cell, self.program = cell, program
        self.scale = cell.layout().dbu / UNIT
        #: The names of the operations so far, in order, and what each drew on.
        self.drawn: Dict[str, Layer] = {}
        self._layout = Layout.read("\n".join(self._text()), program)
        self._session = self._layout.session()

    def run(self, op: str, a: Layer, b: Layer, result: Layer) -> str:
        """Draws the operation (`and`, `or`, `not`, `xor`) of two layers on a third, and returns its name, as `1.1`."""
        with self._session.transaction() as transaction:
            transaction.boolean(op, name_of(a), name_of(b), name_of(result), cell=1)
        assert transaction.name is not None
        self.drawn[transaction.name] = result
        self._show([result])
        return transaction.name

    def undo(self, name: str) -> None:
        """Takes an operation back, not only the newest. `MasklayError` (`Depends`) where a later one read what it drew."""
        self._session.undo(name)
        self._show([self.drawn[name]])

    def redo(self, name: str) -> None:
        """Brings an operation back that was undone."""
        self._session.redo(name)
        self._show([self.drawn[name]])

    def close(self) -> None:
        """Ends the run. What it drew stays."""
        self._layout.close()

    def _text(self) -> List[str]:
        """Returns the lines of the cell's layers as a CIF text of one symbol."""
        layout = self.cell.layout()
        lines = ["DS 1 1 2;"]
        for index in layout.layer_indexes():
            info = layout.get_info(index)
            region = pya.Region(self.cell.begin_shapes_rec(index))
            region.merged_semantics = False
            lines.append(f"L {name_of((info.layer, info.datatype))};")
            for polygon in region.each():
                points = [(self._units(at.x), self._units(at.y)) for at in polygon.resolved_holes().each_point_hull()]
                lines.append("P " + " ".join(f"{x} {y}" for x, y in points) + ";")
        return [*lines, "DF;", "C 1;", "E"]

    def _units(self, coordinate: int) -> int:
        """Returns a coordinate of KLayout in masklay's units."""
        units = round(coordinate * self.scale)
        if abs(coordinate * self.scale - units) > 1e-6:
            raise ValueError(f"{coordinate * self.scale * UNIT} micrometres aren't on the grid of 5 nm")
        return units

    def _show(self, layers: List[Layer]) -> None:
        """Draws these layers anew in the cell, as they are in masklay."""
        layout = self.cell.layout()
        output = rewritten(self._layout.write(), self.program, names=False).splitlines()
        for layer in layers:
            shapes = self.cell.shapes(layout.layer(*layer))
            shapes.clear()
            for path in paths_on(output, name_of(layer)):
                points = [pya.Point(round(x / self.scale), round(y / self.scale)) for x, y in path]
                shapes.insert(pya.Polygon(points))


def layers_of(cell: "pya.Cell") -> List[Layer]:
    """Returns the layers of the cell's layout, in order."""
    found: Set[Layer] = set()
    layout = cell.layout()
    for index in layout.layer_indexes():
        info = layout.get_info(index)
        found.add((info.layer, info.datatype))
    return sorted(found)
