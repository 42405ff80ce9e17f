"""Transactions: commands that are committed together."""

from __future__ import annotations

import operator
import re
from types import TracebackType
from typing import TYPE_CHECKING, Iterable, List, Optional, Tuple, Type, Union

from .errors import MasklayError, ProcessError
from .replies import Placed, Shape, ids_of, item_of

if TYPE_CHECKING:
    from .layout import Session

Cell = Union[str, int]
Point = Tuple[int, int]

LAYER = re.compile(r"[0-9A-Z]{1,16}")
ID = re.compile(r"\d+\.\d+\.\d+")
TURNS = {f"{kind}{degrees}" for kind in "rm" for degrees in (0, 90, 180, 270)}
OPERATIONS = ("and", "or", "not", "xor")


class Transaction:
    """Commands of a session that are committed together; `Session.transaction` gives it.

        with session.transaction() as t:
            pad = t.box("CM1", (0, 0), (200, 200))
            t.move(pad, 100, 0)
        layout.undo(t.name)

    The methods are the commands of a job's script. Each raises `MasklayError` where it is refused; then nothing has changed, and a
    transaction in which the error is caught goes on. Cells are `top`, what is outside all symbols, or a symbol's number, or
    the name that it has in the text from which the layout begins.
    """

    #: The transaction's name, as `1.1`, once it is committed, and None before.
    name: Optional[str]

    def __init__(self, session: "Session") -> None:
        self.name = None
        self._session = session
        self._number = 0

    def open(self) -> None:
        """Opens the transaction on the layout as it is now. A `with` does it."""
        self._number = int(self._session.step("open").split()[1])

    def commit(self) -> None:
        """Commits it. Refused as `Stale` where a later commit, undo or redo has changed what it read or wrote; then it has ended."""
        self._session.step("commit")
        self.name = f"{self._session.number}.{self._number}"

    def cancel(self) -> None:
        """Gives it up."""
        self._session.step("cancel")

    def box(self, layer: str, a: Point, b: Point, cell: Cell = "top") -> str:
        """Draws a box of two opposite corners, in any order, and returns its id."""
        return self._made(f"box {self._cell(cell)} {layer_word(layer)} {numbers([a, b])}")

    def polygon(self, layer: str, points: Iterable[Point], cell: Cell = "top") -> str:
        """Draws a closed path, inside by parity, and returns its id."""
        return self._made(f"poly {self._cell(cell)} {layer_word(layer)} {numbers(points)}")

    def place(self, target: int, at: Point = (0, 0), turn: str = "r0", cell: Cell = "top") -> str:
        """Calls the symbol `target`, turned and then shifted to `at`, and returns the call's id.

        `turn` is `r` or `m` and 0, 90, 180 or 270: with `m` x is multiplied by -1 first, then the degrees are turned anticlockwise.
        """
        if turn not in TURNS:
            raise ValueError(f"a turn is one of {', '.join(sorted(TURNS))}, and not {turn!r}")
        return self._made(f"place {self._cell(cell)} {self._cell(target)} {turn} {numbers([at])}")

    def boolean(self, operation: str, a: str, b: str, result: str, cell: Cell = "top") -> List[str]:
        """Combines the layers `a` and `b` of the cell and of what is below it, and returns the ids of the new shapes, which replace
        those that the cell has on the layer `result`. `operation` is `and`, `or`, `not` (a without b) or `xor`."""
        if operation not in OPERATIONS:
            raise ValueError(f"an operation is one of {', '.join(OPERATIONS)}, and not {operation!r}")
        layers = " ".join(layer_word(layer) for layer in (a, b, result))
        return ids_of(self._session.step(f"{operation} {self._cell(cell)} {layers}"))

    def delete(self, item: str) -> None:
        """Removes an item."""
        self._session.step(f"delete {id_word(item)}")

    def move(self, item: str, dx: int, dy: int) -> None:
        """Moves an item."""
        self._session.step(f"move {id_word(item)} {numbers([(dx, dy)])}")

    def set_layer(self, item: str, layer: str) -> None:
        """Moves a shape to another layer."""
        self._session.step(f"layer {id_word(item)} {layer_word(layer)}")

    def look(self, item: str) -> Union[Shape, Placed]:
        """Returns an item. The transaction has then read it: it is `Stale` where another changes it before the commit."""
        return item_of(self._session.step(f"look {id_word(item)}"))

    def make_cell(self, number: int) -> int:
        """Makes an empty symbol of this number, and returns it."""
        self._session.step(f"mkcell {operator.index(number)}")
        return number

    def remove_cell(self, number: int) -> None:
        """Removes a symbol that is empty and that nothing calls."""
        self._session.step(f"rmcell {operator.index(number)}")

    def _cell(self, cell: Cell) -> str:
        """Returns the word for a cell, which may be named as in the text from which the layout begins."""
        return cell_word(self._session.layout.cell(cell))

    def _made(self, step: str) -> str:
        """Returns the id of the item that a step makes."""
        ids = ids_of(self._session.step(step))
        if len(ids) != 1:
            raise ProcessError(f"no id in the reply to {step!r}")
        return ids[0]

    def __enter__(self) -> "Transaction":
        self.open()
        return self

    def __exit__(
        self, kind: Optional[Type[BaseException]], error: Optional[BaseException], trace: Optional[TracebackType]
    ) -> None:
        if error is not None:
            self._give_up()
            return
        try:
            self.commit()
        except MasklayError as refused:
            if refused.name != "Stale":
                self._give_up()
            raise

    def _give_up(self) -> None:
        """Cancels where that can be done, on the way out with another error."""
        try:
            self.cancel()
        except (MasklayError, ProcessError):
            pass


def cell_word(cell: Cell) -> str:
    """Returns the word for a cell."""
    return "top" if cell == "top" else str(operator.index(cell))  # type: ignore[arg-type]


def layer_word(layer: str) -> str:
    """Returns a layer's name, if it is one."""
    if not LAYER.fullmatch(layer):
        raise ValueError(f"a layer is 1 to 16 digits or upper-case letters, and not {layer!r}")
    return layer


def id_word(item: str) -> str:
    """Returns an item's id, if it is one."""
    if not ID.fullmatch(item):
        raise ValueError(f"an item's id is like 1.1.1, and not {item!r}")
    return item


def numbers(points: Iterable[Point]) -> str:
    """Returns the coordinates of points, in database units, as words. `TypeError` where one is no whole number."""
    return " ".join(str(operator.index(c)) for x, y in points for c in (x, y))
