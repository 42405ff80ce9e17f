"""A client of masklay, a mask layout database.

It starts `masklay --live` and speaks with it over pipes: a line a step, each answered before the next is sent.

    from masklay import Layout, um

    with Layout.read("L M; B 40 20 0 0; E") as layout:
        session = layout.session()
        with session.transaction() as t:
            t.box("M", (0, 0), (um(1), um(2)))
        layout.undo(t.name)
        text = layout.write()

Coordinates are whole numbers of database units, 5 nanometres each; `um` makes them of micrometres. A number of a CIF text that is
read is two of them, times the scale of its definition. Ids (`1.1.2`: session, transaction, item) and names of transactions
(`1.1`) are strings, as the program says them.
"""

from .errors import Error, Late, MasklayError, OutOfMemory, ProcessError, StepError, TextFault
from .layout import Layout, Session
from .replies import Change, Committed, Placed, Shape
from .rewriting import rewritten
from .transaction import Transaction
from .units import um

__all__ = [
    "Change",
    "Committed",
    "Error",
    "Late",
    "Layout",
    "MasklayError",
    "OutOfMemory",
    "Placed",
    "ProcessError",
    "Session",
    "Shape",
    "StepError",
    "TextFault",
    "Transaction",
    "rewritten",
    "um",
]
