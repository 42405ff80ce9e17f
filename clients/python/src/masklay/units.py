"""Database units of 5 nanometres."""

from __future__ import annotations

from fractions import Fraction
from typing import Union

Number = Union[int, float, str, Fraction]

#: How many database units a micrometre has.
PER_UM = 200


def um(x: Number) -> int:
    """Returns the database units of `x` micrometres: `um(0.005)` is 1, `um("1/8")` is 25.

    What a float misses by its own rounding, up to a millionth of a unit, is forgiven. `ValueError` where `x` is no whole number of
    units.
    """
    exact = Fraction(x) * PER_UM
    units = round(exact)
    if abs(exact - units) > Fraction(1, 1_000_000):
        raise ValueError(f"{x} micrometres are no whole number of database units, of 0.005 micrometres")
    return units
