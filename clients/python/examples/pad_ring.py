#!/usr/bin/env python3
"""Generates a ring of pads round a core: one symbol for a pad, placed with turns on four sides. Writes CIF.

usage: pad_ring.py [--pads N] [--pitch UM] [--pad UM] [--opening UM] [--program PROGRAM] > ring.cif

Distances are micrometres, as 62.5.
"""

import argparse
import sys

from masklay import Layout, um

#: The symbol of a pad.
PAD = 1


def draw_pad(t, side, opening):
    """Draws a pad, and the opening over it, about the origin of its symbol."""
    t.make_cell(PAD)
    for layer, size in (("CM", side), ("CG", opening)):
        t.box(layer, (-(size // 2), -(size // 2)), (size - size // 2, size - size // 2), cell=PAD)


def place_ring(t, pads, pitch):
    """Places so many pads on each side. One more would stand at each corner of the ring."""
    reach = pitch * (pads + 1) // 2
    for i in range(1, pads + 1):
        at = pitch * i - reach
        for turn, place in (("r0", (at, -reach)), ("r90", (reach, at)), ("r180", (-at, reach)), ("r270", (-reach, -at))):
            t.place(PAD, place, turn)


def main():
    parse = argparse.ArgumentParser(description=__doc__.split("\n")[0])
    parse.add_argument("--pads", type=int, default=8)
    for name, default in (("pitch", "100"), ("pad", "70"), ("opening", "60")):
        parse.add_argument(f"--{name}", type=um, default=default)
    parse.add_argument("--program", default="masklay")
    words = parse.parse_args()
    if words.pads < 1 or not 0 < words.opening <= words.pad <= words.pitch:
        parse.error("at least one pad, and 0 < opening <= pad <= pitch")
    with Layout.read("E", words.program) as layout:
        with layout.session().transaction() as t:
            draw_pad(t, words.pad, words.opening)
            place_ring(t, words.pads, words.pitch)
        sys.stdout.write(layout.write())


if __name__ == "__main__":
    main()
