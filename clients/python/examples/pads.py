#!/usr/bin/env python3
"""Draws a grid of pads, each with a frame by Booleans, takes an earlier step back by its name, and writes CIF.

usage: pads.py [PROGRAM] > pads.cif
"""

import sys

from masklay import Layout, MasklayError, rewritten, um

#: Pads a side, the distance of their centres, their side, and that of the opening within the frame.
COUNT, PITCH, SIDE, OPENING = 3, um(100), um(60), um(40)


def square(side, x, y):
    """Returns two corners of a square about a point."""
    return (x - side // 2, y - side // 2), (x + side // 2, y + side // 2)


def main():
    with Layout.read("E", *sys.argv[1:2]) as layout:
        session = layout.session()
        grid = [(PITCH * i, PITCH * j) for i in range(COUNT) for j in range(COUNT)]
        with session.transaction() as pads:
            for x, y in grid:
                pads.box("PAD", *square(SIDE, x, y))
        with session.transaction() as marks:
            marks.polygon("MARK", [(0, um(-60)), (um(20), um(-80)), (um(-20), um(-80))])
        with session.transaction() as openings:
            for x, y in grid:
                openings.box("OPEN", *square(OPENING, x, y))
        with session.transaction() as frames:
            made = frames.boolean("not", "PAD", "OPEN", "FRAME")
        print(f"{len(made)} frames, {made[0]} to {made[-1]}, by transaction {frames.name}", file=sys.stderr)

        # The mark was drawn before the frames; nothing later touched it, so it goes by its name.
        layout.undo(marks.name)
        # The openings can't go: the frames were made of them.
        try:
            layout.undo(openings.name)
        except MasklayError as refused:
            print(f"undo {openings.name}: {refused.name} {refused.transaction}", file=sys.stderr)
        text = layout.write()
    # The frames have holes, which an editor sees where their paths are directed.
    sys.stdout.write(rewritten(text, *sys.argv[1:2]))


if __name__ == "__main__":
    main()
