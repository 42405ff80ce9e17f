#!/usr/bin/env python3
"""Draws a mask: a frame, a plate with cut-outs within it, and vias where the plate is. Writes CIF.

usage: mask.py [PROGRAM] > mask.cif
"""

import sys

from masklay import Layout, rewritten, um

#: The mask's sides, the width of its frame, and the side of a via and the distance of their centres.
WIDTH, HEIGHT, FRAME, VIA, PITCH = um(400), um(280), um(20), um(10), um(40)
#: Two corners of each cut-out. They overlap.
CUTS = [((um(60), um(60)), (um(180), um(140))), ((um(150), um(130)), (um(290), um(220)))]


def main():
    with Layout.read("E", *sys.argv[1:2]) as layout:
        session = layout.session()
        with session.transaction() as frame:
            frame.box("MASK", (0, 0), (WIDTH, HEIGHT))
            frame.box("WINDOW", (FRAME, FRAME), (WIDTH - FRAME, HEIGHT - FRAME))
            frame.boolean("not", "MASK", "WINDOW", "FRAME")
        with session.transaction() as plate:
            for a, b in CUTS:
                plate.box("CUT", a, b)
            plate.boolean("not", "WINDOW", "CUT", "PLATE")
        with session.transaction() as vias:
            for x in range(PITCH, WIDTH, PITCH):
                for y in range(PITCH, HEIGHT, PITCH):
                    vias.box("VIA", (x - VIA // 2, y - VIA // 2), (x + VIA // 2, y + VIA // 2))
            # What the plate hasn't got is cut off them.
            kept = vias.boolean("and", "VIA", "PLATE", "VIA")
        print(f"{len(kept)} vias", file=sys.stderr)
        text = layout.write()
    # The frame and the plate have holes, which an editor sees where their paths are directed.
    sys.stdout.write(rewritten(text, *sys.argv[1:2]))


if __name__ == "__main__":
    main()
