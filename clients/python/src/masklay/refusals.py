"""What each refusal of a step means, and what to do, by its number. `docs/FORMAT.md` of masklay has the same table."""

from __future__ import annotations

SENTENCES = {
    1: "The cell or the symbol isn't there: check its number, or make it with `mkcell`.",
    2: "No item has this id: check it.",
    3: "The item is a call, which has no layer: name a shape.",
    4: "A side is 0, or fewer than three points are left without repeats: draw an area.",
    5: "A coordinate or a shift, perhaps moved or turned, is beyond 1,073,741,824: stay within.",
    6: "A symbol would contain itself: place another one.",
    7: "More than 64 calls are nested below the cell: combine in a lower cell.",
    8: "The layers have more than 65,536 sides, or a path more than 65,536 points: divide the layers among cells.",
    10: "The transaction has 65,535 commands or new items: commit it, and open another.",
    11: "An allocation failed: divide the job.",
    12: "The symbol is there already: use it, or another number.",
    13: "The symbol has items, or a call of it is left: delete these first.",
    20: "No such transaction was committed: name one that was.",
    21: "The transaction is undone already.",
    22: "The transaction isn't undone.",
    23: "The named later transaction read or wrote what this one wrote: undo that one first.",
    24: "The named earlier transaction wrote what this one read or wrote, and was undone or redone since: redo or undo it first.",
    25: "The named transaction wrote what this one read or wrote, and was committed, undone or redone meanwhile: open again.",
    26: "The log has 1,048,576 calls: begin a new job with the text that is written.",
    27: "An allocation failed: divide the job.",
    28: "The work isn't the one that the session opened last.",
    30: "There is no such session: a run has those of its sections, a live run 1 to 64.",
    31: "The session has a transaction open: commit or cancel it first.",
    32: "The session has no transaction open: `open` one first.",
    33: "The session has had 65,535 transactions: use another session.",
}
