"""The colours of kinds and ends, for page and picture.

Commit and rollback differ in lightness, and a rollback has a hatch, so that they are told apart
without their hues.
"""
from gibolufi import order

KINDS = ("#4a7fb5", "#b9cbe0", "#dededb", "#a05195", "#5f6b78", "#5b3f8c", "#5f6b78", "#7fcfa8",
         "#a8332b", "#e8a02c", "#2f8f9d")
COMMIT, BACK, LOCK = KINDS[order.COMMIT], KINDS[order.BACK], KINDS[order.LOCK]
# A portion that had no end in the order.
UNENDED = "#c3c8ce"
# What is written on a portion's bar.
DARK, LIGHT = "#16202b", "#ffffff"
ON = {order.COMMIT: DARK, order.BACK: LIGHT, None: DARK}
# The lines of a rollback's hatch.
HATCH = "#e39a94"
# The strip at the foot of a portion, where its core had events.
ACTS = "#3d4751"
GROUND, PAPER, INK, SOFT = "#f4f4f1", "#ffffff", "#26303a", "#5a646e"


def legend(run):
    """Names, colours and whether they have a hatch, of what is drawn of a run."""
    kinds, ends = run.kinds(), {it.end for it in run.portions()}
    names = [("step", KINDS[order.STEP], order.STEP in kinds),
             ("wait", KINDS[order.WAITS], order.WAITS in kinds),
             ("held by a lock", KINDS[order.HELD], order.HELD in kinds),
             ("portion that commits", COMMIT, order.COMMIT in ends),
             ("portion that is rolled back", BACK, order.BACK in ends),
             ("portion still open", UNENDED, None in ends),
             ("lock", LOCK, order.LOCK in kinds),
             ("flush", KINDS[order.FLUSH], order.FLUSH in kinds),
             ("instruction of a kernel", KINDS[order.KERN], order.KERN in kinds),
             ("idle", KINDS[order.IDLE], order.IDLE in kinds),
             ("instructions of a try", ACTS, not kinds.isdisjoint((order.OPEN, order.LOCK, order.TRY)))]
    return [(name, colour, colour == BACK) for name, colour, is_drawn in names if is_drawn]
