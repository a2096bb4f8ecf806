"""How a run ended, in about ten lines, from its order and report."""
from gibolufi import faults, order
from gibolufi.report import KINDS, status_words
from gibolufi.words import counted


# The kinds that the line of events tells, in its order.
SHOWN = (order.STEP, order.WAITS, order.HELD, order.TRY, order.KERN, order.FLUSH, order.IDLE)


class Counts:
    """What an order has: entries by kind, and ends, acts and locks by cause."""

    def __init__(self, codes, acts, ends):
        self.kinds = [0] * len(order.NAMES)
        for code in set(codes):
            self.kinds[code >> 4] += codes.count(code)
        kinds = (codes[match.start()] >> 4 for match in order.END_CODES.finditer(codes))
        self.by_end = {order.COMMIT: {}, order.BACK: {}}
        self.undone = {}
        for kind, n, end in zip(kinds, acts, ends):
            self.by_end[kind][end] = self.by_end[kind].get(end, 0) + 1
            if kind == order.BACK:
                self.undone[end] = self.undone.get(end, 0) + n

    def ends(self, kind):
        """The commits or rollbacks by the cause of the end, in words."""
        return by_cause(self.by_end[kind]) or "none"


def by_cause(counts):
    """Numbers by the cause of a portion's end: `3 by the kernel's end, 1 by ..`."""
    return ", ".join(f"{count:,} by {order.SHORT_ENDS[end]}" for end, count in sorted(counts.items()))


def actor_words(actor, place):
    """A status in words; `place` tells where an address lies in the source."""
    if not actor.is_trap:
        return status_words(actor)
    cause, value = actor.trap
    row = faults.find(faults.TRAPS, cause)
    where = place(actor.pc)
    means = row.means if row else "an unknown cause"
    return f"TRAP {cause}, {means} (0x{value:08x}), pc 0x{actor.pc:08x}{' ' + where if where else ''}"


def lines(counts, report, place):
    """Name and words of each line."""
    for name, actor in zip(report.lanes, report.actors):
        if actor.status == "idle" and len(report.cores) > 1:
            continue
        yield name, actor_words(actor, place)
        row = faults.find(faults.TRAPS, actor.trap[0]) if actor.is_trap else None
        if row and row.remedy:
            yield "", f"what to do: {row.remedy}"
    kinds = counts.kinds
    told = [f"{kinds[kind]:,} {order.PLURALS[kind] if kinds[kind] != 1 else order.NAMES[kind]}"
            for kind in SHOWN if kinds[kind]]
    yield "events", f"{report.events:,}: {', '.join(told)}"
    yield from kernel_lines(counts) if kinds[order.KERN] else portion_lines(counts)
    if report.traffic:
        yield "traffic", ", ".join(f"{kind} {report.traffic.get(kind, 0):,}" for kind in KINDS)


def kernel_lines(counts):
    """Where kernels run with no portion: how much of them."""
    kinds = counts.kinds
    yield "kernels", (f"{counted(kinds[order.KERN], 'instruction')} with no portion, "
                      f"{kinds[order.LOCK]:,} begun under the lock")


def portion_lines(counts):
    """What became of the portions."""
    kinds = counts.kinds
    opened = kinds[order.OPEN] + kinds[order.LOCK]
    yield "portions", (f"{opened:,} opened: {kinds[order.COMMIT]:,} committed, {kinds[order.BACK]:,} rolled back, "
                       f"{kinds[order.LOCK]:,} under the lock")
    yield "commits", counts.ends(order.COMMIT)
    yield "rollbacks", counts.ends(order.BACK)
    yield "undone", (f"{counted(sum(counts.undone.values()), 'instruction')} of {kinds[order.TRY]:,} tried"
                     + (f": {by_cause(counts.undone)}" if counts.undone else ""))


def as_text(named):
    """Lines of names and words."""
    named = list(named)
    wide = max(len(name) for name, _ in named)
    return "".join(f"{name:{wide}}  {words}\n" for name, words in named)
