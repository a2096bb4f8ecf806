"""What is drawn of a run: its events, the runs of equal ones, and its portions."""
import re

from gibolufi import order, summary
from gibolufi.report import KINDS, Report
from gibolufi.words import BadWord, Refused, counted

SAME = re.compile(rb"(.)\1*", re.S)
PORTION_CODES = re.compile(b"[" + b"".join(
    re.escape(bytes([kind << 4 | lane])) for kind in (order.OPEN, order.LOCK, order.COMMIT, order.BACK)
    for lane in range(16)) + b"]")


class Portion:
    """A portion of a core: its first and last event, and how it ended, where it did."""

    def __init__(self, lane, first, is_locked):
        self.lane, self.first, self.last = lane, first, first
        self.is_locked, self.end, self.acts, self.cause = is_locked, None, 0, 0

    def words(self, core):
        """The portion in words."""
        where = f"{core}'s portion, {events_words(self.first, self.last)}"
        how = " under the lock" if self.is_locked else ""
        return f"{where}{how}: {self.ending()}"

    def ending(self):
        """How it ended, in words."""
        if self.end is None:
            return "still open when the order ends"
        acts = counted(self.acts, "instruction")
        if self.end == order.BACK:
            return f"rolled back: {acts} undone, {order.ENDS[self.cause]}"
        return f"committed: {acts}, {order.ENDS[self.cause]}"

    def label(self):
        """What it came to."""
        return ("under the lock, " if self.is_locked else "") + self.ending()

    def labels(self):
        """What may stand in its bar: the first that has room."""
        ended = {order.BACK: "rolled back: {:,} undone", order.COMMIT: "committed: {:,}"}.get(self.end, "open")
        return self.label(), ended.format(self.acts)


class Run:
    """A range of an order's events, with its report."""

    def __init__(self, path, report, first=1, last=None):
        self.report = report if isinstance(report, Report) else Report(report)
        self.path, self.first = path, first
        harts = len(self.report.harts)
        held = order.Order(path, harts, len(self.report.cores))
        if len(held) != self.report.events:
            raise Refused(f"the report tells of {counted(self.report.events, 'event')}, and {path} has "
                          f"{counted(len(held), 'line')}: they aren't of one run")
        if len(held) and first > len(held):
            raise BadWord(f"--from {first}: the order has {counted(len(held), 'event')}")
        self.last = len(held) if last is None else min(last, len(held))
        self.order = held
        self.codes, self.acts, self.ends = held.cut(first, self.last)
        self.counts = summary.Counts(self.codes, self.acts, self.ends)
        self.title, self.head = "A run", f"{path}, {self.report.path}"
        self._portions = None

    def named(self, title, head):
        """Names the run, for title and head."""
        self.title, self.head = title, head

    @property
    def is_whole(self):
        """Whether all events are shown."""
        return self.first == 1 and self.last == self.report.events

    @property
    def has_kernels(self):
        """Whether kernels run with no portion."""
        return any(order.code_of(order.KERN, lane) in self.order.codes for lane in range(16))

    def kinds(self):
        """The kinds of entries that are there."""
        return {code >> 4 for code in set(self.codes)}

    def runs(self):
        """Each run of equal entries: its first event, its length, its code, and an end's numbers."""
        at = 0
        for match in SAME.finditer(self.codes):
            code = match[0][0]
            if code >> 4 in (order.COMMIT, order.BACK):
                for start in range(match.start(), match.end()):
                    yield self.first + start, 1, code, self.acts[at], self.ends[at]
                    at += 1
            else:
                yield self.first + match.start(), match.end() - match.start(), code, 0, 0

    def portions(self):
        """The portions that have an event among those that are shown, by their first event."""
        if self._portions is None:
            self._portions = [it for it in self._found_portions() if it.last >= self.first and it.first <= self.last]
            self._portions.sort(key=lambda it: it.first)
        return self._portions

    def _found_portions(self):
        """All portions of the order, those that are open at its end last.

        Where kernels run with no portion, an entry of the lock begins a kernel, and is no opening.
        """
        if self.has_kernels:
            return
        still_open, ended = {}, zip(self.order.acts, self.order.ends)
        for match in PORTION_CODES.finditer(self.order.codes):
            code, event = match[0][0], 1 + match.start()
            kind, lane = code >> 4, code & 15
            if kind in (order.OPEN, order.LOCK):
                still_open[lane] = Portion(lane, event, kind == order.LOCK)
                continue
            portion = still_open.pop(lane, None) or Portion(lane, event, False)
            portion.last, portion.end = event, kind
            portion.acts, portion.cause = next(ended)
            yield portion
        for portion in still_open.values():
            portion.last = len(self.order)
            yield portion

    def entry_text(self, code, acts=0, end=0):
        """An entry as the order writes it."""
        return order.entry_text(code, len(self.report.harts), acts, end)

    def entry_words(self, code, acts=0, end=0):
        """An entry in words."""
        return order.meaning_of(code >> 4, self.report.lanes[code & 15], acts, end)


def events_words(first, last):
    """`event 3` or `events 3 to 7`."""
    return f"event {first}" if first == last else f"events {first} to {last}"


def range_words(run):
    """Which events are shown."""
    events = run.report.events
    if not events:
        return "an order without events"
    if run.is_whole:
        return counted(events, "event")
    return f"{events_words(run.first, run.last)} of {events:,}"


def totals(run):
    """Name and words of each line that stands beneath the picture."""
    report, lines = run.report, []
    if not run.is_whole and report.events:
        lines.append(("counted", "events and ends among those that are shown; statuses, the whole run and "
                                 "traffic at its end"))
    for lane, (name, actor) in enumerate(zip(report.lanes, report.actors)):
        told = []
        for kind in range(len(order.NAMES)):
            count = run.codes.count(order.code_of(kind, lane))
            if count:
                told.append(f"{count:,} {order.PLURALS[kind] if count > 1 else order.NAMES[kind]}")
        lines.append((name, f"{actor.status}; {', '.join(told) or 'no event'}"))
    counts = run.counts
    undone = sum(counts.undone.values())
    lines.append(("commits", counts.ends(order.COMMIT)))
    lines.append(("rollbacks", counts.ends(order.BACK)
                  + (f"; {counted(undone, 'instruction')} undone" if undone else "")))
    lines.append(("whole run", f"{counted(report.events, 'event')}, {counted(report.output, 'byte')} of output"))
    if report.traffic:
        lines.append(("traffic", ", ".join(f"{kind} {report.traffic.get(kind, 0):,}" for kind in KINDS)))
    return lines
