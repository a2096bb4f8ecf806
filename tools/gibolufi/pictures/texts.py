"""A run as totals in text, and as rows for a spreadsheet."""
from gibolufi import order, summary
from gibolufi.pictures.run import range_words, totals

COLUMNS = ("first_event", "last_event", "events", "lane", "what", "entry", "instructions", "ended_by")


def totals_text(run):
    """The totals, a line each."""
    return summary.as_text([("run", f"{run.title}: {run.head}"), ("shown", range_words(run)), *totals(run)])


def rows(run):
    """The text of comma-separated rows: a header, then each run of equal entries and each portion."""
    yield ",".join(COLUMNS) + "\n"
    lanes = run.report.lanes
    for first, length, code, acts, end in run.runs():
        told = f"{acts},{order.SHORT_ENDS[end]}" if acts else ","
        yield (f"{first},{first + length - 1},{length},{lanes[code & 15]},{order.NAMES[code >> 4]},"
               f"{run.entry_text(code, acts, end)},{told}\n")
    for it in run.portions():
        what = "open portion" if it.end is None else f"{order.NAMES[it.end]} of a portion"
        what = f"{what} under the lock" if it.is_locked else what
        told = f"{it.acts},{order.SHORT_ENDS[it.cause]}" if it.acts else ","
        yield f"{it.first},{it.last},{it.last - it.first + 1},{lanes[it.lane]},{what},,{told}\n"
