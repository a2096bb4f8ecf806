"""Draws a run from its order and its report."""
import os
import sys

from gibolufi.files import kind_of
from gibolufi.pictures import texts, trace
from gibolufi.pictures.page import page_of
from gibolufi.pictures.run import Run
from gibolufi.pictures.svg import Picture
from gibolufi.words import BadWord, read_words, whole_number

USAGE = """gibolufi timeline ORDER REPORT > FILE.html           a page that stands alone
gibolufi timeline --svg ORDER REPORT > FILE.svg      the picture alone
gibolufi timeline --trace ORDER REPORT > FILE.json   the spans and counters as trace-event JSON, for
                                                     Perfetto and Chromium's tracing page; an event is 1 us
gibolufi timeline --totals ORDER REPORT              what happened how often, as text
gibolufi timeline --csv ORDER REPORT > FILE.csv      runs of equal entries, and portions, as rows

  --from N, --to N     only the events from N to N, both included
  --image F            the program's name, for the title
  --config F           the configuration's name, for the head

Events are counted from 1, as the lines of the order. There is a lane for each hart and each near-data
core, and events go from left to right, one wide each. Equal entries in a row are one bar. Status 2: a
bad word. Status 1: a file can't be read, is no order or no report, or the two aren't of one run."""
FORMS = ("svg", "trace", "totals", "csv")
MOST = 10**18


def read_run(options, paths):
    """The run that the words name."""
    if len(paths) != 2:
        raise BadWord(f"two files are needed, the order and the report, and {len(paths) or 'none'} "
                      f"{'is' if len(paths) == 1 else 'are'} named")
    if [kind_of(it) for it in paths] == ["report", "order"]:
        raise BadWord("the order comes first, and then the report: they were swapped")
    ends = {name: whole_number(f"--{name}", options[name], 1, MOST) for name in ("from", "to") if name in options}
    first, last = ends.get("from", 1), ends.get("to")
    if last is not None and first > last:
        raise BadWord(f"--from {first} is past --to {last}")
    run = Run(*paths, first, last)
    files = [os.path.basename(it) for it in paths]
    if "config" in options:
        files.insert(0, os.path.basename(options["config"]))
    run.named(os.path.basename(options.get("image", paths[0])), ", ".join(files))
    return run


def text_of(run, form):
    """The text of a form, in parts."""
    if form == "trace":
        return trace.parts(run)
    if form == "csv":
        return texts.rows(run)
    if form == "totals":
        return [texts.totals_text(run)]
    return [Picture(run).whole() if form == "svg" else page_of(run)]


def main(words):
    """Draws the run."""
    options, paths = read_words(words, ("from", "to", "image", "config"), FORMS)
    forms = [form for form in FORMS if form in options]
    if len(forms) > 1:
        raise BadWord(f"--{forms[0]} and --{forms[1]} don't go together")
    sys.stdout.writelines(text_of(read_run(options, paths), forms[0] if forms else "page"))
    return 0
