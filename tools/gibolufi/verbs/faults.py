"""All statuses, faults and causes in words."""
import sys

from gibolufi import faults
from gibolufi.words import no_others, read_words

USAGE = """gibolufi faults [--markdown]

Prints each status of the program, each fault of a configuration, an image, a schedule and a source,
each cause that ends a portion, and each trap, with what it means and what to do. --markdown prints
the tables as docs/MANUAL.md has them."""


def main(words):
    """Prints the tables."""
    options, others = read_words(words, flags=("markdown",))
    no_others(others)
    sys.stdout.write(faults.as_markdown() if "markdown" in options else faults.as_text())
    return 0
