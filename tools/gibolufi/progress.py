"""How far something is, said on standard error where it takes long."""
import sys
import time

FIRST_SECONDS, SECONDS_BETWEEN = 2, 5


class Progress:
    """Says how far something is after two seconds, and then each five."""

    def __init__(self, who):
        self.who = who
        self.next = time.monotonic() + FIRST_SECONDS

    def tell(self, words):
        """Says these words where it is time."""
        if time.monotonic() >= self.next:
            print(f"{self.who}: {words}", file=sys.stderr, flush=True)
            self.next = time.monotonic() + SECONDS_BETWEEN
