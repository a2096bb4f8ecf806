"""Runs a small near-data example by the unproved program, and explains what it wrote."""
import itertools
import os
import shutil
import subprocess
import sys
import tempfile
import time

from gibolufi import order, places
from gibolufi.example import BEGIN, CONFIGURATION, PROGRAM, SCHEDULE, image
from gibolufi.words import Refused, no_others, read_words

USAGE = """gibolufi first-look [--keep]

Compiles the program as it is, unproved, runs a small example by it, and explains what it wrote: a
portion reads a word that the hart then stores to, so it is rolled back once, and its second try
commits. It takes about a minute on an idle machine. --keep leaves the unproved program for the
other verbs until scripts/build has made the proved one; it checks itself as it runs, so it is slow
(some 50,000 events a second, and three seconds for each MiB of memory)."""
USUAL_SECONDS = 60
SECONDS_BETWEEN_SIGNS = 5
# The unproved program ends itself after so many steps, and is ended after so many seconds.
MOST_STEPS, MOST_SECONDS = str(10**15), str(10**6)
ROLES = ("config", "image", "schedule", "order", "report", "output")


def say(words):
    """A line on standard error."""
    print(f"first-look: {words}", file=sys.stderr, flush=True)


class Compiled:
    """The program as `rt try` compiles and runs it. It is held where it opens its schedule, a pipe."""

    def __init__(self, folder):
        self.folder = folder
        self.said = os.path.join(folder, "said")
        for role, held in (("config", CONFIGURATION.encode()), ("image", image())):
            with open(self.at(role), "wb") as file:
                file.write(held)
        os.mkfifo(self.at("schedule"))
        words = ["rt", "try", "--steps", MOST_STEPS, "--seconds", MOST_SECONDS, "--", "run"]
        words += [f"--{role}={self.at(role)}" for role in ROLES]
        with open(self.said, "wb") as said:
            self.process = subprocess.Popen(
                words, stdin=subprocess.DEVNULL, stdout=said, stderr=subprocess.STDOUT,
                cwd=os.path.join(places.TOP, "crates", "conda_cli"), env={**os.environ, "TMPDIR": folder})

    def at(self, role):
        """The path of a role's file."""
        return os.path.join(self.folder, role)

    def written(self, role):
        """The text of a file."""
        with open(self.at(role), encoding="ascii", errors="replace") as file:
            return file.read()

    def wait(self):
        """Waits until the program opens its schedule; the pipe's end to write to."""
        began = told = time.monotonic()
        while True:
            try:
                return os.open(self.at("schedule"), os.O_WRONLY | os.O_NONBLOCK)
            except OSError:
                pass
            if self.process.poll() is not None:
                raise Refused(f"the program couldn't be run:\n{self.written('said').rstrip()}")
            if time.monotonic() - told >= SECONDS_BETWEEN_SIGNS:
                told = time.monotonic()
                say(f"compiling, {told - began:.0f} s (about {USUAL_SECONDS} on an idle machine)")
            time.sleep(0.05)

    def keep(self):
        """Copies the program that now runs to where the other verbs look for it."""
        for folder, _, names in os.walk(self.folder):
            if "program" in names:
                os.makedirs(os.path.dirname(places.UNPROVED), exist_ok=True)
                new = places.UNPROVED + ".new"
                shutil.copy2(os.path.join(folder, "program"), new)
                os.chmod(new, 0o755)
                os.replace(new, places.UNPROVED)
                return
        raise Refused("the unproved program wasn't found where the toolchain runs it; nothing is kept")

    def finish(self, pipe):
        """Hands the schedule over, and waits for the end."""
        os.write(pipe, SCHEDULE.encode())
        os.close(pipe)
        if self.process.wait() != 0:
            raise Refused(f"the program couldn't be run:\n{self.written('said').rstrip()}")

    def stop(self):
        """Ends it where it still runs."""
        if self.process.poll() is None:
            self.process.terminate()
            self.process.wait()


def entry_words(text):
    """What a line of the order says."""
    letter, who, *numbers = text.split()
    kind = order.LETTERS.index(letter)
    actor = who if kind in (order.IDLE, order.HELD) else f"{'hart' if kind < order.IDLE else 'core'} {who}"
    return order.meaning_of(kind, actor, *map(int, numbers))


def show(compiled):
    """Prints the program, the schedule, and the three files that were written."""
    print("== program")
    for place, (word, text, reason) in enumerate(PROGRAM):
        print(f"{BEGIN + 4 * place:08x}  {word:08x}  {text:18}  {reason}".rstrip())
    print("== schedule (h0 is hart 0, n0 is near-data core 0; then so many events)")
    print(", ".join(SCHEDULE.splitlines()))
    print("== order: what happened at each event, counted from 1")
    at = 1
    for entry, same in itertools.groupby(compiled.written("order").splitlines()):
        count = len(list(same))
        events = f"{at}" if count == 1 else f"{at} to {at + count - 1}"
        print(f"{events:>8}  {entry:9}  {entry_words(entry)}")
        at += count
    print("== report: harts, cores, tags of the caches, changed lines, traffic, and its last notes")
    print(compiled.written("report"), end="")
    print("== output: the sum as a digit; the first try, which read 0, would have made it 1")
    print(compiled.written("output"))


def main(words):
    """Compiles, runs and explains the example."""
    options, others = read_words(words, flags=("keep",))
    no_others(others)
    if not places.IS_CHECKOUT:
        raise Refused("it compiles the program, so it works in a checkout alone: scripts/first_look")
    if not shutil.which("rt"):
        raise Refused("the toolchain is missing: there is no rt among the commands (README.md, "
                      "\"What you need\", names the version)")
    say("compiling the program UNPROVED, and running an example. Nothing is proved by this:")
    say("rt ci proves all, and scripts/build proves the program and keeps it for use.")
    began = time.monotonic()
    with tempfile.TemporaryDirectory() as folder:
        compiled = Compiled(folder)
        try:
            pipe = compiled.wait()
            if "keep" in options:
                compiled.keep()
            compiled.finish(pipe)
        finally:
            compiled.stop()
        show(compiled)
    say(f"that took {time.monotonic() - began:.0f} s, and nothing of it was proved")
    if "keep" in options:
        say(f"the UNPROVED program is kept at {os.path.relpath(places.UNPROVED)}; the verbs use it, and say so")
    return 0
