"""Builds the C programs of examples/, runs each as examples/runs says, and compares outputs."""
import os
import shlex
import subprocess
import sys

from gibolufi import compiling, configuration, order, places, program
from gibolufi.pictures.page import page_of
from gibolufi.pictures.run import Run
from gibolufi.progress import Progress
from gibolufi.schedules import MOST_EVENTS, Turns
from gibolufi.trial import Trial, run_program
from gibolufi.verbs import schedule as schedule_verb
from gibolufi.words import BadWord, Refused, read_words

USAGE = """gibolufi examples [gcc | clang]

Builds the C programs of examples/ (with gcc, or with clang where there is no gcc), writes their
schedules, runs them as examples/runs says, and compares each output with the same program's on this
machine, and each order with the rollbacks and locks that are said there. What was made stays in
examples/out: image, configuration, schedule, order, report, output and page. What needs a compiler
or a library that isn't there is passed over, which is said."""
OUT = os.path.join(places.C_SIDE, "out")
HOST_FLAGS = ("-O2", "-Wall", "-Wextra", "-fwrapv")
# The examples that need a C library.
WITH_LIBRARY = ("printf", "heap")


def say(words):
    """A line on standard error."""
    print(f"examples: {words}", file=sys.stderr, flush=True)


def runs():
    """Number, name, configuration, schedule's words and expected letters of each run."""
    number = 0
    with open(compiling.c_file("runs"), encoding="ascii") as file:
        for line in file:
            if line.strip() and not line.startswith("#"):
                number += 1
                name, config, word, bursts, *expected = line.split()
                yield number, name, config, [word, bursts], expected


class Builder:
    """Makes images for the chip, and what the same programs put on this machine."""

    def __init__(self, compiler):
        self.compiler = compiler
        self.made = {}

    def image_and_text(self, name, config):
        """The image of an example, and this machine's output; None where its library is missing."""
        if name in WITH_LIBRARY and not self.compiler.specs():
            return None
        source, image = compiling.c_file(name + ".c"), os.path.join(OUT, name + ".elf")
        symbols = [("memory_end", configuration.read_text(config).memory_end)]
        self.compiler.compile([source], image, name in WITH_LIBRARY, symbols, ("-O2", "-Wall", "-Wextra", "-fwrapv"),
                              "rv32im")
        if name not in self.made:
            self.made[name] = self.text_of_host(source, os.path.join(OUT, name + ".host"))
        return image, self.made[name]

    @staticmethod
    def text_of_host(source, host):
        """What a program puts on this machine."""
        for words in (["cc", *HOST_FLAGS, "-o", host, source], [host]):
            ran = subprocess.run(words, stdin=subprocess.DEVNULL, capture_output=True, check=False)
            if ran.returncode:
                raise Refused(f"{' '.join(words)} fails on this machine: {ran.stderr.decode(errors='replace')}")
        return ran.stdout


def run(path, number, name, config, turns_words, expected, image, text):
    """Runs an example, and refuses where it isn't as it is said."""
    at = os.path.join(OUT, f"{name}.{number}")
    with open(at + ".json", "w", encoding="ascii") as file:
        file.write(config + "\n")
    turns = Turns(schedule_verb.read_options(turns_words))
    trial = Trial(path, at + ".json", image, Progress("examples"))
    events = trial.events_until_ended(turns, MOST_EVENTS)[0]
    with open(at + ".schedule", "w", encoding="ascii") as file:
        file.writelines(turns.parts(events))
    words = ["run", "--config", at + ".json", "--image", image]
    for role in ("schedule", "order", "report", "output"):
        words += [f"--{role}", f"{at}.{role}"]
    run_program(path, words)
    with open(at + ".output", "rb") as file:
        put = file.read()
    if put != text:
        raise Refused(f"{name} with {config} puts {put!r}, and on this machine {text!r}")
    drawn = Run(at + ".order", at + ".report")
    check(drawn.counts.kinds, expected, f"{name} with {config}")
    drawn.named(name, f"{config}, {shlex.join(turns_words)}")
    with open(at + ".html", "w", encoding="utf-8") as file:
        file.write(page_of(drawn))
    kinds = drawn.counts.kinds
    say(f"{name} with {config}: {drawn.report.events} events, {kinds[order.COMMIT]} commits, "
        f"{kinds[order.BACK]} rollbacks, {kinds[order.LOCK]} locks")


def check(kinds, expected, what):
    """Whether an order has each letter that is said, and none of those with a `!`."""
    for said in expected:
        count = kinds[order.LETTERS.index(said[-1])]
        if bool(count) == said.startswith("!"):
            raise Refused(f"{what}: the order isn't as examples/runs says: {said}")


def main(words):
    """Builds and runs all examples."""
    _, others = read_words(words)
    if len(others) > 1:
        raise BadWord(f"{others[1]!r}: one compiler is named, gcc or clang")
    if not places.IS_CHECKOUT:
        raise Refused("the examples lie in a checkout: scripts/gibolufi examples")
    path = program.find()
    program.warn_if_unproved(path)
    try:
        compiler = compiling.Compiler(others[0] if others else None)
    except Refused as fault:
        say(f"not run: {fault}")
        return 0
    if not compiling.is_there("cc"):
        say(f"not run, since there is no cc to compare with: install {compiling.PACKAGES['cc']}")
        return 0
    os.makedirs(OUT, exist_ok=True)
    builder = Builder(compiler)
    for number, name, config, turns_words, expected in runs():
        made = builder.image_and_text(name, config)
        if made is None:
            say(f"{name} is passed over, since there is no picolibc for {compiler.name}: install "
                f"{compiling.PACKAGES['picolibc']}")
        else:
            run(path, number, name, config, turns_words, expected, *made)
    return 0
