"""The simulator: its commands and their words, where it lies, and how it is run."""
import os
import subprocess
import sys
from collections import namedtuple

from gibolufi import places
from gibolufi.words import Refused

Option = namedtuple("Option", "role is_needed least most")
Command = namedtuple("Command", "name options meaning")
MOST_EVENTS = 67108864


def _file(role, is_needed=True):
    return Option(role, is_needed, None, None)


def _number(role, least, most, is_needed=True):
    return Option(role, is_needed, least, most)


_RUN = (_file("config"), _file("image"), _file("schedule"), _file("order"), _file("report"),
        _file("output", is_needed=False))
# A row for each command of the program: it is handed on, and its faults get words, by its row alone.
COMMANDS = (
    Command("run", _RUN, "runs a schedule of a configuration and an image"),
    Command("fine", _RUN, "the same, with kernels that act on the harts' coherent memory"),
    Command("self", (_number("seed", 0, 2**64 - 1), _number("events", 1, MOST_EVENTS), _file("report")),
            "runs a workload that is made of a seed"),
    Command("asm", (_file("source"), _file("program")), "makes the image of a source in assembly text"),
    Command("dis", (_file("program"), _file("source")), "makes the source of an image's program"),
)
# The commands that run a schedule, each on a machine of its own.
MODES = ("run", "fine")
BY_NAME = {command.name: command for command in COMMANDS}
# What a role's file is called in messages.
ROLES = {"config": "configuration", "image": "image", "schedule": "schedule", "order": "order",
         "report": "report", "output": "output", "source": "source", "program": "program"}


def words_line(command):
    """The words that a command takes, on one line."""
    parts = []
    for option in command.options:
        part = f"--{option.role} {'F' if option.least is None else 'N'}"
        parts.append(part if option.is_needed else f"[{part}]")
    return f"gibolufi {command.name} {' '.join(parts)}"


def find(named=None):
    """The program: the one named, the environment's, the proved one, or the unproved one."""
    named = named or os.environ.get(places.VARIABLE)
    if named:
        if not is_program(named):
            raise Refused(f"there is no program at {named}")
        return os.path.abspath(named)
    for path in (places.PROVED, places.UNPROVED):
        if is_program(path):
            return path
    how = ("scripts/build proves and makes it, and `gibolufi first-look --keep` makes an unproved one "
           "in a minute") if places.IS_CHECKOUT else "scripts/install puts it there"
    raise Refused(f"there is no program at {places.PROVED}: {how}")


def is_program(path):
    """Whether a path is that of a file that may be run."""
    return os.path.isfile(path) and os.access(path, os.X_OK)


def is_unproved(path):
    """Whether a program is the one that first-look kept."""
    return os.path.abspath(path) == os.path.abspath(places.UNPROVED)


def warn_if_unproved(path):
    """Says so where a program is unproved, each time that one is used."""
    if is_unproved(path):
        print("gibolufi: this program is UNPROVED, and checks itself as it runs, so it is slow; "
              "scripts/build makes the proved one", file=sys.stderr, flush=True)


def run(path, words):
    """The status of the program and what it said; negative where a signal ended it."""
    ended = subprocess.run([path, *words], stdin=subprocess.DEVNULL, stderr=subprocess.PIPE, check=False)
    return ended.returncode, ended.stderr.decode("utf-8", "replace")
