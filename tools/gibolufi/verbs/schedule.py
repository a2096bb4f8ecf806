"""Writes a schedule: who makes how many events, in which turn."""
import sys

from gibolufi import program
from gibolufi.progress import Progress
from gibolufi.report import status_words
from gibolufi.schedules import MOST_EVENTS, Turns
from gibolufi.trial import Trial
from gibolufi.words import BadWord, no_others, read_words, whole_number

USAGE = """gibolufi schedule --burst h0=8,n0=32 --events 10000 > FILE
gibolufi schedule --random 7 --weight h0=1,n0=3 --events 10000 > FILE
gibolufi schedule --burst h0=8,n0=32 --until-ended --config F --image F > FILE

Writes a schedule to standard output: who makes how many events, in which turn.

Who takes part, and in which turn (at least one of these):
  --burst A=N,..    actors (h0 to h7 are harts, n0 to n3 near-data cores), and the events that
                    each makes in its turn
  --weight A=N,..   with --random: how often each is drawn, beside the others' numbers
  --config F        where neither is given: each hart and core of the configuration
An actor that only one of the lists names has the number 1 in the other.

How:
  --random SEED     the next actor is drawn, by weight; without it they take turns
  --events N        so many events in all
  --until-ended     as many as it takes until every hart has ended, found by running the program
                    on longer and longer schedules; needs --config and --image
  --mode M[,M]      with --until-ended: the commands on which every hart is to have ended, of run
                    and fine (run)
  --limit N         with --until-ended: the most events that are tried (67108864)
  --program F       with --until-ended: the program (CONDA, or the one that scripts/build made)

The same words give the same bytes. Status 2: a bad word. Status 1: some hart hadn't ended after
the limit, or the program refused its files; then nothing is written."""
VALUES = ("burst", "weight", "config", "random", "events", "limit", "program", "image", "mode")


def read_options(words):
    """The options of a schedule."""
    options, others = read_words(words, VALUES, ("until-ended",))
    no_others(others)
    return options


def events_of(options, turns):
    """How many events the schedule gets."""
    if ("events" in options) == ("until-ended" in options):
        raise BadWord("one of --events and --until-ended is needed")
    if "events" in options:
        for name in ("image", "limit", "program", "mode"):
            if name in options:
                raise BadWord(f"--{name} needs --until-ended")
        return whole_number("--events", options["events"], 1, MOST_EVENTS)
    limit = whole_number("--limit", options.get("limit", str(MOST_EVENTS)), 1, MOST_EVENTS)
    if not any(actor[0] == "h" for actor in turns.actors):
        raise BadWord("--until-ended needs a hart among those that take part")
    for name in ("config", "image"):
        if name not in options:
            raise BadWord(f"--until-ended needs --{name}")
    return found_by_trial(options, turns, limit)


def modes_of(options):
    """The commands on which every hart is to have ended."""
    modes = options.get("mode", "run").split(",")
    for mode in modes:
        if mode not in program.MODES:
            raise BadWord(f"--mode: {mode!r} is none of {', '.join(program.MODES)}")
    return modes


def found_by_trial(options, turns, limit):
    """How many events it takes on all of the commands; says so on standard error."""
    modes = modes_of(options)
    path = program.find(options.get("program"))
    program.warn_if_unproved(path)
    most = 0
    for mode in modes:
        trial = Trial(path, options["config"], options["image"], Progress("gibolufi schedule"), mode)
        events, report = trial.events_until_ended(turns, limit)
        ends = ", ".join(f"h{number} {status_words(hart) if not hart.is_trap else hart.status}"
                         for number, hart in enumerate(report.harts))
        on = f"on {mode} " if len(modes) > 1 else ""
        print(f"gibolufi schedule: {on}every hart has ended after {events} events: {ends}", file=sys.stderr)
        most = max(most, events)
    return most


def main(words):
    """Writes the schedule."""
    options = read_options(words)
    turns = Turns(options)
    events = events_of(options, turns)
    progress = Progress("gibolufi schedule")
    for part in turns.parts(events, lambda written: progress.tell(f"{written:,} of {events:,} events")):
        sys.stdout.write(part)
    return 0
