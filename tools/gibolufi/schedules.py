"""The schedule: who makes how many events, in which turn. How one is made and written."""
import bisect
import itertools
import re
import sys
from array import array

from gibolufi import configuration
from gibolufi.program import MOST_EVENTS
from gibolufi.words import BadWord, Refused, whole_number

# So many turns are drawn at once, and so many bytes of turns are written at once.
BLOCK = 1 << 14
PART = 1 << 20
MASK = 2**64 - 1
# SplitMix64's step of the state, and its two factors.
STEP, FACTORS = 0x9E3779B97F4A7C15, ((30, 0xBF58476D1CE4E5B9), (27, 0x94D049BB133111EB))
# The letter that stands for an actor's place among those that take part.
LETTERS = b"abcdefghijkl"
# An actor's letter, and how many there may be.
ACTOR = re.compile(r"h[0-7]|n[0-3]")


def numbers_of_actors(name, text):
    """`h0=8,n0=32` as a dictionary, in the order of the words."""
    numbers = {}
    for part in text.split(","):
        actor, _, number = part.partition("=")
        if not ACTOR.fullmatch(actor):
            raise BadWord(f"{name}: {part!r} isn't ACTOR=NUMBER with an actor h0 to h7 or n0 to n3")
        if actor in numbers:
            raise BadWord(f"{name}: {actor} stands twice")
        numbers[actor] = whole_number(f"{name} {actor}", number, 1, MOST_EVENTS)
    return numbers


def actors_of(config):
    """Each hart and core of a configuration."""
    return [f"h{n}" for n in range(config["harts"])] + [f"n{n}" for n in range(config["cores"])]


def actors_of_file(path):
    """Each hart and core that a configuration's file has."""
    try:
        return actors_of(configuration.read_file(path))
    except Refused as fault:
        raise BadWord(f"--config: {fault}") from None


class Turns:
    """Who comes next, and for how many events. Each schedule is the front of a longer one."""

    def __init__(self, options):
        bursts = numbers_of_actors("--burst", options["burst"]) if "burst" in options else {}
        weights = numbers_of_actors("--weight", options["weight"]) if "weight" in options else {}
        if weights and "random" not in options:
            raise BadWord("--weight needs --random")
        actors = list(bursts) + [actor for actor in weights if actor not in bursts]
        if not actors and "config" not in options:
            raise BadWord("nobody takes part: --burst, --weight or --config says who does")
        self.actors = actors or actors_of_file(options["config"])
        self.bursts = [bursts.get(actor, 1) for actor in self.actors]
        self.weights = [weights.get(actor, 1) for actor in self.actors]
        self.seed = None
        if "random" in options:
            self.seed = whole_number("--random", options["random"], 0, MASK)

    def parts(self, events, told=lambda written: None):
        """The text of so many events in parts; turns of one actor that follow each other are one line.

        `told` is called now and then with how many events are written.
        """
        if len(self.actors) == 1:
            yield f"{self.actors[0]} {events}\n"
        elif self.seed is None:
            yield from self._in_turn(events, told)
        else:
            yield from self._drawn(events, told)

    def _in_turn(self, events, told):
        """Each actor's burst in turn, again and again."""
        lines = [f"{actor} {burst}\n" for actor, burst in zip(self.actors, self.bursts)]
        round_text, round_events = "".join(lines), sum(self.bursts)
        most, left = max(1, PART // len(round_text)), events
        while left >= round_events:
            rounds = min(most, left // round_events)
            left -= rounds * round_events
            yield round_text * rounds
            told(events - left)
        for actor, burst in zip(self.actors, self.bursts):
            if left:
                yield f"{actor} {min(burst, left)}\n"
                left -= min(burst, left)

    def _drawn(self, events, told):
        """Each turn drawn by weight. A run of one letter is a line."""
        lines = _Lines(self.actors, self.bursts)
        runs_of = re.compile(b"|".join(LETTERS[place:place + 1] + b"+" for place in range(len(self.actors))))
        kept, turns, left = b"", 0, events
        for block in _letters(self.seed, self.weights):
            block, worth = self._front(block, left)
            left -= worth
            rest = block.lstrip(kept) if kept else block
            turns += len(block) - len(rest)
            if rest:
                runs = runs_of.findall(rest)
                before = lines.text(kept, turns) if kept else ""
                kept, turns = runs[-1][:1], len(runs.pop())
                yield before + "".join(map(lines.__getitem__, runs))
            told(events - left)
            if left <= 0:
                break
        # The last turn may be cut.
        yield lines.text(kept, turns, left)

    def _front(self, block, left):
        """As much of a block as the events that are left allow, the last turn whole, and its events."""
        def worth(turns):
            return sum(turns.count(letter) * burst for letter, burst in zip(LETTERS, self.bursts))

        if worth(block) <= left:
            return block, worth(block)
        low, high = 0, len(block)
        while low < high:
            middle = (low + high) // 2
            low, high = (low, middle) if worth(block[:middle]) >= left else (middle + 1, high)
        return block[:low], worth(block[:low])


class _Lines(dict):
    """The line of each run of an actor's letter."""

    def __init__(self, actors, bursts):
        super().__init__()
        self.actors, self.bursts = actors, bursts

    def text(self, letter, turns, more=0):
        """The line of so many turns of the actor with a letter, and so many events more."""
        place = LETTERS.index(letter)
        return f"{self.actors[place]} {turns * self.bursts[place] + more}\n"

    def __missing__(self, run):
        text = self[run] = self.text(run[:1], len(run))
        return text


def _words(seed):
    """The words of SplitMix64 in blocks, as bytes of 16 for each, the low 8 of which are the word.

    A word is a function of the seed and its number alone, so a block is reckoned as one large
    number with 128 bits for each word.
    """
    ones = int.from_bytes((b"\1" + bytes(15)) * BLOCK, "little")
    low = ones * MASK
    steps = b"".join((STEP * (at + 1) & MASK).to_bytes(16, "little") for at in range(BLOCK))
    steps = int.from_bytes(steps, "little")
    while True:
        words = steps + ones * seed & low
        for shift, factor in FACTORS:
            words = ((words ^ words >> shift) & low) * factor & low
        words ^= words >> 31
        yield words.to_bytes(16 * BLOCK, "little")
        seed = seed + STEP * BLOCK & MASK


def _letters(seed, weights):
    """The letters of drawn places in blocks. A draw is the next word modulo the sum of the weights."""
    ends = list(itertools.accumulate(weights))
    total = ends[-1]
    by_draw = bytes(LETTERS[bisect.bisect_right(ends, draw % total)] for draw in range(256))
    for block in _words(seed):
        if 256 % total == 0:
            yield block[::16].translate(by_draw)
            continue
        words = array("Q")
        words.frombytes(block)
        if sys.byteorder == "big":
            words.byteswap()
        if total <= 256:
            yield bytes([word % total for word in words[::2]]).translate(by_draw)
        else:
            yield bytes([LETTERS[bisect.bisect_right(ends, word % total)] for word in words[::2]])
