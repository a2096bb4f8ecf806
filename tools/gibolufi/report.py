"""The report: what a chip has come to. How its lines are read."""
import re

from gibolufi.files import reason_of
from gibolufi.words import Refused, shown

WORD = "[0-9a-f]{8}"
TAG_LINE = re.compile(rf"tag [0-7] {WORD} [MES]")
NOTE_LINE = re.compile(rf"note [a-z]+ (?:[0-9]|1[01]) {WORD}")
CHANGED_LINE = re.compile(rf"line ({WORD}) ((?:[0-9a-f]{{2}})+)")
REGISTER_LINE = re.compile(rf"x(\d+) ({WORD})")
ACTOR_LINE = re.compile(
    rf"(hart|core) ([0-7]) ((?:run|idle|(?:exit|done) {WORD}|trap \d {WORD})) pc ({WORD})")
KINDS = ("fill", "back", "down", "drop", "evict", "corefill", "merge")


class Actor:
    """How a hart or core stands: its status as the report writes it, its pc and its registers."""

    def __init__(self, status, pc):
        self.status, self.pc, self.registers = status, int(pc, 16), {}

    @property
    def is_trap(self):
        """Whether it trapped."""
        return self.status.startswith("trap ")

    @property
    def trap(self):
        """Cause and value of its trap."""
        _, cause, value = self.status.split()
        return int(cause), int(value, 16)


class Report:
    """What a report says."""

    def __init__(self, path):
        self.path = path
        self.numbers = {}
        self.harts, self.cores, self.traffic, self.changed = [], [], {}, {}
        self._last = None
        try:
            with open(path, encoding="ascii", errors="replace") as file:
                for number, line in enumerate(file, 1):
                    if not self._takes(number, line):
                        raise Refused(f"line {number} of {path} is no line of a report: {shown(line)}")
        except OSError as fault:
            raise Refused(f"the report {path!r}: {reason_of(fault)}") from None
        if not self.harts or not self.cores:
            raise Refused(f"{path} ends before its harts and cores: it is no whole report")

    @property
    def events(self):
        """How many events were run."""
        return self.numbers["events"]

    @property
    def output(self):
        """How many bytes were put."""
        return self.numbers["output"]

    @property
    def lanes(self):
        """The names of harts and cores."""
        return [f"hart {n}" for n in range(len(self.harts))] + [f"core {n}" for n in range(len(self.cores))]

    @property
    def actors(self):
        """Harts and cores in the order of their lanes."""
        return self.harts + self.cores

    def _takes(self, number, line):
        """Keeps what a line says; false where it is none of a report's lines at that place."""
        line = line[:-1] if line.endswith("\n") else "?"
        if number <= 2:
            name, _, count = line.partition(" ")
            self.numbers[name] = int(count) if re.fullmatch(r"\d{1,20}", count) else -1
            return name == ("events", "output")[number - 1] and self.numbers[name] >= 0
        for takes in (self._takes_actor, self._takes_register, self._takes_change, self._takes_traffic):
            if takes(line):
                return True
        return bool(TAG_LINE.fullmatch(line) or NOTE_LINE.fullmatch(line))

    def _takes_actor(self, line):
        found = ACTOR_LINE.fullmatch(line)
        if not found:
            return False
        held = self.harts if found[1] == "hart" else self.cores
        self._last = Actor(found[3], found[4])
        held.append(self._last)
        return int(found[2]) == len(held) - 1

    def _takes_register(self, line):
        found = REGISTER_LINE.fullmatch(line)
        if not found or self._last is None:
            return False
        self._last.registers[int(found[1])] = int(found[2], 16)
        return True

    def _takes_change(self, line):
        found = CHANGED_LINE.fullmatch(line)
        if found:
            self.changed[int(found[1], 16)] = bytes.fromhex(found[2])
        return bool(found)

    def _takes_traffic(self, line):
        words = line.split(" ")
        if words[0] != "traffic" or len(words) % 2 == 0 or not all(it.isdigit() for it in words[2::2]):
            return False
        self.traffic = {kind: int(count) for kind, count in zip(words[1::2], words[2::2])}
        return True

    def byte_at(self, address):
        """The byte of a changed line at an address, or None where its line is as it was loaded."""
        for first, held in self.changed.items():
            if first <= address < first + len(held):
                return held[address - first]
        return None


def status_words(actor):
    """An exit, a value that was returned, a trap, or that it runs."""
    name, *values = actor.status.split()
    if name == "exit":
        return f"exited with {int(values[0], 16)}"
    if name == "done":
        return f"done, returned {int(values[0], 16)} (0x{values[0]})"
    return {"run": "still runs", "idle": "idle"}.get(name, actor.status)
