"""The order: one line an event. What its lines say, and how they are read."""
import re

from gibolufi.files import reason_of
from gibolufi.words import Refused, counted, shown

STEP, WAITS, IDLE, HELD, OPEN, LOCK, TRY, COMMIT, BACK, FLUSH, KERN = range(11)
LETTERS = "sw-xolpcrfk"
NAMES = ("step", "wait", "idle", "held", "opening", "opening under the lock", "instruction of a try",
         "commit", "rollback", "flush", "instruction of a kernel")
PLURALS = ("steps", "waits", "idle", "held", "openings", "openings under the lock",
           "instructions of tries", "commits", "rollbacks", "flushes", "instructions of kernels")
WORDS = ("{a} executes one instruction",
         "{a} waits for a core that runs, and does nothing",
         "{a} has nothing to do",
         "{a} is held while a portion runs under the lock",
         "{a} opens a portion, which is tried on memory's own bytes",
         "{a} opens a portion under the lock, which holds all others",
         "{a} tries one instruction, and nobody sees it yet",
         "{a} commits its portion of {n}, {e}",
         "{a}'s portion is rolled back, since it may have read what others changed: {n} undone, {e}",
         "{a} writes back one line that the portion rolled back last may have read",
         "{a} executes one instruction of its kernel")
# By number: how a portion ended.
ENDS = ("", "ended by the kernel's end", "ended by a trap", "ended by its most instructions",
        "ended by a full set of its cache", "ended by its most lines read",
        "ended by its most lines written", "ended by its most bytes of output")
SHORT_ENDS = ("", "the kernel's end", "trap", "most instructions", "set full", "most lines read",
              "most lines written", "output full")
MOST_ACTS = 65536

ENTRY = re.compile(rb"(?:([sw]) ([0-7])|([-x]) ([hn])([0-7])|([olpfk]) ([0-3])"
                   rb"|([cr]) ([0-3]) ([1-9][0-9]{0,4}) ([1-7]))\n")
# An event's code has its kind in the upper half and its lane in the lower.
END_CODES = re.compile(b"[" + b"".join(re.escape(bytes([kind << 4 | lane])) for kind in (COMMIT, BACK)
                                       for lane in range(16)) + b"]")


def code_of(kind, lane):
    """The byte of a kind and a lane."""
    return kind << 4 | lane


def meaning_of(kind, actor, acts=0, end=0):
    """What an entry says, in words."""
    return WORDS[kind].format(a=actor, n=counted(acts, "instruction"), e=ENDS[end])


class _Codes(dict):
    """The code of each line's text. An end is met anew each time, and its numbers are kept."""

    def __init__(self, harts, cores):
        super().__init__()
        self.harts, self.cores = harts, cores
        self.known_ends, self.acts, self.ends = {}, [], []

    def __missing__(self, text):
        found = self.known_ends.get(text)
        if found is None:
            found = self.judge(text)
        code, acts, end = found
        if acts:
            self.acts.append(acts)
            self.ends.append(end)
        return code

    def judge(self, text):
        """Code, acts and end of a text that wasn't met before."""
        match = ENTRY.fullmatch(text)
        groups = [it for it in match.groups() if it is not None] if match else [b"?", b"0"]
        kind = LETTERS.find(groups[0].decode())
        is_core = kind >= OPEN or groups[1:2] == [b"n"]
        lane = int(groups[2] if kind in (IDLE, HELD) else groups[1])
        acts, end = (int(groups[2]), int(groups[3])) if len(groups) == 4 else (0, 0)
        if kind < 0 or acts > MOST_ACTS or is_core and lane > 3:
            raise ValueError("is no line of an order")
        if lane >= (self.cores if is_core else self.harts):
            raise ValueError("names an actor that the report hasn't")
        code = code_of(kind, lane + is_core * self.harts)
        if acts:
            self.known_ends[text] = code, acts, end
        else:
            self[text] = code
        return code, acts, end


class Order:
    """An order: a code for each event, and the numbers of each commit and rollback in turn."""

    def __init__(self, path, harts, cores):
        codes = _Codes(harts, cores)
        self.path, self.harts, self.cores = path, harts, cores
        try:
            with open(path, "rb") as file:
                self.codes = bytes(map(codes.__getitem__, file))
        except OSError as fault:
            raise Refused(f"the order {path!r}: {reason_of(fault)}") from None
        except ValueError as fault:
            raise Refused(self.bad_line(str(fault))) from None
        self.acts, self.ends = codes.acts, codes.ends

    def __len__(self):
        return len(self.codes)

    def bad_line(self, why):
        """The first line that is wrong, in words."""
        codes = _Codes(self.harts, self.cores)
        with open(self.path, "rb") as file:
            for number, text in enumerate(file, 1):
                try:
                    codes[text]
                except ValueError as fault:
                    return f"line {number} of {self.path} {fault}: {shown(text)}"
        return f"{self.path} {why}"

    def cut(self, first, last):
        """Codes, acts and ends of the events from first to last, counted from 1."""
        codes = self.codes[first - 1:last]
        before = sum(1 for _ in END_CODES.finditer(self.codes, 0, first - 1))
        count = sum(1 for _ in END_CODES.finditer(codes))
        return codes, self.acts[before:before + count], self.ends[before:before + count]


def entry_text(code, harts, acts=0, end=0):
    """An entry as the order writes it."""
    kind, lane = code >> 4, code & 15
    place = lane if lane < harts else lane - harts
    if kind in (IDLE, HELD):
        return f"{LETTERS[kind]} {'h' if lane < harts else 'n'}{place}"
    return f"{LETTERS[kind]} {place}" + (f" {acts} {end}" if acts else "")


def last_entry_of(path, actor):
    """The letter of an actor's last entry among an order's last million bytes, or ""."""
    names = (actor, actor[1:])
    with open(path, "rb") as file:
        file.seek(0, 2)
        file.seek(max(0, file.tell() - (1 << 20)))
        lines = file.read().decode("ascii", "replace").splitlines()
    for line in reversed(lines):
        letter, _, rest = line.partition(" ")
        is_hart = letter in "sw"
        who = rest.partition(" ")[0]
        if who == names[0] or len(who) == 1 and who == names[1] and is_hart == (actor[0] == "h"):
            return letter
    return ""
