"""The configuration: its keys, and what a file says of them."""
import json
from collections import namedtuple

from gibolufi.files import reason_of
from gibolufi.words import Refused

Key = namedtuple("Key", "name default least most form meaning")

POWER, MULTIPLE, SIZES, ANY = "a power of two", "a multiple of 64", "32, 64 or 128", ""
# In the program's order: the first has number 1.
KEYS = (
    Key("harts", 1, 1, 8, ANY, "harts"),
    Key("cores", 1, 1, 4, ANY, "near-data cores"),
    Key("mem_base", 0, 0, 4294967232, MULTIPLE, "memory's first address"),
    Key("mem_bytes", 16777216, 4096, 67108864, MULTIPLE, "memory's size"),
    Key("hart_sets", 64, 1, 256, POWER, "the sets of a hart's cache"),
    Key("hart_ways", 8, 1, 8, ANY, "the lines of a set of a hart's cache"),
    Key("core_sets", 64, 1, 64, POWER, "the sets of a core's cache"),
    Key("core_ways", 4, 1, 8, ANY, "the lines of a set of a core's cache"),
    Key("sig_bits", 9, 1, 10, ANY, "b, where each of a signature's four segments has 2^b bits"),
    Key("read_limit", 256, 1, 4096, ANY, "the lines that a portion may read from outside"),
    Key("write_limit", 256, 1, 4096, ANY, "the lines that a portion may store to"),
    Key("portion_max", 4096, 1, 65536, ANY, "the instructions of a portion"),
    Key("out_max", 64, 1, 64, ANY, "the bytes that a portion may put"),
    Key("retries", 3, 0, 255, ANY, "the rollbacks after which the next try is under the lock"),
    Key("trace_last", 64, 1, 65536, ANY, "the last notes of traffic that the report has"),
    Key("line_bytes", 64, 32, 128, SIZES, "the size of a line"),
)
NAMES = tuple(key.name for key in KEYS)


def range_of(key):
    """The numbers that a key may have, in words."""
    if key.form == SIZES:
        return SIZES
    return f"{key.form + ' ' if key.form else ''}from {key.least} to {key.most}"


class Configuration:
    """A number for each key."""

    def __init__(self, held):
        self.numbers = {key.name: held.get(key.name, key.default) for key in KEYS}

    def __getitem__(self, name):
        return self.numbers[name]

    @property
    def memory_end(self):
        """The first address past memory."""
        return self["mem_base"] + self["mem_bytes"]


def read_text(text, name="the configuration"):
    """A configuration from its text, judged as far as the tool needs its numbers."""
    try:
        held = json.loads(text)
    except (ValueError, RecursionError) as fault:
        raise Refused(f"{name} is no JSON: {fault}") from None
    if not isinstance(held, dict):
        raise Refused(f"{name} is no JSON object with keys, as {{\"cores\":2}}")
    for key in KEYS:
        number = held.get(key.name, key.default)
        # 1.0 and True are equal to 1, and no whole numbers of a configuration.
        if type(number) is not int or not key.least <= number <= key.most:
            raise Refused(f"{name}: {key.name} must be a whole number {range_of(key)}")
    return Configuration(held)


def read_file(path):
    """A configuration from its file."""
    try:
        with open(path, "rb") as file:
            text = file.read()
    except OSError as fault:
        raise Refused(f"the configuration {path!r}: {reason_of(fault)}") from None
    return read_text(text, f"the configuration {path!r}")


def rows():
    """Number, key, default, range and meaning of each key, as a table shows them."""
    for number, key in enumerate(KEYS, 1):
        yield str(number), key.name, str(key.default), range_of(key), key.meaning
