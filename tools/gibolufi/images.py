"""What an ELF file says of itself, as far as messages need it."""
import struct
from collections import namedtuple

Segment = namedtuple("Segment", "kind offset address filesz memsz flags")
LOAD = 1
MOST_BYTES = 67108864
# Stacks lie past the segments; memory is told in whole MiB.
STACKS, MIB = 1 << 16, 1 << 20


class Image:
    """The header and the program headers of a 32-bit little-endian ELF file; what is missing is 0."""

    def __init__(self, path):
        with open(path, "rb") as file:
            held = file.read(1 << 16)
        held += bytes(52 - min(52, len(held)))
        self.kind, self.machine = struct.unpack_from("<HH", held, 16)
        self.entry, table = struct.unpack_from("<II", held, 24)
        self.flags = struct.unpack_from("<I", held, 36)[0]
        count = struct.unpack_from("<H", held, 44)[0]
        self.segments = []
        for at in range(table, table + 32 * count, 32):
            if at + 32 > len(held):
                break
            kind, offset, address, _, filesz, memsz, flags, _ = struct.unpack_from("<8I", held, at)
            self.segments.append(Segment(kind, offset, address, filesz, memsz, flags))

    def loaded(self):
        """The segments that are loaded."""
        return [it for it in self.segments if it.kind == LOAD and (it.memsz or it.filesz)]

    def memory(self):
        """A base and a size of memory that hold all segments, and stacks past them; None where none do."""
        loaded = self.loaded()
        if not loaded:
            return None
        first = min(it.address for it in loaded) // 4096 * 4096
        end = max(it.address + it.memsz for it in loaded)
        # A program from a low address on has memory from 0 on.
        base = 0 if first < MIB else first
        size = (end + STACKS - base + MIB - 1) // MIB * MIB
        return (base, size) if size <= MOST_BYTES and base + size <= 1 << 32 else None
