"""What each status, fault and cause says, in words: the one table of them.

`gibolufi faults` prints it, docs/MANUAL.md shows it, and messages are made of it. A test compares
its numbers with the program's sources.
"""
from collections import namedtuple

Fault = namedtuple("Fault", "number name means remedy")

STATUSES = (
    Fault(0, "Done", "all of the command was done; a schedule was run to its end", ""),
    Fault(2, "Usage", "the words aren't those of a command", "compare them with the command's words"),
    Fault(3, "ReadFault", "a file couldn't be opened or read", "see the file's name and the system's cause"),
    Fault(4, "WriteFault", "a file couldn't be created or written",
          "see the file's name and the system's cause"),
    Fault(5, "Config", "the configuration is refused", "see the table of its faults"),
    Fault(6, "Image", "the image is refused", "see the table of its faults"),
    Fault(7, "Schedule", "a line of the schedule is bad; order and output are written up to there",
          "see the table of its faults"),
    Fault(8, "TooLarge", "a file passes its limit", "make it smaller"),
    Fault(9, "OutOfMemory", "there is too little memory; no file was created",
          "end other programs, or make `mem_bytes`, `harts`, `cores` or `trace_last` smaller"),
    Fault(13, "Syntax", "a line of a text is bad", "see the table of its faults"),
)
CONFIGURATION = (
    Fault(1, "NotJson", "the file is no JSON text",
          'write one object, as {"cores":2}: names in double quotes, no comma before the brace'),
    Fault(2, "NotObject", "the JSON value is no object", 'write one object, as {"cores":2}, or {} for the plain chip'),
    Fault(3, "UnknownKey", "a key isn't one of the sixteen", "take the key away, or spell it as the manual does"),
    Fault(4, "NotNumber", "the value of this key is no whole number",
          "write a number without quotes, point or exponent"),
    Fault(5, "OutOfRange", "the number of this key is out of its range", "take a number of the range"),
    Fault(6, "BadMemory", "memory ends past 4294967296, or isn't whole lines",
          "make `mem_base` + `mem_bytes` at most 4294967296, and both multiples of `line_bytes`"),
)
IMAGE = (
    Fault(1, "Short", "the file is shorter than an ELF header", "name the linked program"),
    Fault(2, "NotElf", "the file doesn't begin as an ELF file", "name the linked program, not its source"),
    Fault(3, "NotClass32", "it is no 32-bit file",
          "compile for RISC-V of 32 bits: riscv64-unknown-elf-gcc -march=rv32ima -mabi=ilp32"),
    Fault(4, "NotLittle", "its bytes aren't in little-endian order", "compile without -mbig-endian"),
    Fault(5, "BadVersion", "its ELF version isn't 1", "link it with a stock linker"),
    Fault(6, "NotExec", "it is no static executable: an object file, or position-independent",
          "link it: -static -no-pie, without -c and -shared"),
    Fault(7, "NotRiscv", "it is for another machine than RISC-V",
          "compile by riscv64-unknown-elf-gcc, or clang --target=riscv32-unknown-elf"),
    Fault(8, "BadFlags", "it uses compressed instructions, floats in registers, or 16 registers",
          "compile with -march=rv32im or rv32ima and -mabi=ilp32, the library too"),
    Fault(9, "BadHeaderSize", "its headers aren't of their size", "link it with a stock linker"),
    Fault(10, "TooManySegments", "it has more than 64 program headers", "use the linker script conda.ld"),
    Fault(11, "TableOutside", "its program headers don't lie in the file", "the file is cut: link it again"),
    Fault(12, "Dynamic", "it asks for a dynamic linker", "link it with -static -no-pie"),
    Fault(13, "BadSegment", "a segment has more bytes in the file than in memory, or past the file's end",
          "the file is cut: link it again"),
    Fault(14, "SegmentOutside", "a segment doesn't lie in memory",
          "set `mem_base` and `mem_bytes`, or link with conda.ld, which begins at 0x10000"),
    Fault(15, "Overlap", "two segments share an address", "use the linker script conda.ld"),
    Fault(16, "NoSegment", "nothing in it is to be loaded", "link it, with a main or _start"),
    Fault(17, "BadEntry", "its entry isn't a multiple of 4 in one executable segment",
          "give the linker ENTRY(_start), as conda.ld does, and link start.S"),
)
SCHEDULE = (
    Fault(1, "Syntax", "the line isn't an actor, one space and a count", "write lines as `h0 6` or `n0 6`"),
    Fault(2, "Count", "the count begins with 0 or is above 67108864", "write 1 to 67108864 without a leading 0"),
    Fault(3, "NoSuchActor", "the configuration has no such hart or core",
          "set `harts` or `cores`, or name one that is there; they are counted from 0"),
    Fault(4, "LineTooLong", "the line has more than 32 bytes", "write lines as `h0 6`"),
)
SOURCE = (
    Fault(1, "Form", "the line isn't of a statement's form", "write as `addi x5,x5,-1`, registers as x5"),
    Fault(2, "Range", "a number or an offset is out of its field's range", "take a number of the field's range"),
    Fault(3, "Label", "its label stands on an earlier line too, or no line has the label that it names",
          "give each label to one line"),
    Fault(4, "At", "its .at isn't the first statement, is no multiple of 4, or is too large",
          "write one .at, as the first statement"),
    Fault(5, "Words", "there are too many words", "a program has at most 4194304 words, which end by 4294967296"),
    Fault(6, "Empty", "the text makes no word", "write an instruction"),
)
ENDS = (
    Fault(1, "Done", "the kernel was done", ""),
    Fault(2, "Trapped", "the kernel trapped", "see the table of traps"),
    Fault(3, "Acts", "the portion has `portion_max` instructions", "raise `portion_max` for longer portions"),
    Fault(4, "SetFull", "a set of the core's cache is full", "raise `core_ways` or `core_sets`"),
    Fault(5, "ReadFull", "the portion has read `read_limit` lines", "raise `read_limit`, or `sig_bits` with it"),
    Fault(6, "WriteFull", "the portion has stored to `write_limit` lines",
          "raise `write_limit`, or `sig_bits` with it"),
    Fault(7, "OutFull", "the portion has put `out_max` bytes", "raise `out_max`"),
)
TRAPS = (
    Fault(0, "FetchAlign", "pc, or the target of a jump or branch, is no multiple of 4",
          "a pointer to a function is wrong, or the image has compressed instructions"),
    Fault(1, "Fetch", "pc isn't in an executable segment",
          "a pointer to a function or a return address is wrong: look for a stack that is too small"),
    Fault(2, "Illegal", "the word is no instruction of RV32IM or of the nine word atomics",
          "no lr and sc (compare-and-exchange), no floats, no compressed instructions"),
    Fault(3, "Breakpoint", "an ebreak was executed", "the program itself asked to stop, as __builtin_trap does"),
    Fault(4, "LoadAlign", "the address of a load is no multiple of its size", "align the pointer"),
    Fault(5, "Load", "the address of a load isn't wholly in memory", "look at the pointer, or raise `mem_bytes`"),
    Fault(6, "StoreAlign", "the address of a store or atomic is no multiple of its size", "align the pointer"),
    Fault(7, "Store", "the address of a store or atomic isn't wholly in memory",
          "look at the pointer, or raise `mem_bytes`"),
    Fault(8, "Call", "the number in x17 is none of the calls that this hart or kernel may make",
          "harts: 93, 1000 to 1003; kernels: 1003 and 1004"),
)
# Each table with its title, and the number that it stands behind.
TABLES = (
    ("Statuses of the program", "status", STATUSES),
    ("A configuration's faults (status 5)", "fault", CONFIGURATION),
    ("An image's faults (status 6)", "fault", IMAGE),
    ("A schedule's faults (status 7)", "fault", SCHEDULE),
    ("A source's faults (status 13)", "fault", SOURCE),
    ("What ends a portion (in the order)", "cause", ENDS),
    ("Traps (in the report)", "cause", TRAPS),
)


def find(table, number):
    """The row of a number, or None."""
    return next((row for row in table if row.number == number), None)


def as_text():
    """All tables as text."""
    parts = []
    for title, what, table in TABLES:
        parts.append(f"{title}\n")
        for row in table:
            parts.append(f"  {what} {row.number:2}  {row.means}\n")
            if row.remedy:
                parts.append(f"  {' ' * len(what)}     -> {row.remedy}\n")
        parts.append("\n")
    return "".join(parts).rstrip("\n") + "\n"


def as_markdown():
    """All tables as the manual shows them."""
    parts = []
    for title, what, table in TABLES:
        parts.append(f"### {title}\n\n| {what.capitalize()} | Means | What to do |\n|---|---|---|\n")
        parts += [f"| {row.number} | {row.means} | {row.remedy} |\n" for row in table]
        parts.append("\n")
    return "".join(parts).rstrip("\n") + "\n"
