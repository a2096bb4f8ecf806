"""C files as an image for the simulator, and what addresses of the image say about them."""
import os
import re
import shutil
import subprocess

from gibolufi import places
from gibolufi.words import BadWord, Refused, listed

GCC = "riscv64-unknown-elf-gcc"
PACKAGES = {GCC: "gcc-riscv64-unknown-elf and binutils-riscv64-unknown-elf", "clang": "clang and lld",
            "picolibc": "picolibc-riscv64-unknown-elf", "cc": "gcc"}
FLAGS = ("-O2", "-g", "-Wall", "-Wextra")
ARCHITECTURE, ABI = "rv32ima", "ilp32"
# What a linker says, and what that means here.
HINTS = (
    (r"undefined reference to `main'|undefined symbol: main",
     "the program has no main; a hart begins there: `MAIN(hart, harts)` or `int main(void)`"),
    (r"undefined (?:reference to `|symbol: )(__atomic|__sync)\w*",
     "atomics on bytes and halves and compare-and-exchange aren't there: use word atomics, as __atomic_fetch_add"),
    (r"undefined (?:reference to `|symbol: )(printf|puts|malloc|free|strlen|strcmp|snprintf|sprintf|putchar|exit|abort|"
     r"calloc|realloc|strcpy|rand|qsort|fprintf)\b", "that is of the C library: add --libc"),
    (r"undefined (?:reference to `|symbol: )(__(?:u?div|u?mod|mul|add|sub|float|fix|extend|trunc|eq|ne|lt|gt|le|ge|"
     r"ashl|ashr|lshr|clz|ctz|popcount)\w*)",
     "that is arithmetic that the compiler's own library has, and clang's is missing: use gcc (Debian: "
     "gcc-riscv64-unknown-elf)"),
    (r"conda\.h: No such file|'conda\.h' file not found",
     "conda.h is found by `gibolufi kernel` itself: include \"conda.h\""),
    (r"(?:stdio|stdlib|string|errno|math)\.h: No such file|'(?:stdio|stdlib|string|errno|math)\.h' file not found",
     "that header is of the C library: add --libc"),
    (r"passing argument 2 of .launch. from incompatible|to parameter of type 'kernel_entries'",
     "a kernel is launched by its entries: launch(core, NAME_entries, argument)"),
    (r"reach past memory_end", "raise `mem_bytes`, or make stacks and arrays smaller"),
)


def is_there(command):
    """Whether a command is among those of this machine."""
    return shutil.which(command) is not None


class Compiler:
    """gcc, or clang where there is no gcc."""

    def __init__(self, named=None):
        if named not in (None, "gcc", "clang"):
            raise BadWord(f"--compiler: {named!r} is neither gcc nor clang")
        self.name = named or ("gcc" if is_there(GCC) else "clang")
        needed = [GCC] if self.name == "gcc" else ["clang", "ld.lld"]
        missing = [it for it in needed if not is_there(it)]
        if missing:
            raise Refused(f"there is no {listed(missing)}: install {PACKAGES[GCC]}" +
                          (f", or {PACKAGES['clang']}" if not named else "") + " (apt-get install)")
        self.words = [GCC] if self.name == "gcc" else ["clang", "--target=riscv32-unknown-elf", "-fuse-ld=lld"]

    def library(self):
        """The words for a C library."""
        specs = self.specs()
        if not specs:
            why = f"install {PACKAGES['picolibc']}" if self.name == "gcc" else f"use gcc, with {PACKAGES['picolibc']}"
            raise Refused(f"--libc: there is no picolibc for {self.name}: {why} (apt-get install)")
        return ["--specs=picolibc.specs", "-nostartfiles", c_file("libc_port.c")]

    def specs(self):
        """The file of picolibc's words, or "" where there is none."""
        if self.name != "gcc":
            return ""
        said = subprocess.run([*self.words, "-print-file-name=picolibc.specs"], capture_output=True, text=True,
                              check=False).stdout.strip()
        return said if os.path.isabs(said) and os.path.isfile(said) else ""

    def compile(self, sources, image, with_library=False, symbols=(), flags=FLAGS, architecture=ARCHITECTURE):
        """Makes the image; what the compiler said. Refuses where it fails."""
        words = [*self.words, *flags, f"-march={architecture}", f"-mabi={ABI}", "-static", "-T", c_file("conda.ld"),
                 "-Wl,--no-relax", *[f"-Wl,--defsym={name}={number}" for name, number in symbols],
                 "-I", places.C_SIDE, "-o", image, c_file("start.S")]
        if with_library:
            words += [*sources, *self.library()]
        else:
            words += ["-ffreestanding", "-nostdlib", *sources, c_file("memory.c")]
            words += ["-lgcc"] if self.name == "gcc" else []
        ran = subprocess.run(words, stdin=subprocess.DEVNULL, capture_output=True, text=True, errors="replace",
                             check=False)
        if ran.returncode:
            raise Refused(f"the program doesn't compile:\n{(ran.stdout + ran.stderr).rstrip()}{hints(ran.stderr)}")
        return ran.stderr + hints(ran.stderr).lstrip("\n") + ("\n" if hints(ran.stderr) else "")

    def tool(self, name):
        """A tool of the compiler's: nm or addr2line, or "" where it is missing."""
        for found in (f"riscv64-unknown-elf-{name}", f"llvm-{name}", f"{name}"):
            if is_there(found):
                return found
        return ""


def c_file(name):
    """The path of a file of the C side."""
    return os.path.join(places.C_SIDE, name)


def hints(said):
    """What to do about what a compiler said."""
    found = [hint for pattern, hint in HINTS if re.search(pattern, said)]
    return "".join(f"\n  what to do: {hint}" for hint in found)


def symbols_of(compiler, image, names):
    """The addresses of symbols of an image, by name; a missing one is left out."""
    tool = compiler.tool("nm")
    if not tool:
        return {}
    said = subprocess.run([tool, image], capture_output=True, text=True, check=False).stdout
    found = {}
    for line in said.splitlines():
        parts = line.split()
        if len(parts) == 3 and parts[2] in names:
            found[parts[2]] = int(parts[0], 16)
    return found


def place_of(compiler, image, address):
    """The function and source line of an address, or "" where nothing tells them."""
    tool = compiler.tool("addr2line")
    if not tool:
        return ""
    words = [tool, "-f", "-e", image, f"0x{address:x}"]
    said = subprocess.run(words, capture_output=True, text=True, check=False).stdout.splitlines()
    if len(said) < 2 or said[0] == "??" and said[1].startswith("??"):
        return ""
    path = re.sub(r" \(discriminator \d+\)", "", said[1])
    path = "" if path.startswith("??") else f" at {os.path.relpath(path) if os.path.isabs(path) else path}"
    return f"in {said[0]}{path}"
