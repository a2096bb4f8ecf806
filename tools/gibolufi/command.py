"""`gibolufi VERB ..`: the verbs, and what is said where one can't be done."""
import importlib
import os
import shutil
import subprocess
import sys

from gibolufi import VERSION, places, program
from gibolufi.words import BadWord, Refused

# The tool's own verbs: each has a module of its name in verbs/.
VERBS = {
    "kernel": "compiles C files, runs them, and shows how it ended",
    "schedule": "writes a schedule",
    "timeline": "makes a page, a picture, a trace or totals of a run",
    "examples": "builds and runs the C programs of examples/",
    "first-look": "runs a small example by the unproved program, and explains it",
    "faults": "prints each status, fault and cause in words",
}


def usage():
    """The help of the whole."""
    lines = ["gibolufi VERB ..     (gibolufi VERB --help tells a verb's words)", "", "The tool's verbs:"]
    lines += [f"  {name:12}{words}" for name, words in VERBS.items()]
    lines += ["", "The program's commands, whose words are handed on:"]
    lines += [f"  {command.name:12}{command.meaning}" for command in program.COMMANDS]
    lines += ["", "  --help      this", "  --version   the versions of the tool, the program and the toolchain"]
    return "\n".join(lines)


def module_of(verb):
    """The module of a verb."""
    return importlib.import_module("gibolufi.verbs." + verb.replace("-", "_"))


def dispatch(words):
    """Does what the words ask for; the exit status."""
    if not words:
        raise BadWord("a verb is needed; --help lists them")
    verb, rest = words[0], words[1:]
    asks_help = bool(rest) and rest[0] in ("--help", "-h")
    if verb in ("--help", "-h", "help"):
        print(usage())
    elif verb == "--version":
        print(versions())
    elif verb in VERBS:
        if not asks_help:
            return module_of(verb).main(rest)
        print(module_of(verb).USAGE)
    elif verb in program.BY_NAME:
        passed = module_of("passed")
        if not asks_help:
            return passed.main(words)
        print(passed.help_of(program.BY_NAME[verb]))
    else:
        raise BadWord(f"{verb!r} is no verb; --help lists them")
    return 0


def versions():
    """The versions of tool, program and toolchain, a line each."""
    lines = [f"gibolufi {VERSION}, Python {sys.version.split()[0]}"]
    try:
        path = program.find()
        state = "UNPROVED" if program.is_unproved(path) else "given by CONDA" if os.environ.get(
            places.VARIABLE) else "proved by scripts/build" if places.IS_CHECKOUT else "installed"
        lines.append(f"program {path} ({state})")
    except Refused as fault:
        lines.append(f"program: {fault}")
    lines.append(f"toolchain {toolchain()}")
    return "\n".join(lines)


def toolchain():
    """The toolchain's own line."""
    if not shutil.which("rt"):
        return "missing: there is no rt among the commands"
    ran = subprocess.run(["rt", "version"], stdin=subprocess.DEVNULL, capture_output=True, check=False)
    return ran.stdout.decode(errors="replace").strip() or "unknown"


def main(words):
    """The exit status: 2 for a bad word, 1 where there is no answer; one clear line says why."""
    who = f"gibolufi {words[0]}" if words and (words[0] in VERBS or words[0] in program.BY_NAME) else "gibolufi"
    try:
        status = dispatch(words)
        sys.stdout.flush()
        return status
    except BrokenPipeError:
        os.dup2(os.open(os.devnull, os.O_WRONLY), sys.stdout.fileno())
        return 1
    except KeyboardInterrupt:
        print(f"{who}: stopped", file=sys.stderr)
        return 130
    except (BadWord, Refused) as fault:
        print(f"{who}: {fault}", file=sys.stderr)
        return 2 if isinstance(fault, BadWord) else 1
    except OSError as fault:
        where = f"{fault.filename}: " if fault.filename else ""
        print(f"{who}: {where}{fault.strerror or fault}", file=sys.stderr)
        return 1
    except MemoryError:
        print(f"{who}: there is too little memory", file=sys.stderr)
        return 1
