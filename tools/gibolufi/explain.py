"""What a status of the program means for the files at hand, in words."""
import re
import signal

from gibolufi import configuration, faults, images
from gibolufi.files import kind_of, line_of, why_unread, why_unwritten
from gibolufi.program import BY_NAME, COMMANDS, ROLES, words_line
from gibolufi.words import counted, listed

LIMITS = {"config": "65,536 bytes", "image": "33,554,432 bytes", "program": "33,554,432 bytes",
          "source": "134,217,728 bytes", "schedule": "67,108,864 events or 1,073,741,824 bytes",
          "order": "67,108,864 lines or 1,073,741,824 bytes", "report": "1,073,741,824 bytes"}


def explain(words, status, said):
    """Lines that say what an end means; `words` are the command and its options."""
    if status < 0:
        return [f"the program was ended from outside, by {signal_name(-status)}"]
    told = re.search(r"^conda: (.*)$", said, re.M)
    numbers = [int(it) for it in re.findall(r"\d+", told[1])] if told else []
    named = files_of(words)
    by_status = {2: lambda: usage(words), 3: lambda: unread(role_of(told), named),
                 4: lambda: unwritten(role_of(told), named), 5: lambda: bad_configuration(numbers, named),
                 6: lambda: bad_image(numbers, named), 7: lambda: bad_line(faults.SCHEDULE, "schedule", numbers, named),
                 8: lambda: too_large(told, named), 9: out_of_memory,
                 13: lambda: bad_line(faults.SOURCE, "source", numbers, named)}
    if status not in by_status:
        row = faults.find(faults.STATUSES, status)
        return [row.means] if row else [f"the program ended with {status}, which is none of its statuses"]
    if status != 2 and (not told or status != 9 and not numbers and status > 4):
        return [f"{faults.find(faults.STATUSES, status).means}"]
    return by_status[status]()


def signal_name(number):
    """A signal's name."""
    try:
        return signal.Signals(number).name
    except ValueError:
        return f"signal {number}"


def files_of(words):
    """The values of the options, by name."""
    found, rest = {}, iter(words[1:])
    for word in rest:
        name, is_joined, value = word.partition("=")
        found[name.lstrip("-")] = value if is_joined else next(rest, "")
    return found


def role_of(told):
    """The role that a line names last."""
    return told[1].split()[-1]


# Status 2.

def usage(words):
    """What is wrong with the words, and what they should be."""
    command = BY_NAME.get(words[0]) if words else None
    if not command:
        what = f"{words[0]!r} is no command" if words else "there is no command"
        return [f"{what}: it is one of {listed([it.name for it in COMMANDS], 'or')}"]
    return [wrong_word(command, words[1:]) or "the words aren't the command's", f"its words: {words_line(command)}"]


def wrong_word(command, words):
    """The first thing that is wrong with the options of a command."""
    options = {option.role: option for option in command.options}
    found, rest = {}, iter(words)
    for word in rest:
        name, is_joined, value = word.partition("=")
        if not name.startswith("--"):
            return f"{word!r} is no option: each file is named by its option"
        if name[2:] not in options:
            return f"{name} is no option of {command.name}"
        if not is_joined:
            value = next(rest, None)
        if name[2:] in found:
            return f"{name} stands twice"
        wrong = wrong_value(options[name[2:]], value)
        if wrong:
            return wrong
        found[name[2:]] = value
    missing = [f"--{it.role}" for it in command.options if it.is_needed and it.role not in found]
    if missing:
        return f"{listed(missing)} {'is' if len(missing) == 1 else 'are'} missing"
    return same_files(command, found)


def wrong_value(option, value):
    """What is wrong with an option's value, or ""."""
    name = f"--{option.role}"
    if value is None:
        return f"{name} has no value"
    if option.least is None:
        if not value:
            return f"{name} has an empty name"
        return f"{name}: a file's name can't begin with `-`; write ./{value}" if value.startswith("-") else ""
    is_number = re.fullmatch(r"0|[1-9][0-9]*", value)
    if is_number and option.least <= int(value) <= option.most:
        return ""
    return f"{name}: {value!r} is no whole number from {option.least} to {option.most}, without a sign or leading 0"


def same_files(command, found):
    """The two options that name one file, or ""."""
    by_name = {}
    for option in command.options:
        if option.least is None and option.role in found:
            other = by_name.setdefault(found[option.role], option.role)
            if other != option.role:
                return f"--{other} and --{option.role} name one file, {found[option.role]}"
    return ""


# Statuses 3, 4, 8 and 9.

def unread(role, named):
    """Why a file couldn't be read."""
    path = named.get(role, "")
    why = why_unread(path) or "reading it failed midway: it is a device, or it changed meanwhile"
    return [f"the {ROLES.get(role, role)} {path!r}: {why}"]


def unwritten(role, named):
    """Why a file couldn't be written."""
    path = named.get(role, "")
    why = why_unwritten(path) or "writing failed midway: the device is full, or nobody reads it any more"
    return [f"the {ROLES.get(role, role)} {path!r}: {why}", "each file that was created holds a front of its text"]


def too_large(told, named):
    """Which limit a file passes."""
    role = told[1].split()[0]
    lines = [f"the {ROLES.get(role, role)} {named.get(role, '')!r} passes its limit: at most {LIMITS.get(role, '')}"]
    if role == "schedule":
        lines.append("order and output are written up to there; cut the schedule, as by `gibolufi schedule --events N`")
    return lines + swapped(role, named)


def out_of_memory():
    """That memory is short."""
    row = faults.find(faults.STATUSES, 9)
    return [row.means, f"what to do: {row.remedy}"]


# Statuses 5, 6, 7 and 13.

def bad_configuration(numbers, named):
    """The key and its range, and what to do."""
    row = faults.find(faults.CONFIGURATION, numbers[0])
    if not row:
        return ["the configuration is refused"]
    lines = [f"the configuration {named.get('config', '')!r}: {row.means}{key_words(numbers)}",
             f"what to do: {row.remedy}"]
    if numbers[0] == 3:
        lines.append(f"the keys: {', '.join(configuration.NAMES)}")
    return lines + swapped("config", named)


def key_words(numbers):
    """The key that a fault holds, with its number and range, or memory's numbers."""
    fault, *held = numbers
    if fault in (4, 5) and held and 1 <= held[0] <= len(configuration.KEYS):
        key = configuration.KEYS[held[0] - 1]
        had = f" is {held[1]}, and" if len(held) > 1 else ""
        return f": {key.name}{had} must be a whole number {configuration.range_of(key)}"
    if fault == 6 and len(held) == 2:
        return f": mem_base {held[0]} + mem_bytes {held[1]} = {held[0] + held[1]}"
    return ""


def bad_image(numbers, named):
    """The rule of loading that is broken, and what to do."""
    row = faults.find(faults.IMAGE, numbers[0])
    role = "image" if "image" in named else "program"
    path = named.get(role, "")
    if not row:
        return ["the image is refused"]
    lines = [f"the image {path!r}: {row.means}{image_words(numbers, path)}", f"what to do: {row.remedy}"]
    if numbers[0] == 14:
        lines += memory_words(path)
    return lines + swapped(role, named)


def image_words(numbers, path):
    """What a rule of loading holds, in words."""
    fault, *held = numbers
    if not held:
        return ""
    if fault == 8:
        bits = ((1, "compressed instructions"), (6, "floats in registers"), (8, "only 16 registers"))
        return f": its flags say {listed([words for bit, words in bits if held[0] & bit])}"
    if fault == 10:
        return f": it has {held[0]}"
    if fault == 17:
        return f": it is 0x{held[0]:08x}"
    try:
        segment = images.Image(path).segments[held[0]]
    except (OSError, IndexError):
        return f": program header {held[0]}, counted from 0"
    return (f": program header {held[0]}, counted from 0, with {counted(segment.memsz, 'byte')} "
            f"at 0x{segment.address:08x}")


def memory_words(path):
    """A configuration whose memory holds all of an image."""
    try:
        memory = images.Image(path).memory()
    except OSError:
        memory = None
    if memory is None:
        return ["no configuration's memory (at most 67,108,864 bytes) holds all of it: link it with conda.ld"]
    numbers = f'{{"mem_base":{memory[0]},"mem_bytes":{memory[1]}}}'
    return [f"its segments, and stacks past them, lie in memory with {numbers}"]


def bad_line(table, role, numbers, named):
    """The line, why it is bad, and what to do."""
    number, why = numbers[:2]
    row = faults.find(table, why)
    path = named.get(role, "")
    text = line_of(path, number)
    lines = [f"the {role} {path!r}, line {number}{f' ({text})' if text else ''}: "
             f"{row.means if row else 'it is bad'}"]
    if row and row.remedy:
        lines.append(f"what to do: {row.remedy}")
    return lines + swapped(role, named)


# Files that stand in each other's places.

WANTED = {"config": "configuration", "image": "image", "program": "image", "schedule": "schedule",
          "order": "order", "report": "report"}


def swapped(role, named):
    """A line where a file looks like one for another role."""
    looks = kind_of(named.get(role, ""))
    if not looks or looks == WANTED.get(role):
        return []
    if looks == "C source":
        return [f"{named[role]!r} looks like a C source: `gibolufi kernel {named[role]}` compiles and runs it"]
    return [f"{named[role]!r} looks like {'an' if looks[0] in 'aeio' else 'a'} {looks}: were files swapped?"]
