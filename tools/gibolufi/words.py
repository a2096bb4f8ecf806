"""The words of a command line, for all verbs."""
import re


class BadWord(Exception):
    """What the command line has wrong, in words: status 2."""


class Refused(Exception):
    """Why there is no answer though the words are good: status 1."""


def read_words(words, values=(), flags=()):
    """The options by name, from `--name value` and `--name=value`, and the other words in order.

    A flag has the value "".
    """
    found, others = {}, []
    words = iter(words)
    for word in words:
        name, is_joined, value = word.partition("=")
        if not word.startswith("-") or word == "-":
            others.append(word)
            continue
        if name[:2] != "--" or name[2:] not in (*values, *flags):
            raise BadWord(f"{word!r} is no option; --help lists them")
        if name[2:] in found:
            raise BadWord(f"{name} stands twice")
        if name[2:] in flags:
            if is_joined:
                raise BadWord(f"{name} takes no value")
        elif not is_joined:
            value = next(words, None)
            if value is None:
                raise BadWord(f"{name} has no value")
        found[name[2:]] = value
    return found, others


def no_others(others):
    """Refuses words that are no options."""
    if others:
        raise BadWord(f"{others[0]!r} is no option; --help lists them")


def whole_number(name, text, least, most):
    """The number that a word writes in decimal."""
    if not re.fullmatch(r"0|[1-9][0-9]{0,19}", text) or not least <= int(text) <= most:
        raise BadWord(f"{name}: {text!r} is no whole number from {least} to {most}")
    return int(text)


def counted(count, noun):
    """`1 act` or `5 acts`, with a comma each three digits."""
    return f"{count:,} {noun}" + ("" if count == 1 else "s")


def listed(words, last="and"):
    """`a`, `a and b`, or `a, b and c`."""
    words = list(words)
    if len(words) < 2:
        return "".join(words)
    return f"{', '.join(words[:-1])} {last} {words[-1]}"


def shown(text, most=60):
    """A line of a file for a message: its beginning, with no control bytes."""
    if isinstance(text, bytes):
        text = text.decode("ascii", "replace")
    text = text.rstrip("\n")
    return repr(text[:most] + ".." if len(text) > most else text)
