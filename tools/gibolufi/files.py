"""Files that can't be used, in words, and what a file looks like."""
import errno
import os
import re

from gibolufi.words import shown

REASONS = {
    errno.ENOENT: "there is no such file",
    errno.EISDIR: "it is a directory",
    errno.EACCES: "there is no right to it",
    errno.EPERM: "there is no right to it",
    errno.ENOTDIR: "a part of its path is no directory",
    errno.ENOSPC: "the disk is full",
    errno.ENAMETOOLONG: "its name is too long",
    errno.ELOOP: "its links go round in a circle",
    errno.EROFS: "the file system takes no changes",
}
# So much of a file is looked at to see what it is.
FRONT = 4096
ENTRY = re.compile(rb"(?:[swolpfk] [0-7]|[-x] [hn][0-7]|[cr] [0-3] [1-9][0-9]* [1-7])")


def reason_of(fault):
    """The system's cause of an OSError."""
    return REASONS.get(fault.errno) or fault.strerror or str(fault)


def why_unread(path):
    """Why a file can't be read; "" where it can."""
    try:
        with open(path, "rb") as file:
            file.read(1)
    except OSError as fault:
        return reason_of(fault)
    return ""


def why_unwritten(path):
    """Why a file can't be written, as far as can be seen without writing; "" where nothing is seen."""
    folder = os.path.dirname(path) or "."
    if os.path.isdir(path):
        return "it is a directory"
    if not os.path.isdir(folder):
        return f"there is no directory {folder}"
    if not os.access(path if os.path.exists(path) else folder, os.W_OK):
        return "there is no right to write there"
    try:
        left = os.statvfs(folder)
    except OSError as fault:
        return reason_of(fault)
    return "" if left.f_bavail else "the disk is full"


def kind_of(path):
    """What a file looks like: the role that it would be good for, or ""."""
    try:
        with open(path, "rb") as file:
            front = file.read(FRONT)
    except OSError:
        return ""
    if front.startswith(b"\x7fELF"):
        return "image"
    if front.lstrip()[:1] == b"{":
        return "configuration"
    lines = [line for line in front.replace(b"\r", b"").split(b"\n") if line][:20]
    if lines and re.fullmatch(rb"events \d+", lines[0]):
        return "report"
    if lines and re.fullmatch(rb"[hn][0-9] [0-9]+", lines[0]):
        return "schedule"
    if lines and ENTRY.fullmatch(lines[0]):
        return "order"
    if any(re.match(rb"\s*(#\s*include|int |void |//|/\*)", line) for line in lines):
        return "C source"
    return ""


def line_of(path, number):
    """A line of a file, counted from 1, as a message shows it; "" where it can't be read."""
    try:
        with open(path, "rb") as file:
            for at, line in enumerate(file, 1):
                if at == number:
                    return shown(line)
    except OSError:
        pass
    return ""
