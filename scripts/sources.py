"""What scripts read of the repository: its crates, in the order of docs/ARCHITECTURE.md, the definitions of specs/, and
the numbers in scripts/house_limits."""
import os
import re
import sys
from collections import namedtuple

TOP = os.path.normpath(os.path.join(os.path.dirname(os.path.abspath(__file__)), ".."))
LIMITS = "scripts/house_limits"

# A group of crates has a title, and each crate a sentence.
Group = namedtuple("Group", "title crates")
Crate = namedtuple("Crate", "name has")
# A page of specs/ is a comment, and then sections, each with a title ("" for the first) and its definitions.
Page = namedtuple("Page", "crate name path comment sections")
Section = namedtuple("Section", "title definitions")
# `kind` is record, data or value; `head` what stands before the first equation or field, on one line.
Definition = namedtuple("Definition", "name kind head comment body")

OPENS_DEFINITION = re.compile(r"(?:abbrev |unfoldable )?pub (?:(record|data) )?(\S+)")
SECTION = "-- ----"


def read(path):
    """The text of a file of the repository."""
    with open(os.path.join(TOP, path), encoding="utf-8") as file:
        return file.read()


def crates_below():
    """For each crate of crates.txt those of the repository that it stands on."""
    named = {}
    for line in read("crates.txt").splitlines():
        name, colon, below = line.partition("#")[0].partition(":")
        if colon:
            named[name.split()[0]] = below.split()
    return {name: [it for it in below if it in named] for name, below in named.items()}


def layers():
    """For each crate of crates.txt how many stand below it in the longest chain."""
    below, found = crates_below(), {}

    def layer(name):
        if name not in found:
            found[name] = 1 + max((layer(it) for it in below[name]), default=-1)
        return found[name]

    for name in below:
        layer(name)
    return found


def groups():
    """The crates as the tables of docs/ARCHITECTURE.md have them; the title is the line above a table."""
    found, title, rows = [], "", []
    part = read("docs/ARCHITECTURE.md").partition("\n## Crates\n")[2].partition("\n## ")[0]
    for line in part.splitlines() + [""]:
        cells = [it.strip() for it in line.strip().strip("|").split("|")]
        if line.startswith("| `") and len(cells) >= 2:
            rows.append(Crate(cells[0].strip("`"), cells[1]))
        elif not line.startswith("|") and rows:
            found.append(Group(title, rows))
            rows = []
        if line and not line.startswith("|"):
            title = line.rstrip(":")
    return found


def misplaced_crates():
    """What crates.txt and docs/ARCHITECTURE.md don't both have, as sentences."""
    told = [crate.name for group in groups() for crate in group.crates]
    listed = crates_below()
    missing = [f"docs/ARCHITECTURE.md has no row for {it}" for it in listed if it not in told]
    gone = [f"docs/ARCHITECTURE.md has a row for {it}, which crates.txt hasn't" for it in told if it not in listed]
    return missing + gone + [f"docs/ARCHITECTURE.md has {it} twice" for it in set(told) if told.count(it) > 1]


def page_names(crate):
    """The pages of a crate's specs/ in the order of its Lib.antt."""
    path = f"crates/{crate}/specs/Lib.antt"
    if not os.path.exists(os.path.join(TOP, path)):
        return []
    return re.findall(r"^(?:pub )?mod (\w+)$", read(path), re.MULTILINE)


def pages(crate):
    """The pages of a crate's specs/."""
    return [page_of(crate, name) for name in page_names(crate)]


def page_of(crate, name):
    """One page, with the public definitions that it has."""
    path = f"crates/{crate}/specs/{name}.antt"
    blocks = [it.splitlines() for it in re.split(r"\n\s*\n", read(path)) if it.strip()]
    comment, sections = [], [Section("", [])]
    for place, block in enumerate(blocks):
        above = [line for line in block if line.startswith("--")]
        if place == 0:
            comment = above
        elif block[0].startswith(SECTION):
            sections.append(Section(block[0][len(SECTION):].strip(), []))
        else:
            sections[-1].definitions.extend(definitions_in(block))
    return Page(crate, name, path, joined(comment), [it for it in sections if it.definitions])


def joined(comment):
    """The lines of a comment as one text."""
    return " ".join(line[2:].strip() for line in comment).strip()


def definitions_in(block):
    """The public definition of a block of lines, in a list, which is empty where it has none."""
    comment = [line for line in block if line.startswith("--")]
    lines = [line for line in block if not line.startswith(("--", "infix"))]
    opens = OPENS_DEFINITION.match(lines[0]) if lines else None
    if not opens:
        return []
    kind = opens.group(1) or "value"
    heads = 1
    while heads < len(lines) and lines[heads].startswith(" ") and not is_member(kind, lines[heads]):
        heads += 1
    head = " ".join(line.strip() for line in lines[:heads])
    return [Definition(opens.group(2), kind, head, joined(comment), lines[heads:])]


def is_member(kind, line):
    """A line begins a field of a record or a constructor of a data type."""
    return kind != "value" and re.match(r"  (pub )?«?[\w◌]+»?( [\w]+)* :", line) is not None


def limits(rule):
    """How often a rule may be broken, by file, as scripts/house_limits has it."""
    found = {}
    if os.path.exists(os.path.join(TOP, LIMITS)):
        for line in read(LIMITS).splitlines():
            if line and not line.startswith("#"):
                named, count, path = line.split()
                if named == rule:
                    found[path] = int(count)
    return found


def passed_limits(rule, counts, told):
    """A sentence for each file that breaks a rule more often than it may; `told` says what is counted."""
    allowed = limits(rule)
    return [f"{path}: {count} {told}, and {allowed.get(path, 0)} may stand ({LIMITS})"
            for path, count in sorted(counts.items()) if count > allowed.get(path, 0)]


def write_or_check(made, is_check, script):
    """Writes the texts of files by their paths; for a check it writes none, and says which aren't as they are."""
    old = [path for path, text in made.items()
           if not os.path.exists(os.path.join(TOP, path)) or read(path) != text]
    if is_check:
        return [f"{path} isn't up to date: run {script}" for path in old]
    for path in old:
        with open(os.path.join(TOP, path), "w", encoding="utf-8") as file:
            file.write(made[path])
        print(f"{script}: wrote {path}")
    return []


def said(script, sentences):
    """Prints what is wrong, and answers the status."""
    for sentence in sentences:
        print(f"{script}: {sentence}", file=sys.stderr)
    return 1 if sentences else 0


def asked(script, words):
    """Whether the words ask for a check; it ends the program where they ask for something else."""
    if words not in ([], ["--check"]):
        print(f"{script}: it takes no word but --check", file=sys.stderr)
        sys.exit(2)
    return words == ["--check"]
