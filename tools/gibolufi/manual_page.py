"""The man page, made of the verbs' own help."""
from gibolufi import VERSION, command, program
from gibolufi.verbs import passed


def escaped(text):
    """Text as troff takes it."""
    lines = text.replace("\\", "\\e").replace("-", "\\-").split("\n")
    return "\n".join("\\&" + line if line[:1] in (".", "'") else line for line in lines)


def as_troff():
    """The text of gibolufi(1)."""
    parts = [f'.TH GIBOLUFI 1 "" "gibolufi {VERSION}"\n', ".SH NAME\n",
             "gibolufi \\- a verified near\\-data simulator, from a C file to an answer\n",
             ".SH SYNOPSIS\n.B gibolufi\n.I VERB\n\\&..\n",
             ".SH DESCRIPTION\n.nf\n", escaped(command.usage()), "\n.fi\n"]
    for verb in command.VERBS:
        parts += [f".SH {verb.upper()}\n.nf\n", escaped(command.module_of(verb).USAGE), "\n.fi\n"]
    for it in program.COMMANDS:
        parts += [f".SH {it.name.upper()}\n.nf\n", escaped(passed.help_of(it)), "\n.fi\n"]
    parts += [".SH ENVIRONMENT\n.TP\n.B CONDA\nnames the simulator in place of the installed one.\n"]
    return "".join(parts)
