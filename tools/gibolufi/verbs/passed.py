"""The program's own commands: its words are handed on, and what an end means is said in words."""
import sys

from gibolufi import program
from gibolufi.explain import explain


def help_of(command):
    """A command's help."""
    return (f"{program.words_line(command)}\n\n{command.meaning.capitalize()}. These are the program's own "
            "words: they are handed on as they are.\nAn option may be written as one word, --name=F. Where the "
            "program ends with a status that isn't 0,\nwhat it means for these files is said below its own line. "
            "CONDA names another program.")


def main(words):
    """Runs a command of the program."""
    path = program.find()
    program.warn_if_unproved(path)
    status, said = program.run(path, words)
    sys.stderr.write(said)
    if status:
        for line in explain(words, status, said):
            print(f"gibolufi: {line}", file=sys.stderr)
    return status if status >= 0 else 128 - status
