"""The table of statuses, faults and causes against the program's sources, and the manual's copy of it."""
import glob
import os
import re
import unittest

from gibolufi import configuration, faults, places, program
from tests.common import done

MANUAL = os.path.join(places.TOP, "docs", "MANUAL.md")


def text_of(*patterns):
    """The text of the files of crates/ that have these patterns."""
    paths = sorted(path for pattern in patterns for path in glob.glob(os.path.join(places.TOP, "crates", pattern)))
    parts = []
    for path in paths:
        with open(path, encoding="utf-8") as file:
            parts.append(file.read())
    return "\n".join(parts)


def numbers(text, pattern):
    """Number by name of what a pattern finds, but for want of memory, whose number is 0."""
    return {name: int(number) for name, number in re.findall(pattern, text) if name != "OutOfMemory" or number != "0"}


def named(table):
    """Number by name of a table's rows."""
    return {row.name: row.number for row in table}


@unittest.skipUnless(places.IS_CHECKOUT, "the sources are in a checkout")
class Sources(unittest.TestCase):
    """No number of the program is missing from the table, and none stands there that the program hasn't."""

    def test_statuses(self):
        text = text_of("*/specs/*.antt")
        self.assertEqual(numbers(text, r"status_code \(?status\.(\w+)[^=\n]*= (\d+)"), named(faults.STATUSES))

    def test_faults_of_configuration_and_image(self):
        text = text_of("*/specs/*.antt")
        for name, table in (("config", faults.CONFIGURATION), ("image", faults.IMAGE)):
            pattern = rf"{name}_fault_number \(?\w*fault\.(\w+)[^=\n]*= (\d+)"
            self.assertEqual(numbers(text, pattern), named(table))

    def test_faults_of_a_schedule(self):
        text = text_of("schedule_log/src/line.rt")
        names = {"SYNTAX": "Syntax", "COUNT": "Count", "NO_SUCH_ACTOR": "NoSuchActor", "TOO_LONG": "LineTooLong"}
        found = {names[name]: int(number) for name, number in re.findall(r"const (\w+): u8 = (\d+);", text)}
        self.assertEqual(found, named(faults.SCHEDULE))

    def test_faults_of_a_source(self):
        text = text_of("rv32_asm/specs/Assembled.antt")
        causes = re.search(r"^why_of source p line =\n +first_of 1 \(\n(.*?)\[\]\)", text, re.M | re.S)[1]
        last = int(re.search(r"; (\d+), there is no word at the end", text)[1])
        count = len(re.findall("∷", causes))
        self.assertEqual([*range(1, count + 1), last], [row.number for row in faults.SOURCE])

    def test_causes_that_end_a_portion(self):
        text = text_of("try_runs/specs/*.antt")
        found = [int(number) for number in re.findall(r"[(](?:is_|n ==)[^\n]*, (\d+)\)$", text, re.M)]
        self.assertEqual(sorted(found), [row.number for row in faults.ENDS])

    def test_causes_of_traps(self):
        text = text_of("rv32_hart/specs/Act.antt", "offload_calls/specs/Calls.antt")
        pairs = re.findall(r"trapped (\d+) |cause = (\d+)", text)
        found = {int(number) for pair in pairs for number in pair if number}
        aligned = {int(number) for number in re.findall(r"checked code (\d+) ", text)}
        found |= aligned | {number + 1 for number in aligned}
        self.assertEqual(found, {row.number for row in faults.TRAPS})

    def test_the_keys_of_the_configuration(self):
        text = text_of("chip_config/src/keys.rt").replace("_", "")
        entries = re.findall(r'name: "(\w+)",\s*default: (\d+),\s*range: Range::(\w+)\(?([\d, ]*)\)?', text)
        wanted = [(key.name.replace("_", ""), str(key.default)) for key in configuration.KEYS]
        self.assertEqual([entry[:2] for entry in entries], wanted)
        for key, (_, _, form, held) in zip(configuration.KEYS, entries):
            bounds = [int(number) for number in re.findall(r"\d+", held)]
            least, most = bounds if len(bounds) == 2 else (1, *bounds) if bounds else (32, 128)
            self.assertEqual((key.least, key.most), (least, most), key.name)
            self.assertEqual(key.form == configuration.MULTIPLE, form == "MultipleOf64", key.name)
            self.assertEqual(key.form == configuration.POWER, form == "PowerUpTo", key.name)

    def test_the_commands_and_their_options(self):
        text = text_of("command_words/src/*.rt")
        commands = set(re.findall(r'"(\w+)" => |== "(\w+)"', text))
        found = {name for pair in commands for name in pair if name}
        options = set(re.findall(r'name: "--(\w+)"', text))
        mine = {option.role for command in program.COMMANDS for option in command.options}
        self.assertEqual(options, mine)
        if found:
            self.assertEqual(found, set(program.BY_NAME))


class Shown(unittest.TestCase):
    """Where the table is shown."""

    def test_each_row_is_printed(self):
        status, text, _ = done("faults")
        self.assertEqual(status, 0)
        for _, what, table in faults.TABLES:
            for row in table:
                self.assertIn(f"{what} {row.number:2}  {row.means}\n", text)

    @unittest.skipUnless(os.path.exists(MANUAL), "the manual is in a checkout")
    def test_the_manual_has_the_table_as_it_is(self):
        with open(MANUAL, encoding="utf-8") as file:
            self.assertIn(faults.as_markdown(), file.read(),
                          "put what `scripts/gibolufi faults --markdown` prints into docs/MANUAL.md")

    @unittest.skipUnless(os.path.exists(MANUAL), "the manual is in a checkout")
    def test_the_manual_has_each_key(self):
        with open(MANUAL, encoding="utf-8") as file:
            text = file.read()
        for row in configuration.rows():
            self.assertIn(f"| {' | '.join(row)} |", text, "put the rows of gibolufi.configuration there")
