"""The tool as a whole: help, versions, refusals in one clear line."""
import os
import sys
from unittest import mock

from gibolufi import VERSION, command, compiling, example, places, program
from gibolufi.verbs import first_look
from gibolufi.words import Refused, counted, listed
from tests.common import STARTER, InFolder, done, started


class Whole(InFolder):
    """What every verb has."""

    def test_each_verb_has_help(self):
        for verb in (*command.VERBS, *program.BY_NAME):
            for word in ("--help", "-h"):
                status, out, said = done(verb, word)
                self.assertEqual((status, said), (0, ""), verb)
                self.assertTrue(out.startswith(f"gibolufi {verb}"), out)

    def test_the_help_names_each_verb(self):
        status, out, _ = done("--help")
        self.assertEqual(status, 0)
        for verb in (*command.VERBS, *program.BY_NAME):
            self.assertIn(f"\n  {verb:12}", out)

    def test_the_versions(self):
        status, out, _ = done("--version")
        self.assertEqual(status, 0)
        names = [line.split()[0].rstrip(":") for line in out.splitlines()]
        self.assertEqual(names, ["gibolufi", "program", "toolchain"])
        self.assertIn(VERSION, out)

    def test_no_name_is_guessed(self):
        for words in (["--frob"], ["kern"], ["runn"], [""], ["timelines"], ["KERNEL"], []):
            self.is_refused(words, 2, "--help lists them")

    def test_each_verb_refuses_an_unknown_option_in_one_line(self):
        for verb in command.VERBS:
            self.is_refused([verb, "--frobnicate"], 2, "'--frobnicate' is no option; --help lists them")

    def test_a_missing_program_is_told(self):
        old = os.environ.get(places.VARIABLE)
        os.environ[places.VARIABLE] = os.path.join(self.folder, "none")
        try:
            for words in (["run"], ["examples"], ["kernel", self.write("k.c", "")]):
                self.is_refused(words, 1, "there is no program at")
        finally:
            os.environ.pop(places.VARIABLE)
            if old is not None:
                os.environ[places.VARIABLE] = old

    def test_a_missing_compiler_is_told_with_its_packages(self):
        with mock.patch.object(compiling, "is_there", lambda name: False):
            with self.assertRaises(Refused) as caught:
                compiling.Compiler()
        self.assertIn("install gcc-riscv64-unknown-elf and binutils-riscv64-unknown-elf, or clang and lld", str(caught.exception))

    def test_a_first_look_has_words_for_each_letter(self):
        for entry in ("s 0", "w 0", "- h0", "x n1", "o 0", "l 0", "p 0", "f 0", "k 0"):
            self.assertTrue(first_look.entry_words(entry), entry)
        self.assertEqual(first_look.entry_words("r 1 3 1"), "core 1's portion is rolled back, since it may have read what "
                         "others changed: 3 instructions undone, ended by the kernel's end")
        self.assertEqual(len(example.image()), 84 + 4 * len(example.PROGRAM))

    def test_the_starter_and_a_reader_that_goes_away(self):
        self.assertEqual(started("--help")[0], 0)
        self.assertEqual(started("frob")[::2], (2, "gibolufi: 'frob' is no verb; --help lists them\n"))
        words = f"{sys.executable} {STARTER} schedule --random 1 --burst h0=1,n0=1 --events 3000000 | head -1"
        with os.popen(f"({words}) 2>&1") as said:
            self.assertEqual(len(said.read().splitlines()), 1)

    def test_words(self):
        self.assertEqual([counted(1, "event"), counted(12345, "event")], ["1 event", "12,345 events"])
        self.assertEqual([listed([]), listed("a"), listed("ab")], ["", "a", "a and b"])
        self.assertEqual(listed("abc", "or"), "a, b or c")
