"""What the tool says below the program's own line."""
import os
import struct

from gibolufi import configuration, faults, program
from gibolufi.explain import explain
from tests.common import InFolder, done, program_or_skip


def header(kind=2, machine=243, flags=0, segments=((1, 0x10000, 4),)):
    """An ELF file with these segments: kind, address and size."""
    held = bytes.fromhex("7f454c46010101") + bytes(9)
    held += struct.pack("<HHIIIIIHHHHHH", kind, machine, 1, 0x10000, 52, 0, flags, 52, 32, len(segments), 0, 0, 0)
    for segment, address, size in segments:
        held += struct.pack("<8I", segment, 52, address, address, size, size, 7, 4)
    return held


class Words(InFolder):
    """Words for each status and fault, from the program's line alone."""

    def setUp(self):
        super().setUp()
        self.files = {"config": self.write("c.json", "{}"), "image": self.write("k.elf", header()),
                      "schedule": self.write("s", "h0 6\nh9 1\n"), "order": os.path.join(self.folder, "o"),
                      "report": os.path.join(self.folder, "r")}

    def said(self, status, line, *command, **files):
        """What is said of an end."""
        words = [*(command or ["run"])]
        for role, path in {**self.files, **files}.items():
            words += [f"--{role}", path]
        return "\n".join(explain(words, status, f"conda: {line}\n"))

    def test_each_fault_has_its_words(self):
        for status, what, table in ((5, "config", faults.CONFIGURATION), (6, "image", faults.IMAGE)):
            for row in table:
                said = self.said(status, f"{what} fault {row.number} 1 9")
                self.assertIn(row.means, said)
                self.assertIn(row.remedy, said)
        for row in faults.SCHEDULE:
            said = self.said(7, f"schedule line 2 fault {row.number}")
            self.assertIn(f"line 2 ('h9 1'): {row.means}", said)
        for row in faults.SOURCE:
            said = self.said(13, f"syntax line 1 fault {row.number}", "asm", source=self.files["schedule"])
            self.assertIn(f"line 1 ('h0 6'): {row.means}", said)

    def test_each_status_says_something(self):
        for row in faults.STATUSES[1:]:
            self.assertTrue(self.said(row.number, "cannot read config 1 1"), row)
        for status in (1, 99, -9):
            self.assertTrue(explain(["run"], status, ""), status)
        self.assertIn("SIGKILL", explain(["run"], -9, "")[0])

    def test_a_key_is_named_with_its_range(self):
        self.assertIn("sig_bits is 11, and must be a whole number from 1 to 10", self.said(5, "config fault 5 9 11"))
        for number, key in enumerate(configuration.KEYS, 1):
            said = self.said(5, f"config fault 4 {number}")
            self.assertIn(f"{key.name} must be a whole number {configuration.range_of(key)}", said)

    def test_a_files_name_and_the_systems_cause(self):
        missing = os.path.join(self.folder, "none")
        self.assertIn("there is no such file", self.said(3, "cannot read config", config=missing))
        self.assertIn("it is a directory", self.said(3, "cannot read image", image=self.folder))
        self.assertIn(f"there is no directory {missing}", self.said(4, "cannot write order", order=missing + "/o"))
        self.assertIn("the device is full", self.said(4, "cannot write order", order="/dev/full"))
        if os.geteuid():
            os.chmod(self.files["config"], 0)
            self.assertIn("no right", self.said(3, "cannot read config"))

    def test_swapped_files_are_told(self):
        image, config = self.files["image"], self.files["config"]
        self.assertIn("looks like an image: were files swapped?", self.said(5, "config fault 1", config=image))
        self.assertIn("looks like a configuration", self.said(6, "image fault 1", image=config))
        self.assertIn("looks like a schedule", self.said(6, "image fault 2", image=self.files["schedule"]))
        source = self.write("k.c", '#include "conda.h"\nint main(void) { return 0; }\n')
        self.assertIn(f"`gibolufi kernel {source}` compiles and runs it", self.said(6, "image fault 2", image=source))

    def test_an_image_at_another_address_is_told_a_memory(self):
        image = self.write("high", header(segments=((1, 0x80000000, 8192),)))
        said = self.said(6, "image fault 14 0", image=image)
        self.assertIn("program header 0, counted from 0, with 8,192 bytes at 0x80000000", said)
        self.assertIn('{"mem_base":2147483648,"mem_bytes":1048576}', said)
        image = self.write("far", header(segments=((1, 0x10000, 4), (1, 0xf0000000, 4))))
        self.assertIn("link it with conda.ld", self.said(6, "image fault 14 1", image=image))

    def test_flags_are_told(self):
        self.assertIn("its flags say compressed instructions", self.said(6, "image fault 8 1"))
        self.assertIn("floats in registers", self.said(6, "image fault 8 4"))

    def test_wrong_words_are_told(self):
        good = [f"--{role}={path}" for role, path in self.files.items()]
        for words, part in ((["run"], "--config, --image, --schedule, --order and --report are missing"),
                            (["run", *good[1:]], "--config is missing"), (["run", *good, "k.c"], "'k.c' is no option"),
                            (["run", *good, "--outptu=o"], "--outptu is no option of run"),
                            (["run", *good, good[0]], "--config stands twice"),
                            (["run", *good[:-1], "--report="], "--report has an empty name"),
                            (["run", *good[:-1], "--report"], "--report has no value"),
                            (["run", *good[:-1], "--report", "-x"], "write ./-x"),
                            (["run", *good[:-1], "--report", self.files["order"]],
                             "--order and --report name one file"),
                            (["self", "--seed=1", "--events=0", "--report=r"],
                             "'0' is no whole number from 1 to 67108864"),
                            (["frob"], "'frob' is no command: it is one of run, fine, self"), ([], "there is no command")):
            with self.subTest(words):
                said = "\n".join(explain(words, 2, "conda: usage\n"))
                self.assertIn(part, said)
                if words and words[0] in program.BY_NAME:
                    self.assertIn(program.words_line(program.BY_NAME[words[0]]), said)

    def test_limits_are_told(self):
        self.assertIn("at most 33,554,432 bytes", self.said(8, "image passes 33554432"))
        self.assertIn("cut the schedule", self.said(8, "schedule passes 67108864"))


class Program(InFolder):
    """The program's words are handed on, and its status and line stay as they are."""

    def setUp(self):
        super().setUp()
        program_or_skip(self)

    def test_a_good_run_and_a_bad_one(self):
        source = self.write("one.s", "addi x10,x0,65\naddi x17,x0,1003\necall\naddi x10,x0,0\naddi x17,x0,93\necall\n")
        at = {role: os.path.join(self.folder, role) for role in ("program", "order", "report", "output", "source")}
        self.assertEqual(done("asm", "--source", source, "--program", at["program"])[0], 0)
        self.assertEqual(done("dis", "--program", at["program"], "--source", at["source"])[0], 0)
        words = ["run", "--config", self.write("c", '{"mem_bytes":131072}'), "--image", at["program"]]
        words += ["--order", at["order"], "--report", at["report"], "--output", at["output"], "--schedule"]
        self.assertEqual(done(*words, self.write("s", "h0 8\n"))[0], 0)
        with open(at["output"], "rb") as file:
            self.assertEqual(file.read(), b"A")
        status, out, said = done(*words, self.write("s", "h0 8\nh1 1\n"))
        self.assertEqual((status, out), (7, ""))
        self.assertIn("conda: schedule line 2 fault 3\n", said)
        self.assertIn("the configuration has no such hart or core", said)
        status, _, said = done("run", "--config", at["program"])
        self.assertEqual(status, 2)
        self.assertIn("conda: usage\n", said)
