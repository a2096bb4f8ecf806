"""What the tests share."""
import contextlib
import io
import os
import subprocess
import sys
import tempfile
import unittest

from gibolufi import command, places, program
from gibolufi.words import Refused

STARTER = os.path.join(places.TOP, "scripts", "gibolufi")
# Two cores under one hart: one portion is rolled back, flushes, and commits; then one under the lock.
ORDER = ("s 0\n" * 9 + "w 0\no 0\n" + "p 0\n" * 4 + "r 0 4 1\nf 0\nf 0\no 0\n" + "p 0\n" * 4
         + "c 0 4 1\nl 1\n" + "p 1\nx h0\nx n0\n" * 3 + "c 1 3 3\ns 0\n- h0\n")
REPORT = ("events {}\noutput 0\nhart 0 exit 00000000 pc 00010028\nx17 0000005d\n"
          "core 0 idle pc 00010048\ncore 1 run pc 00010048\n"
          "traffic fill 1 back 1 down 0 drop 0 evict 0 corefill 2 merge 0\n")


def done(*words):
    """Status, standard output and standard error of the tool, in this process."""
    out, said = io.StringIO(), io.StringIO()
    with contextlib.redirect_stdout(out), contextlib.redirect_stderr(said):
        status = command.main(list(words))
    return status, out.getvalue(), said.getvalue()


def started(*words, **more):
    """Status, standard output and standard error of the tool, as a process of its own."""
    ran = subprocess.run([sys.executable, STARTER, *words], capture_output=True, check=False, **more)
    return ran.returncode, ran.stdout.decode(), ran.stderr.decode()


class InFolder(unittest.TestCase):
    """A test with a folder of its own."""

    def setUp(self):
        folder = tempfile.TemporaryDirectory()
        self.addCleanup(folder.cleanup)
        self.folder = folder.name

    def write(self, name, text):
        """Writes a file, and gives its path."""
        path = os.path.join(self.folder, name)
        with open(path, "wb") as file:
            file.write(text.encode() if isinstance(text, str) else text)
        return path

    def run_files(self, text=ORDER, report=REPORT):
        """The paths of an order and of its report."""
        return self.write("order", text), self.write("report", report.format(text.count("\n")))

    def is_refused(self, words, status, part):
        """The words are answered by a status and one clear line that has a part."""
        came, out, said = done(*words)
        # An unproved program says at each use that it is one.
        said = "".join(line for line in said.splitlines(True) if "UNPROVED" not in line)
        self.assertEqual((came, out), (status, ""), f"{words}: {said}")
        self.assertEqual(said.count("\n"), 1, f"{words}: {said}")
        self.assertIn(part, said, words)
        self.assertTrue(said.startswith("gibolufi"), said)


def program_or_skip(test):
    """The simulator, proved or not; without one the test is passed over."""
    try:
        return program.find()
    except Refused:
        test.skipTest("there is no program")
