"""scripts/build over a stand-in for the toolchain, and scripts/install."""
import os
import shutil
import subprocess
import sys
import unittest

from gibolufi import places
from tests.common import InFolder

STAND_IN = """#!/usr/bin/env python3
import os, sys, time
if sys.argv[1] == "version":
    print("a stand-in")
    sys.exit()
name = os.path.basename(os.getcwd())
with open(os.path.join(os.environ["LOG"]), "a") as log:
    log.write(f"{sys.argv[1]} {name}\\n")
if os.path.exists("src/wrong"):
    print("a goal is left open")
    sys.exit(1)
if sys.argv[1] == "run":
    os.makedirs("out", exist_ok=True)
    with open("out/conda_cli", "w") as file:
        file.write("#!/bin/sh\\nexit 2\\n")
    os.chmod("out/conda_cli", 0o755)
"""
CRATES = "low: arrayvec\nleft: low\nright: low\nother: low\nconda_cli: left right arrayvec\n"


def script(name, *words, **more):
    """Status, output and errors of a script."""
    ran = subprocess.run([sys.executable, "-B", name, *words], capture_output=True, text=True, check=False, **more)
    return ran.returncode, ran.stdout, ran.stderr


@unittest.skipUnless(places.IS_CHECKOUT, "the scripts are in a checkout")
class Build(InFolder):
    """What is proved again, and when."""

    def setUp(self):
        super().setUp()
        for name in ("low", "left", "right", "other", "conda_cli"):
            os.makedirs(os.path.join(self.folder, "crates", name, "src"))
            self.write(f"crates/{name}/src/lib.rt", name)
        os.makedirs(os.path.join(self.folder, "scripts"))
        os.makedirs(os.path.join(self.folder, "bin"))
        shutil.copy(os.path.join(places.TOP, "scripts", "build"), os.path.join(self.folder, "scripts", "build"))
        self.write("crates.txt", CRATES)
        os.chmod(self.write("bin/rt", STAND_IN), 0o755)
        self.log = os.path.join(self.folder, "log")

    def built(self, *words):
        """Status, output, and the crates that were proved, in order."""
        if os.path.exists(self.log):
            os.remove(self.log)
        path = os.path.join(self.folder, "bin") + os.pathsep + os.environ["PATH"]
        status, out, said = script(os.path.join(self.folder, "scripts", "build"), *words,
                                   env={**os.environ, "PATH": path, "LOG": self.log})
        proved = []
        if os.path.exists(self.log):
            with open(self.log, encoding="ascii") as file:
                proved = [line.split()[1] for line in file]
        return status, out + said, proved

    def test_only_what_changed_and_what_stands_on_it_is_proved_again(self):
        status, out, proved = self.built()
        self.assertEqual((status, proved[0], sorted(proved[1:3])), (0, "low", ["left", "right"]), out)
        self.assertEqual(proved[3:], ["conda_cli"])
        self.assertIn("4 of 4 crates are to be proved", out)
        status, out, proved = self.built()
        self.assertEqual((status, proved), (0, []), out)
        self.assertIn("nothing has changed", out)
        self.write("crates/left/src/lib.rt", "changed")
        self.assertEqual(self.built()[2], ["left", "conda_cli"])
        self.write("crates/other/src/lib.rt", "it isn't below the program")
        self.assertEqual(self.built()[2], [])
        self.write("crates/conda_cli/out/conda_cli", "another program")
        self.assertEqual(self.built()[2], ["conda_cli"])
        self.assertEqual(len(self.built("--anew", "--jobs", "1")[2]), 4)

    def test_it_stops_at_the_first_that_fails_and_goes_on_there(self):
        wrong = self.write("crates/right/src/wrong", "")
        status, out, proved = self.built("--jobs=1")
        self.assertEqual((status, proved), (1, ["low", "left", "right"]), out)
        self.assertIn("a goal is left open", out)
        self.assertIn("right isn't proved, and what stands on it wasn't tried", out)
        os.remove(wrong)
        self.assertEqual(self.built()[2], ["right", "conda_cli"])

    def test_bad_words(self):
        for words in (["--frob"], ["--jobs"], ["--jobs", "0"], ["low"]):
            status, said, proved = self.built(*words)
            self.assertEqual((status, proved, said.count("\n")), (2, [], 1), said)


@unittest.skipUnless(places.IS_CHECKOUT, "the scripts are in a checkout")
class Install(InFolder):
    """What is installed works, and all of it is removed again."""

    def test_install_use_and_remove(self):
        install = os.path.join(places.TOP, "scripts", "install")
        simulator = self.write("conda", "#!/bin/sh\necho 'conda: usage' >&2\nexit 2\n")
        os.chmod(simulator, 0o755)
        prefix = os.path.join(self.folder, "prefix")
        os.makedirs(os.path.join(prefix, "bin"))
        mine = self.write("prefix/bin/mine", "")
        self.assertEqual(script(install, prefix, "--program", simulator)[::2], (0, ""))
        tool = os.path.join(prefix, "bin", "gibolufi")
        clean = {name: text for name, text in os.environ.items() if name != places.VARIABLE}
        said = subprocess.run([tool, "--version"], capture_output=True, text=True, check=False, env=clean).stdout
        self.assertIn(os.path.join(prefix, "libexec", "gibolufi", "conda_cli") + " (installed)", said)
        ran = subprocess.run([tool, "run"], capture_output=True, text=True, check=False, env=clean)
        self.assertEqual((ran.returncode, ran.stderr.splitlines()[0]), (2, "conda: usage"))
        self.assertIn("--config, --image", ran.stderr)
        self.assertTrue(os.path.exists(os.path.join(prefix, "share", "gibolufi", "c", "conda.h")))
        if shutil.which("man"):
            page = os.path.join(prefix, "share", "man", "man1", "gibolufi.1")
            shown = subprocess.run(["man", "--warnings", "-l", page], capture_output=True, text=True, check=False)
            self.assertEqual((shown.returncode, shown.stderr), (0, ""))
            self.assertIn("--until-ended", shown.stdout.replace("\u2010", "-").replace("\u2212", "-"))
        self.assertEqual(script(install, prefix, "--remove")[::2], (0, ""))
        left = [os.path.join(folder, name) for folder, _, names in os.walk(prefix) for name in names]
        self.assertEqual((left, os.listdir(prefix)), ([mine], ["bin"]))
        self.assertEqual(script(install, prefix, "--remove")[0], 1)

    def test_bad_words(self):
        install = os.path.join(places.TOP, "scripts", "install")
        for words, status in (([], 2), (["--remove"], 2), ([self.folder, "--frob"], 2),
                              ([self.folder, "--program", self.folder + "/none"], 1)):
            came, _, said = script(install, *words)
            self.assertEqual((came, said.count("\n")), (status, 1), said)
