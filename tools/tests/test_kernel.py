"""The verb `kernel`: from a C file to an answer, with stock compilers and the program."""
import os

from gibolufi import compiling
from gibolufi.words import Refused
from tests.common import InFolder, done, program_or_skip

SMALL = '{"mem_bytes":524288}'
SUM = """#include "conda.h"
static volatile unsigned word;
KERNEL(add) {
    (void)core;
    return *(volatile unsigned *)argument + 1;
}
int main(void) {
    launch(0, add_entries, (uintptr_t)&word);
    word = 7;
    put_line("sum", wait(0).value);
    return 3;
}
"""


def compiler_or_skip(test, named=None):
    """A compiler; without one the test is passed over."""
    try:
        return compiling.Compiler(named)
    except Refused as fault:
        test.skipTest(str(fault))


class Kernel(InFolder):
    """Programs that end in each way."""

    def setUp(self):
        super().setUp()
        program_or_skip(self)
        self.compiler = compiler_or_skip(self)

    def ran(self, text, *words, config=SMALL):
        """Status, summary by name, and what was said."""
        status, out, said = done("kernel", self.write("k.c", text), "--config", config, *words)
        lines = {}
        for line in out.splitlines()[1:-1]:
            name, _, rest = line.partition("  ")
            lines.setdefault(name.strip(), rest.strip())
        return status, lines, out + said

    def test_an_exit_a_rollback_and_the_page(self):
        for named in ("gcc", "clang"):
            compiler_or_skip(self, named)
            with self.subTest(named):
                status, lines, said = self.ran(SUM, "--compiler", named)
                self.assertEqual((status, lines["hart 0"]), (0, "exited with 3"), said)
                self.assertEqual(lines["output"], "6 bytes: 'sum 8'")
                self.assertIn("1 committed, 1 rolled back", lines["portions"])
                self.assertEqual(lines["rollbacks"], "1 by the kernel's end")
                self.assertIn("corefill", lines["traffic"])
                folder = os.path.join(self.folder, "k.run")
                self.assertIn(f"results in {folder}", said)
                with open(os.path.join(folder, "page.html"), encoding="utf-8") as file:
                    page = file.read()
                self.assertTrue("<title>k.c: " in page and "<h1>k.c</h1>" in page, page[:300])
                head = "{&quot;mem_bytes&quot;:524288}, --burst h0=16,n0=16, in k.run: order, report</span>"
                self.assertTrue(head in page, page[page.find("<h1>"):][:300])

    def test_a_trap_is_told_with_its_line(self):
        text = '#include "conda.h"\nint main(void) {\n    *(volatile int *)0x900000 = 1;\n    return 0;\n}\n'
        status, lines, said = self.ran(text)
        self.assertEqual(status, 0, said)
        self.assertIn("TRAP 7, the address of a store or atomic isn't wholly in memory (0x00900000)", lines["hart 0"])
        self.assertIn("k.c:3", lines["hart 0"])
        self.assertIn("what to do: look at the pointer", said)

    def test_compare_and_exchange_traps_and_is_told(self):
        text = ('#include "conda.h"\nstatic unsigned word;\nint main(void) {\n    unsigned old = 0;\n    return '
                "__atomic_compare_exchange_n(&word, &old, 1, 0, 5, 5);\n}\n")
        _, lines, said = self.ran(text)
        self.assertIn("TRAP 2", lines["hart 0"])
        self.assertIn("no lr and sc (compare-and-exchange)", said)

    def test_a_stack_that_is_too_small(self):
        text = ('#include "conda.h"\nstatic unsigned deep(unsigned n) {\n    volatile unsigned held[16];\n'
                "    for (int at = 0; at < 16; at++)\n        held[at] = n + 1;\n"
                "    return n ? deep(n - 1) + held[3] : 0;\n}\nint main(void) {\n    return deep(60) == 0;\n}\n")
        _, lines, said = self.ran(text)
        self.assertIn("the stack of hart 0 was too small", lines.get("STACK", ""), said)
        status, lines, said = self.ran(text, "--stack", "16384")
        self.assertEqual((status, lines["hart 0"], lines.get("STACK")), (0, "exited with 0", None), said)

    def test_what_never_ends_is_told(self):
        text = '#include "conda.h"\nint main(void) {\n    for (;;)\n        ;\n}\n'
        status, lines, said = self.ran(text, "--limit", "2000")
        self.assertEqual((status, lines["hart 0"]), (0, "still runs"), said)
        self.assertIn("h0 at pc", lines["NOT ENDED"])

    def test_several_harts_and_cores_and_a_schedule_of_ones_own(self):
        text = ('#include "conda.h"\nKERNEL(twice) {\n    return argument * 2 + core;\n}\nMAIN(hart, harts) {\n'
                "    launch(hart, twice_entries, hart);\n    return (int)(wait(hart).value + 10 * harts);\n}\n")
        config = '{"harts":2,"cores":2,"mem_bytes":524288}'
        _, lines, said = self.ran(text, "--schedule", "--random 3 --weight h0=2,h1=1,n0=1,n1=1 --until-ended",
                                  config=config)
        self.assertEqual((lines["hart 0"], lines["hart 1"]), ("exited with 20", "exited with 23"), said)
        schedule = self.write("s", "h0 100\nh1 100\nn0 100\nn1 100\nh0 100\nh1 100\n")
        _, lines, said = self.ran(text, "--schedule", schedule, config=config)
        self.assertEqual((lines["hart 0"], lines["hart 1"]), ("exited with 20", "exited with 23"), said)

    def test_malloc_has_the_heap(self):
        if not self.compiler.specs():
            self.skipTest("there is no picolibc (Debian: picolibc-riscv64-unknown-elf)")
        text = ('#include "conda.h"\n#include <stdio.h>\n#include <stdlib.h>\nint main(void) {\n'
                "    char *got = malloc(10000);\n    if (!got)\n        return 1;\n    got[9999] = 1;\n"
                '    free(got);\n    printf("%d\\n", got != NULL && malloc(10000000) == NULL);\n    return 0;\n}\n')
        status, lines, said = self.ran(text, "--libc")
        self.assertEqual((status, lines["hart 0"], lines["output"]), (0, "exited with 0", "2 bytes: '1'"), said)


class Refusals(InFolder):
    """What can't be compiled or run is answered with what to do."""

    def setUp(self):
        super().setUp()
        program_or_skip(self)
        compiler_or_skip(self)

    def test_words_and_files(self):
        good = self.write("k.c", SUM)
        for words, status, part in (([], 2, "a C file is needed"), ([good + "x"], 1, "there is no such file"),
                                    ([self.folder], 1, "it is a directory"), ([good, "--mode", "frob"], 2, "--mode"),
                                    ([good, "--compiler", "icc"], 2, "neither gcc nor clang"),
                                    ([good, "--config", "{"], 1, "is no JSON"),
                                    ([good, "--config", '{"harts":9}'], 1, "harts must be a whole number from 1 to 8"),
                                    ([good, "--config", "cores=2"], 1, "is neither JSON text"),
                                    ([good, "--config", self.folder], 1, "it is a directory"),
                                    ([good, "--schedule", "h0 5"], 1, "is neither words of"),
                                    ([good, "--stack", "9"], 2, "--stack"),
                                    ([good, "--schedule", "--burst h9=1"], 2, "--burst"),
                                    ([good, "--flags", "'"], 2, "can't be cut into words")):
            with self.subTest(words):
                self.is_refused(["kernel", *words], status, part)

    def test_what_doesnt_compile_or_link(self):
        for text, part in (("int main(void) { return x; }", "doesn't compile"),
                           ('#include "conda.h"\nstatic int f(void) { return 0; }\nint g(void) { return f(); }',
                            "the program has no main"),
                           ('int printf(const char *, ...);\nint main(void) { return printf("%d", 1); }', "add --libc"),
                           ("#include <stdio.h>\nint main(void) { return 0; }", "add --libc"),
                           ("char c;\nint main(void) { return __atomic_fetch_add(&c, 1, 5); }", "use word atomics")):
            with self.subTest(text):
                status, out, said = done("kernel", self.write("k.c", text), "--config", SMALL)
                if part == "use word atomics" and status == 0:
                    # A compiler may make them of lr and sc, which trap.
                    self.assertIn("TRAP 2", out)
                    continue
                self.assertEqual((status, out), (1, ""), said)
                self.assertIn(part, said)

    def test_a_kernel_that_is_launched_by_its_function_is_told(self):
        text = SUM.replace("add_entries", "add")
        said = done("kernel", self.write("k.c", text), "--config", SMALL)[2]
        self.assertIn("launch(core, NAME_entries, argument)", said)

    def test_an_array_past_memory(self):
        text = 'static volatile int big[200000];\nint main(void) { big[9] = 1; return big[9]; }\n'
        status, _, said = done("kernel", self.write("k.c", text), "--config", SMALL)
        self.assertEqual(status, 1, said)
        self.assertIn("raise `mem_bytes`", said)
