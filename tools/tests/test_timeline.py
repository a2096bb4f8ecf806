"""The verb `timeline`: what it refuses, and picture, trace, totals and rows."""
import csv
import io
import json
import random
import time

from gibolufi.pictures.run import Run
from tests.common import ORDER, InFolder, done


class Refusals(InFolder):
    """A file that is no order is refused with its line, and bad words with status 2."""

    def test_bad_orders(self):
        report = self.run_files()[1]
        for text, part in (("s 0\nq 0\n", "line 2 "), ("s 0\ns 00\n", "line 2 "), ("c 0 0 1\n", "line 1 "),
                           ("c 0 65537 1\n", "line 1 "), ("s 0", "line 1 "), ("s 0\n\n", "line 2 "),
                           ("- n5\n", "line 1 "), ("s 1\n", "line 1 "), ("s 0\n", "aren't of one run")):
            with self.subTest(text):
                self.is_refused(["timeline", self.write("bad", text), report], 1, part)

    def test_bad_reports(self):
        order = self.run_files()[0]
        for text, part in (("", "ends before"), ("events x\n", "line 1 "),
                           ("events 1\noutput 0\nhart 1 run pc 0\n", "line 3 ")):
            with self.subTest(text):
                self.is_refused(["timeline", order, self.write("bad", text)], 1, part)

    def test_missing_files_and_bad_words(self):
        order, report = self.run_files()
        self.is_refused(["timeline", order, report + "x"], 1, "there is no such file")
        self.is_refused(["timeline", self.folder, report], 1, "it is a directory")
        self.is_refused(["timeline", report, order], 2, "they were swapped")
        for words in (["--from"], ["--from", "0", order, report], [order], ["--page", order, report], [],
                      ["--svg", "--csv", order, report], ["--from", "9", "--to", "3", order, report],
                      ["--from", "999", order, report]):
            with self.subTest(words):
                self.is_refused(["timeline", *words], 2, "")


class Forms(InFolder):
    """Each form tells the order's events."""

    def test_the_picture_has_each_lane_and_the_rollbacks_words(self):
        svg = done("timeline", "--svg", *self.run_files())[1]
        for lane in ("hart 0", "core 0", "core 1"):
            self.assertIn(f">{lane}</text>", svg)
        self.assertIn("rolled back: 4 instructions undone, ended by the kernel&#x27;s end", svg)
        self.assertIn('fill="url(#hatch)"', svg)

    def test_the_traces_spans_are_the_orders_lines(self):
        events = json.loads(done("timeline", "--trace", *self.run_files())[1])["traceEvents"]
        spans = [it for it in events if it["ph"] == "X" and "entry" in it["args"]]
        told = [text for it in spans for text in [it["args"]["entry"]] * it["dur"]]
        self.assertEqual(told, ORDER.splitlines())
        counters = {}
        for it in events:
            if it["ph"] == "C":
                counters[it["name"]] = it["args"]["count"]
        self.assertEqual((counters["rollbacks"], counters["commits"], counters["flushes"]), (1, 2, 2))
        self.assertEqual((counters["instructions undone"], counters["traffic corefill, known at the end"]), (4, 2))

    def test_the_rows_are_the_orders_lines_and_its_portions(self):
        rows = list(csv.DictReader(io.StringIO(done("timeline", "--csv", *self.run_files())[1])))
        entries = [row["entry"] for row in rows for _ in range(int(row["events"])) if row["entry"]]
        self.assertEqual(entries, ORDER.splitlines())
        self.assertEqual([(row["what"], row["instructions"], row["ended_by"]) for row in rows if not row["entry"]],
                         [("rollback of a portion", "4", "the kernel's end"),
                          ("commit of a portion", "4", "the kernel's end"),
                          ("commit of a portion under the lock", "3", "most instructions")])

    def test_the_totals_are_text(self):
        text = done("timeline", "--totals", "--config", "a/c.json", "--image", "b/k.elf", *self.run_files())[1]
        for part in ("run        k.elf: c.json, order, report",
                     "hart 0     exit 00000000; 10 steps, 1 wait, 1 idle, 3 held",
                     "rollbacks  1 by the kernel's end; 4 instructions undone", "traffic    fill 1, back 1, down 0"):
            self.assertIn(part, text)

    def test_a_cut_keeps_the_portions_that_reach_over_its_ends(self):
        order, report = self.run_files()
        run = Run(order, report, 13, 20)
        self.assertEqual([it.words("core 0") for it in run.portions()],
                         [f"core 0's portion, events {told}, ended by the kernel's end" for told in (
                             "11 to 16: rolled back: 4 instructions undone", "19 to 24: committed: 4 instructions")])
        self.assertEqual(list(run.runs())[0], (13, 3, 6 << 4 | 1, 0, 0))
        for form in ([], ["--svg"], ["--trace"], ["--totals"], ["--csv"]):
            self.assertEqual(done("timeline", *form, "--from=13", "--to=20", order, report)[0], 0, form)

    def test_an_order_without_events(self):
        for form in ([], ["--svg"], ["--trace"], ["--totals"], ["--csv"]):
            self.assertEqual(done("timeline", *form, *self.run_files(""))[0], 0, form)


class Large(InFolder):
    """A page of many random events stays small, and is made at once."""

    EVENTS = 2_000_000

    def test_a_page_of_two_million_random_events(self):
        lines = ("s 0\n", "s 1\n", "p 0\n", "p 1\n")
        text = "".join(random.Random(7).choices(lines, k=self.EVENTS))
        report = ("events {}\noutput 0\nhart 0 run pc 00010000\nhart 1 run pc 00010000\ncore 0 run pc 00010000\n"
                  "core 1 run pc 00010000\ntraffic fill 0\n")
        files = self.run_files(text, report)
        began = time.process_time()
        status, page, said = done("timeline", *files)
        self.assertEqual((status, said), (0, ""))
        # A fifth of what 10,000,000 may take: 5 MB and 10 s.
        self.assertLess(len(page), 1_000_000)
        self.assertLess(time.process_time() - began, 4)


class Kernels(InFolder):
    """An order whose kernels run with no portion."""

    def test_a_kernel_under_the_lock_is_no_portion(self):
        files = self.run_files("s 0\nl 0\n" + "k 0\nx h0\n" * 4 + "- n0\ns 0\n")
        self.assertEqual(Run(*files).portions(), [])
        text = done("timeline", "--totals", *files)[1]
        self.assertIn("core 0     idle; 1 idle, 1 opening under the lock, 4 instructions of kernels", text)
        for form in ([], ["--svg"], ["--trace"], ["--csv"]):
            self.assertEqual(done("timeline", *form, *files)[0], 0, form)
