"""The verb `schedule`: its totals, its turns, its bytes by seed, and what it refuses."""
import os
import time

from tests.common import InFolder, done

# A program of two harts that end after 5 and 3000 events.
STAND_IN = """#!/usr/bin/env python3
import sys
words = dict(zip(sys.argv[2::2], sys.argv[3::2]))
left, order = {"h0": 5, "h1": 3000}, []
for line in open(words["--schedule"]):
    actor, count = line.split()
    for _ in range(int(count)):
        runs = left.get(actor, 0) > 0
        left[actor] = left.get(actor, 0) - runs
        order.append(f"s {actor[1]}" if runs else f"- {actor}")
open(words["--order"], "w").write("".join(line + "\\n" for line in order))
ends = "".join(f"hart {hart[1]} {'run' if left[hart] > 0 else 'exit 00000000'} pc 00010000\\n" for hart in ("h0", "h1"))
open(words["--report"], "w").write(f"events {len(order)}\\noutput 0\\n{ends}core 0 idle pc 00000000\\n")
"""
SOME = ("--events", "9")


def made(*words):
    """Status, schedule and what was said."""
    return done("schedule", *words)


class Turns(InFolder):
    """Who comes next, and how often."""

    def test_turns_come_in_the_order_of_the_words_and_the_last_is_cut(self):
        self.assertEqual(made("--burst", "h0=8,n0=32", "--events", "90")[1], "h0 8\nn0 32\nh0 8\nn0 32\nh0 8\nn0 2\n")

    def test_turns_of_one_actor_are_one_line(self):
        self.assertEqual(made("--burst=h0=8", "--events=90")[1], "h0 90\n")

    def test_the_first_draws_are_those_of_splitmix64(self):
        # The first words for the seed 0: e220a8397b1dcdaf, 6e789e6aa1b965f4, 06c45d188009454f.
        self.assertEqual(made("--random", "0", "--burst", "h0=1,n0=1", "--events", "3")[1], "n0 1\nh0 1\nn0 1\n")

    def test_draws_are_the_same_by_seed_and_weighed(self):
        words = "--random", "7", "--weight", "h0=1,n0=3", "--burst", "h0=2", "--events", "100000"
        text = made(*words)[1]
        self.assertEqual(text, made(*words)[1])
        self.assertNotEqual(text, made("--random", "8", *words[2:])[1])
        counts = {"h0": 0, "n0": 0}
        for line in text.splitlines():
            actor, count = line.split()
            counts[actor] += int(count)
        self.assertEqual(sum(counts.values()), 100000)
        # A quarter of the turns at two events each, and three quarters at one: two fifths.
        self.assertTrue(39000 < counts["h0"] < 41000, counts)

    def test_each_way_of_drawing_gives_the_definitions_turns(self):
        for weights in ((1, 1), (1, 3, 7), (255, 1), (300, 5, 1), (100000, 1)):
            names = [f"h{n}" for n in range(len(weights))]
            words = "--random", "5", "--weight", ",".join(f"{a}={w}" for a, w in zip(names, weights))
            self.assertEqual(made(*words, "--events", "40001")[1], drawn(5, names, weights, 40001), weights)

    def test_ten_million_draws_take_seconds(self):
        began = time.process_time()
        status, text, _ = made("--random", "7", "--burst", "h0=1,h1=1,n0=1,n1=1", "--events", "2000000")
        self.assertEqual((status, text.count("h0") > 300000), (0, True))
        self.assertLess(time.process_time() - began, 5)

    def test_all_actors_of_a_configuration_take_part(self):
        for text, turns in (("{}", "h0 1\nn0 1\nh0 1\nn0 1\nh0 1\n"),
                            ('{"harts":2,"cores":2}', "h0 1\nh1 1\nn0 1\nn1 1\nh0 1\n")):
            self.assertEqual(made("--config", self.write("c", text), "--events", "5")[1], turns)


def drawn(seed, names, weights, events):
    """The schedule of so many draws, a word at a time."""
    mask, lines = 2**64 - 1, []
    for _ in range(events):
        seed = (seed + 0x9E3779B97F4A7C15) & mask
        word = (seed ^ seed >> 30) * 0xBF58476D1CE4E5B9 & mask
        word = (word ^ word >> 27) * 0x94D049BB133111EB & mask
        draw = (word ^ word >> 31) % sum(weights)
        place = next(at for at in range(len(weights)) if draw < sum(weights[:at + 1]))
        if lines and lines[-1][0] == names[place]:
            lines[-1][1] += 1
        else:
            lines.append([names[place], 1])
    return "".join(f"{name} {count}\n" for name, count in lines)


class UntilEnded(InFolder):
    """As many events as it takes, and no schedule where the limit is too low."""

    def setUp(self):
        super().setUp()
        path = self.write("program", STAND_IN)
        os.chmod(path, 0o755)
        self.words = ("--burst", "h0=1,h1=3", "--until-ended", "--program", path, "--config", "unread",
                      "--image", "unread")

    def test_the_last_step_ends_it(self):
        status, text, said = made(*self.words)
        self.assertEqual(status, 0, said)
        self.assertIn("every hart has ended after 4000 events", said)
        self.assertEqual(sum(int(line.split()[1]) for line in text.splitlines()), 4000)

    def test_what_never_ended_is_named(self):
        self.is_refused(["schedule", *self.words, "--limit", "3999"], 1, "h1 at pc 00010000 (it still executes "
                        "instructions) hadn't ended after 3999 events")


class Refusals(InFolder):
    """A bad word gets one line and status 2."""

    def test_bad_words(self):
        for words in (["--burst", "h8=1", *SOME], ["--burst", "h0", *SOME], ["--burst", "h0=0", *SOME],
                      ["--burst", "h0=1,h0=2", *SOME], ["--burst", "h0=1"], ["--burst"], ["h0", *SOME],
                      [*SOME], ["--burst", "h0=1", "--events", "67108865"], ["--burst", "h0=1", *SOME, *SOME],
                      ["--burst", "h0=1", "--weight", "h0=1", *SOME], ["--random", "-1", "--burst", "h0=1", *SOME],
                      ["--burst", "n0=1", "--until-ended"], ["--burst", "h0=1", "--until-ended"],
                      ["--burst", "h0=1", *SOME, "--limit", "9"], ["--config", "/", *SOME]):
            with self.subTest(words):
                self.is_refused(["schedule", *words], 2, "")

    def test_what_is_no_configuration(self):
        for text in ("", "{", "[]", "7", '{"harts":0}', '{"harts":9}', '{"cores":5}', '{"harts":1.0}',
                     '{"harts":1e0}', '{"harts":true}', '{"cores":true}', '{"harts":"1"}', '{"harts":null}',
                     '{"harts":[1]}', '{"harts":NaN}', '{"harts":' + "9" * 5000 + "}",
                     '{"harts":' + "[" * 100000, '{"a":' * 100000):
            with self.subTest(text[:40]):
                self.is_refused(["schedule", "--config", self.write("c", text), "--events", "5"], 2, "--config")
