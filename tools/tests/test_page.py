"""The page in a headless browser, and its colours."""
import os
import unittest

from gibolufi.pictures import colours
from gibolufi import order
from tests import browser
from tests.common import ORDER, InFolder, done

VIEW, DRAWN = "document.body.dataset.view", "canvas.toDataURL()"
COLOURS_OF_LANES = """held.lanes.map((name, lane) => {
    const ratio = devicePixelRatio, y = topOf(lane) * ratio, x = LEFT * ratio;
    const seen = pen.getImageData(x, y, canvas.width - x, LANE * ratio).data, found = new Set();
    for (let at = 0; at < seen.length; at += 4) found.add(seen[at] << 16 | seen[at + 1] << 8 | seen[at + 2]);
    return found.size;
})"""
# Machado, Oliveira and Fernandes (2009): deuteranopia, over linear light.
DEUTERANOPIA = ((0.367322, 0.860646, -0.227968), (0.280085, 0.672501, 0.047413), (-0.011820, 0.042940, 0.968881))


@unittest.skipUnless(browser.found(), "there is no chromium (Debian: chromium)")
class Page(InFolder):
    """What the page draws and does."""

    def setUp(self):
        super().setUp()
        self.browser = browser.Browser(browser.found())
        self.addCleanup(self.browser.close)

    def open(self, text=ORDER, wide=1300):
        """Opens the page of an order."""
        status, page, said = done("timeline", "--image", "k.elf", "--config", "c.json", *self.run_files(text))
        self.assertEqual((status, said), (0, ""))
        self.browser.open(self.write("page.html", page), wide)

    def tearDown(self):
        self.assertEqual(self.browser.complaints, [])

    def point(self, event, lane):
        """Where an event of a lane is, in the window."""
        at = f"(box => [box.left + xOf({event}), box.top + topOf({lane}) + LANE / 2])(canvas.getBoundingClientRect())"
        return self.browser.value(at)

    def test_each_lane_is_drawn_and_named(self):
        self.open()
        self.assertTrue(all(size > 1 for size in self.browser.value(COLOURS_OF_LANES)))
        self.assertEqual(self.browser.value("document.title"), "k.elf: 37 events")
        self.assertEqual(self.browser.value("byId('head').textContent"), "c.json, order, report")

    def test_keys_work_as_soon_as_it_opens(self):
        self.open()
        for key in ("+", "ArrowRight", "ArrowLeft", "-", "n"):
            before = self.browser.value(DRAWN)
            self.browser.key(key)
            self.assertNotEqual(self.browser.value(DRAWN), before, key)
        self.browser.key("0")
        self.assertEqual(self.browser.value(VIEW), "1 38")

    def test_wheel_and_drag(self):
        self.open()
        x, y = self.point(19, 1)
        self.browser.mouse("mouseWheel", x, y, deltaX=0, deltaY=-300)
        near = self.browser.value(VIEW)
        self.assertNotEqual(near, "1 38")
        self.browser.mouse("mousePressed", x, y, button="left", clickCount=1)
        self.browser.mouse("mouseMoved", x - 120, y, button="left", buttons=1)
        self.browser.mouse("mouseReleased", x - 120, y, button="left", clickCount=1)
        self.assertNotEqual(self.browser.value(VIEW), near)
        self.browser.value("byId('whole').click()")
        self.assertEqual(self.browser.value(VIEW), "1 38")

    def test_the_pointer_is_told_the_event_and_the_rollback(self):
        self.open()
        self.browser.mouse("mouseMoved", *self.point(13.5, 1))
        told = self.browser.value("told.textContent")
        self.assertIn("event 13: p 0", told)
        self.assertIn("core 0's portion, events 11 to 16: rolled back: 4 instructions undone, ended by the kernel's end",
                      told)
        self.browser.mouse("mouseMoved", *self.point(1.5, 0))
        self.assertIn("event 1: s 0 (of 9 equal ones, events 1 to 9)", self.browser.value("told.textContent"))

    def test_the_list_jumps_and_goes_on_and_back(self):
        self.open()
        self.assertEqual(self.browser.value("[...byId('kind').options].map(it => it.value).join()"),
                         "rollbacks,commits,locks,openings")
        self.browser.value("chooseList('openings')")
        self.assertEqual(self.browser.value("byId('list').children.length"), 3)
        places = []
        for key in ("n", "n", "n", "n", "p"):
            self.browser.key(key)
            places.append(self.browser.value("byId('place').textContent"))
        self.assertEqual(places, ["1 of 3", "2 of 3", "3 of 3", "1 of 3", "3 of 3"])
        self.browser.value("byId('list').children[1].click()")
        self.assertEqual(self.browser.value("[marked.first, marked.last].join()"), "19,24")

    def test_go_to_event(self):
        self.open(ORDER * 100)
        self.browser.key("g")
        for digit in "2345":
            self.browser.key(digit)
        self.browser.key("Enter")
        self.assertEqual(self.browser.value("[marked.first, marked.last].join()"), "2345,2345")
        first, last = map(float, self.browser.value(VIEW).split())
        self.assertTrue(first < 2345 < last and last - first <= 200)

    def test_a_try_that_is_one_event_wide_can_be_hit(self):
        # A cut whose only event of a portion is its end, among 4000 events of a hart.
        text = "s 0\n" * 2000 + "o 0\np 0\nr 0 1 1\n" + "s 0\n" * 2000
        self.open(text)
        for away in (-2, 0, 2):
            x, y = self.point(2002, 1)
            self.browser.mouse("mouseMoved", x + away, y)
            self.assertIn("rolled back: 1 instruction undone", self.browser.value("told.textContent"), away)
        self.browser.click(*self.point(2002, 1))
        self.assertEqual(self.browser.value("[marked.first, marked.last].join()"), "2001,2003")

    def test_a_large_order_is_drawn_by_buckets_and_by_runs(self):
        self.open("s 0\n- n0\n- n1\n" * 200000)
        self.assertTrue(self.browser.value("buckets.size * scale < 0.5"))
        self.assertTrue(all(size > 1 for size in self.browser.value(COLOURS_OF_LANES)))
        self.browser.value("look(1000, 1100)")
        self.assertFalse(self.browser.value("buckets.size * scale < 0.5"))
        self.assertTrue(all(size > 1 for size in self.browser.value(COLOURS_OF_LANES)))

    def test_a_narrow_window_has_no_sideways_scroll(self):
        for wide in (320, 500):
            self.open(wide=wide)
            self.assertLessEqual(self.browser.value("document.documentElement.scrollWidth"), wide)
            self.assertTrue(all(size > 1 for size in self.browser.value(COLOURS_OF_LANES)))


class Colours(unittest.TestCase):
    """Contrasts, as they are and under simulated deuteranopia."""

    def test_commit_and_rollback_differ_in_lightness(self):
        for sees in (as_it_is, deuteranopic):
            self.assertGreater(contrast(colours.COMMIT, colours.BACK, sees), 2)

    def test_text_can_be_read(self):
        pairs = [(colours.ON[order.COMMIT], colours.COMMIT), (colours.ON[order.BACK], colours.BACK),
                 (colours.ON[None], colours.UNENDED), (colours.INK, colours.PAPER), (colours.SOFT, colours.PAPER)]
        with open(os.path.join(os.path.dirname(colours.__file__), "page.html"), encoding="utf-8") as file:
            page = file.read()
        # The page's own pairs of text and ground.
        for ink, ground in (("#26303a", "#f7f8f8"), ("#5a646e", "#f7f8f8"), ("#26303a", "#d5e2f0"),
                            ("#ffffff", "#26303a"),
                            ("#e3e8ec", "#26303a"), ("#ffffff", "#45505b")):
            self.assertIn(ground, page)
            pairs.append((ink, ground))
        for ink, ground in pairs:
            for sees in (as_it_is, deuteranopic):
                self.assertGreaterEqual(contrast(ink, ground, sees), 4.5, (ink, ground, sees.__name__))


def linear(colour):
    """Red, green and blue of a colour, as light."""
    parts = [int(colour[at:at + 2], 16) / 255 for at in (1, 3, 5)]
    return [part / 12.92 if part <= 0.04045 else ((part + 0.055) / 1.055) ** 2.4 for part in parts]


def as_it_is(light):
    """What everybody else sees."""
    return light


def deuteranopic(light):
    """What is seen without the cones for green."""
    return [min(1, max(0, sum(share * part for share, part in zip(row, light)))) for row in DEUTERANOPIA]


def contrast(one, other, sees):
    """The ratio of two colours' luminances, by WCAG."""
    lights = sorted(sum(share * part for share, part in zip((0.2126, 0.7152, 0.0722), sees(linear(it)))) + 0.05
                    for it in (one, other))
    return lights[1] / lights[0]
