"""A run as a picture alone."""
import html

from gibolufi import order
from gibolufi.pictures import colours
from gibolufi.pictures.run import events_words, range_words, totals

LEFT, WIDTH, TOP, LANE, GAP = 76, 1000, 30, 30, 8
ACT_KINDS = (order.OPEN, order.LOCK, order.TRY)
STYLE = (f"<style>.small{{font-size:11px}} text{{fill:{colours.INK}}} .dark{{fill:{colours.DARK}}} "
         f".light{{fill:{colours.LIGHT}}}</style>\n"
         '<defs><pattern id="hatch" width="6" height="6" patternUnits="userSpaceOnUse" '
         f'patternTransform="rotate(45)"><path d="M0 0v6" stroke="{colours.HATCH}" stroke-width="2"/>'
         "</pattern></defs>\n")


class Picture:
    """An SVG text in the making."""

    def __init__(self, run):
        self.run = run
        self.scale = WIDTH / max(1, run.last - run.first + 1)
        self.parts = []
        self.columns = {}

    def x_of(self, event):
        """Where an event begins."""
        return LEFT + (min(max(event, self.run.first), self.run.last + 1) - self.run.first) * self.scale

    @staticmethod
    def top_of(lane):
        """Where a lane begins."""
        return TOP + lane * (LANE + GAP)

    def box(self, at, size, colour, title="", more=""):
        """A rectangle, with what is told of it under the pointer."""
        (x, y), (wide, high) = at, size
        told = f"><title>{html.escape(title)}</title></rect>" if title else "/>"
        self.parts.append(f'<rect x="{x:.2f}" y="{y:g}" width="{wide:.2f}" height="{high:g}" '
                          f'fill="{colour}"{more}{told}')

    def text(self, x, y, words, more=""):
        """A line of text."""
        self.parts.append(f'<text x="{x:.1f}" y="{y:g}"{more}>{html.escape(words)}</text>')

    def lanes(self):
        """Each lane's name and ground, the events' numbers above, and where a lock held the others."""
        for lane, name in enumerate(self.run.report.lanes):
            self.text(LEFT - 10, self.top_of(lane) + 20, name, ' text-anchor="end"')
            self.box((LEFT, self.top_of(lane)), (WIDTH, LANE), colours.GROUND)
        last_right = 0
        for event in ticks(self.run.first, self.run.last):
            x, text = self.x_of(event), str(event)
            if x - last_right < 8 * len(text):
                continue
            last_right = x
            self.parts.append(f'<path d="M{x:.1f} {TOP - 6}v4" stroke="{colours.SOFT}"/>')
            self.text(x, TOP - 11, text, ' class="small" text-anchor="middle"')
        high = self.top_of(len(self.run.report.lanes)) - TOP - GAP
        bands = [f"M{self.x_of(it.first):.1f} {TOP}H{self.x_of(it.last + 1):.1f}v{high}"
                 f"H{self.x_of(it.first):.1f}z" for it in self.run.portions() if it.is_locked]
        if bands:
            self.parts.append(f'<path d="{"".join(bands)}" fill="{colours.LOCK}" fill-opacity=".13"/>')

    def portions(self):
        """A bar for each portion; columns gather those that are narrower."""
        for portion in self.run.portions():
            x, end = self.x_of(portion.first), self.x_of(portion.last + 1)
            if end - x < 1:
                self.gather(portion.lane, portion.end or order.OPEN, x, end - x)
            else:
                self.portion(portion, x, end - x)

    def portion(self, portion, x, wide):
        """One bar, with its hatch, its lock and its label."""
        y, drawn = self.top_of(portion.lane), wide - 0.8 * (wide > 4)
        name = self.run.report.lanes[portion.lane]
        colour = colours.UNENDED if portion.end is None else colours.KINDS[portion.end]
        self.box((x, y + 1), (drawn, LANE - 2), colour, portion.words(name))
        if portion.end == order.BACK:
            self.box((x, y + 1), (drawn, LANE - 2), "url(#hatch)", portion.words(name))
        if portion.is_locked:
            self.box((x, y + 1), (drawn, 4), colours.LOCK)
        for label in portion.labels():
            wanted = 5.9 * len(label) + 8
            if wide > wanted:
                self.box((x + 2, y + 6), (wanted - 2, 14), colour)
                shade = "light" if colours.ON[portion.end] == colours.LIGHT else "dark"
                self.text(x + 5, y + 17, label, f' class="small {shade}"')
                break

    def bars(self):
        """The runs of equal entries; columns gather those that are narrower."""
        for first, length, code, acts, end in self.run.runs():
            kind, lane, wide = code >> 4, code & 15, length * self.scale
            if wide >= 1:
                title = (f"{events_words(first, first + length - 1)}: {self.run.entry_text(code, acts, end)}: "
                         f"{self.run.entry_words(code, acts, end)}")
                self.bar(self.x_of(first), wide, lane, kind, title)
            elif kind not in (order.COMMIT, order.BACK):
                self.gather(lane, order.TRY if kind in ACT_KINDS else kind, self.x_of(first), wide)

    def bar(self, x, wide, lane, kind, title):
        """One bar: acts of a portion are a strip at its foot, and its ends a mark."""
        y, colour = self.top_of(lane), colours.KINDS[kind]
        if kind in ACT_KINDS:
            self.box((x, y + LANE - 8), (wide, 6), colours.ACTS, title)
        elif kind == order.IDLE:
            self.box((x, y + 11), (wide, 8), colour, title)
        elif kind in (order.COMMIT, order.BACK):
            self.box((x, y - 1), (wide, LANE + 2), colour)
            self.box((x, y - 1), (wide, LANE + 2), colours.DARK, title, ' fill-opacity=".3"')
        else:
            self.box((x, y + 5), (wide, LANE - 10), colour, title)
        if kind == order.HELD:
            self.box((x, y + 14), (wide, 2), colours.PAPER, "", ' fill-opacity=".8"')

    def gather(self, lane, kind, x, wide):
        """Adds what is narrower than a column of one unit to the column that it begins in."""
        shares = self.columns.setdefault((lane, int(x - LEFT)), [0.0] * len(order.NAMES))
        shares[kind] += wide

    def gathered(self):
        """The columns: how much of each a kind covers, the whole the denser the more is covered."""
        paths = {}
        for (lane, column), shares in self.columns.items():
            self.column(lane, column, shares, paths)
        for (colour, opacity), path in sorted(paths.items(), key=lambda it: it[0][0] == colours.ACTS):
            self.parts.append(f'<path d="{"".join(path)}" stroke="{colour}" stroke-opacity="{opacity}"/>')

    def column(self, lane, column, shares, paths):
        """One column, added to the paths by colour and density."""
        edge = 5 if lane < len(self.run.report.harts) else 1
        x, y, high = LEFT + column + 0.5, self.top_of(lane), LANE - 2 * edge
        acts, idle, shares[order.TRY], shares[order.IDLE] = shares[order.TRY], shares[order.IDLE], 0, 0
        total, at = sum(shares), y + edge
        if acts:
            place = colours.ACTS, round(min(1, 0.4 + acts / 2), 1)
            paths.setdefault(place, []).append(f"M{x:g} {y + LANE - 8}v6")
        if idle:
            place = colours.KINDS[order.IDLE], round(min(1, 0.35 + idle), 1)
            paths.setdefault(place, []).append(f"M{x:g} {y + 11}v8")
        for kind, share in enumerate(shares):
            if share:
                colour = colours.UNENDED if kind == order.OPEN else colours.KINDS[kind]
                place = colour, round(min(1, 0.35 + 0.65 * total), 1)
                paths.setdefault(place, []).append(f"M{x:g} {at:.1f}v{high * share / total:.1f}")
                at += high * share / total

    def foot(self):
        """The legend and the totals; gives the height of the whole."""
        y, x = self.top_of(len(self.run.report.lanes)) + 14, LEFT
        for name, colour, has_hatch in colours.legend(self.run):
            self.box((x, y - 9), (12, 10), colour)
            if has_hatch:
                self.box((x, y - 9), (12, 10), "url(#hatch)")
            self.text(x + 16, y, name, ' class="small"')
            x += 34 + 5.4 * len(name)
        y += 12
        for name, words in totals(self.run):
            y += 16
            self.text(LEFT - 10, y, name, ' class="small" text-anchor="end"')
            self.text(LEFT, y, words, ' class="small"')
        return y + 14

    def whole(self):
        """The text of the picture."""
        self.lanes()
        self.portions()
        self.bars()
        self.gathered()
        high = self.foot()
        wide = LEFT + WIDTH + 24
        return (f'<svg xmlns="http://www.w3.org/2000/svg" width="{wide}" height="{high}" '
                f'viewBox="0 0 {wide} {high}" font-family="sans-serif" font-size="13">\n'
                f"<title>{html.escape(f'{self.run.title}: {range_words(self.run)}')}</title>\n" + STYLE
                + f'<rect width="{wide}" height="{high}" fill="{colours.PAPER}"/>\n'
                + "\n".join(self.parts) + "\n</svg>\n")


def ticks(first, last):
    """Round numbers for the axis, about ten, and the first."""
    step = 1
    while (last - first) / step > 10:
        step = step * 5 // 2 if str(step)[0] == "2" else step * 2
    return [first] + list(range(first - first % step + step, last + 1, step))
