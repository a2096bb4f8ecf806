"""A run as a page that stands alone."""
import base64
import html
import json
import os
import zlib

from gibolufi import order
from gibolufi.pictures import colours
from gibolufi.pictures.run import range_words, totals

PAGE = os.path.join(os.path.dirname(os.path.abspath(__file__)), "page.html")


# So many bytes are tried to see which way of packing is shorter.
SAMPLE = 1 << 18
WAYS = ((6, zlib.Z_DEFAULT_STRATEGY), (1, zlib.Z_HUFFMAN_ONLY))


def deflated(held, level, strategy):
    """Bytes, deflated in a way."""
    packer = zlib.compressobj(level, zlib.DEFLATED, 15, 9, strategy)
    return packer.compress(held) + packer.flush()


def packed(held):
    """Bytes as the page takes them: deflated in whichever way is shorter for their middle, as base64."""
    middle = max(0, len(held) - SAMPLE) // 2
    sample = held[middle:middle + SAMPLE]
    way = min(WAYS, key=lambda it: len(deflated(sample, *it)))
    return base64.b64encode(deflated(held, *way)).decode()


def packed_ends(run):
    """For each commit and rollback: its instructions in two bytes, less one, and its cause."""
    held = bytearray(3 * len(run.acts))
    held[0::3] = bytes(n - 1 & 255 for n in run.acts)
    held[1::3] = bytes(n - 1 >> 8 for n in run.acts)
    held[2::3] = bytes(run.ends)
    return bytes(held)


def cut_portions(run):
    """The portions that begin before what is shown, and those that end after it."""
    before = [[it.lane, it.first, it.is_locked] for it in run.portions() if it.first < run.first]
    after = [[it.lane, it.last, it.end or 0, it.acts, it.cause] for it in run.portions() if it.last > run.last]
    return before, after


def page_of(run):
    """The page with the run's numbers in it."""
    before, after = ([], []) if run.is_whole else cut_portions(run)
    held = {
        "before": before, "after": after, "hasKernels": run.has_kernels,
        "first": run.first, "last": run.last, "harts": len(run.report.harts),
        "lanes": run.report.lanes, "names": order.NAMES, "words": order.WORDS, "ends": order.ENDS,
        "letters": order.LETTERS, "colours": colours.KINDS, "unended": colours.UNENDED,
        "dark": colours.DARK, "light": colours.LIGHT, "hatch": colours.HATCH, "acts": colours.ACTS,
        "legend": colours.legend(run), "codes": packed(run.codes), "numbers": packed(packed_ends(run)),
    }
    rows = "\n".join(f"<tr><th>{html.escape(name)}</th><td>{html.escape(words)}</td></tr>"
                     for name, words in totals(run))
    with open(PAGE, encoding="utf-8") as file:
        page = file.read()
    for mark, text in (("title", run.title), ("head", run.head), ("range", range_words(run))):
        page = page.replace(f"<!--{mark}-->", html.escape(text))
    page = page.replace("<!--totals-->", rows)
    return page.replace("/*held*/null", json.dumps(held).replace("<", "\\u003c"))
