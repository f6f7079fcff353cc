"""The table of bench/corpora/run: of totals, and its section in bench/RESULTS.md."""
import re
from pathlib import Path

PAGE = Path(__file__).resolve().parents[1] / "RESULTS.md"
HEAD = "## Texts of many kinds"
# Each size with the most bytes that it has, and its title.
SIZES = {"whole": 0, "10k": 10_000, "100": 100}
TITLES = {"whole": "Whole texts", "10k": "The first 10,000 bytes of each", "100": "The first 100 bytes of each"}
COLUMNS = {
    "ours: HTML": ("ours", "html"),
    "ours: safe HTML": ("ours", "safe"),
    "ours: events": ("ours", "events"),
    "pulldown-cmark: HTML": ("pulldown", "html"),
    "pulldown-cmark: events": ("pulldown", "events"),
    "with simd: HTML": ("simd", "html"),
    "with simd: events": ("simd", "events"),
    "UTF-8": ("simd", "utf8"),
    "md4c: HTML": ("md4c", "html"),
    "cmark: HTML": ("cmark", "html"),
}
# Each ratio that is a column: what of pulldown-cmark with simd is divided by what of ours; and those of which there is only the range.
RATIOS = {
    "HTML": ([("simd", "html")], ("ours", "html")),
    "safe HTML": ([("simd", "html")], ("ours", "safe")),
    "events": ([("simd", "events")], ("ours", "events")),
}
RANGES = {
    **RATIOS,
    "HTML after the test": ([("simd", "utf8"), ("simd", "html")], ("ours", "html")),
    "events after the test": ([("simd", "utf8"), ("simd", "events")], ("ours", "events")),
    "HTML of md4c": ([("md4c", "html")], ("ours", "html")),
    "HTML of cmark": ([("cmark", "html")], ("ours", "html")),
}
WORDS = """
By `bench/corpora/run`: the instructions for a byte of whole texts, of the C library (`mds_html_unsafe`, `mds_html`, and `mds_events`, whose
events have ranges) beside pulldown-cmark 0.9.2 (`push_html`, and `into_offset_iter` for events), without its feature `simd` and with it,
md4c 0.4.8 and cmark 0.30.2. Instructions are counted, by callgrind, and not time: other programs on the machine do not change them. The first
three texts are real, the others made; `corpora/README.md` says of what. `real` is the text above, for which the libraries were tuned.
`tables` is read with tables, which cmark has not.

A ratio is the instructions of pulldown-cmark with `simd` for one of ours; above 1 ours takes fewer. pulldown-cmark has no safe HTML: beside
ours stands its HTML as it is. Ours tests whether a text is UTF-8, and pulldown-cmark is given one that was tested: `UTF-8` is what the test by
Rust's library takes beside, and ratios after the test have that and what pulldown-cmark takes. Ours writes all events and their texts to
buffers, where pulldown-cmark's are only counted.
"""


def name_of(key, *parts):
    """A total's name: text, size, and what it is of."""
    return ".".join([*key, *parts])


def number(value):
    """A figure with three digits or more, or a dash where there is none."""
    if value is None:
        return "–"
    return f"{value:.0f}" if value >= 99.95 else f"{value:.1f}" if value >= 10 else f"{value:.2f}"


def ratios(totals, key, kinds):
    """The ratios of a page by their titles, of those that were measured."""
    found = {}
    for title, (theirs, ours) in kinds.items():
        own, *taken = [totals.get(name_of(key, *side)) for side in (ours, *theirs)]
        found |= {title: sum(taken) / own} if own and all(taken) else {}
    return found


def row(totals, key):
    size = totals[name_of(key, "bytes")]
    taken = [totals.get(name_of(key, *side)) for side in COLUMNS.values()]
    of_page = ratios(totals, key, RATIOS)
    cells = [key[0], f"{size:,}", *(number(item and item / size) for item in taken), *(number(of_page.get(title)) for title in RATIOS)]
    return f"| {' | '.join(cells)} |"


def ranges(totals, keys):
    """A line for each ratio: the least and the greatest, and on how many texts it is below 1."""
    of_pages = {key: ratios(totals, key, RANGES) for key in keys}
    for title in RANGES:
        found = {key[0]: of_page[title] for key, of_page in of_pages.items() if title in of_page}
        if found:
            least, most = min(found, key=found.get), max(found, key=found.get)
            below = sum(ratio < 1 for ratio in found.values())
            yield f"- {title}: {number(found[least])} (`{least}`) to {number(found[most])} (`{most}`), below 1 on {below} of {len(found)} texts"


def table_of(totals, keys):
    """The table of these pages, and its ranges."""
    head = ["text", "bytes", *COLUMNS, *(f"ratio: {title}" for title in RATIOS)]
    lines = [f"| {' | '.join(head)} |", f"| --- |{' ---: |' * (len(head) - 1)}", *(row(totals, key) for key in keys)]
    found = list(ranges(totals, keys))
    return "\n".join([*lines, *(["", "The ratios, and those of md4c and cmark:", "", *found] if found else [])])


def tables(totals, unit):
    """A table for each size that was measured."""
    keys = [tuple(name.rsplit(".", 2)[:2]) for name in totals if name.endswith(".bytes")]
    of_sizes = {size: [key for key in keys if key[1] == size] for size in TITLES}
    return "\n\n".join(f"{TITLES[size]}, {unit} a byte:\n\n{table_of(totals, own)}" for size, own in of_sizes.items() if own)


def section(totals):
    return f"{HEAD}\n{WORDS}\n{tables(totals, 'instructions')}\n"


def page():
    return PAGE.read_text()


def put(totals):
    """Puts the section into the page, in the place of the one that it has."""
    text, made = page(), section(totals)
    found = re.search(rf"(?ms)^{HEAD}\n.*?(?=^## )", text)
    if not found:
        raise SystemExit(f"{PAGE} has no section {HEAD}")
    PAGE.write_text(text[: found.start()] + made + "\n" + text[found.end() :])
