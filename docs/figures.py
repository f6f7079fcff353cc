"""Figures in pages: each is counted from the tree, or stands in a source that has it first.

A row is a page, a piece of its text with {} in the place of each figure, and the figures. White space fits any.
"""
import re
import shutil
import subprocess
from collections import Counter
from functools import cache

import totals_file
from crate_list import crates
from rattle_source import TOP, text_of

WORDS = "no one two three four five six seven eight nine ten eleven twelve thirteen fourteen fifteen sixteen".split()
FIGURE = r"(\w+(?:[.,]\w+)*)"
NUMBER = re.compile(r"\d+(?:[.,]\d+)*")
# What README.md says in digits that are no figures of the tree: versions, the proved bound, names.
GIVEN = re.compile(r"\b\d+\.\d+\.\d+\b|\| 0\.31 \||\bC99\b|\bmd4c\b|4n \+ 8k|\b32-bit\b")


@cache
def totals(path):
    """The totals of a file that are numbers."""
    return {name: int(total) for name, total in totals_file.read(TOP / path).items() if total.isdecimal()}


def source(path, pattern):
    """What stands in a source at the group of a pattern, which fits there in one way."""
    found = {match[1] for match in re.finditer(pattern, text_of(path))}
    if len(found) != 1:
        raise SystemExit(f"docs/figures.py: {path} has {len(found)} numbers by {pattern}")
    return found.pop()


def number(path, pattern):
    return int(source(path, pattern).replace("_", ""))


def printed(figure):
    """A figure as pages write it."""
    return f"{figure:,}" if isinstance(figure, int) else figure


def answered():
    """How many cases of each call pulldown-cmark answered, those of lines apart."""
    lines = text_of("crates/tests_replay/stdin").splitlines()[-totals("tests/differential/totals")["answered"] :]
    found = Counter(line.split("\t")[0] for line in lines)
    return found.pop("line"), found


def rows_of_programs():
    """How many rows say what programs print, beside the examples of CommonMark."""
    found = totals("tests/rows/totals")
    return sum(found.values()) - found["spec-0.31.2"]


def of_answers():
    replay = totals("tests/differential/totals")
    lines, calls = answered()
    both = replay["worked"], replay["answered"]
    cases = len(totals_file.read(TOP / "tests/faults/cases"))
    return [
        ("README.md", "They are tested, by {} worked rows, {} of what programs print,", [both[0], rows_of_programs()]),
        ("README.md", "the specification's examples, {} inputs on which", both[1:]),
        ("docs/MAP.md", "the {} worked rows of `tests/differential/rows`, and {} that pulldown-cmark", both),
        ("docs/DIFFERENCES.md", "how the {} answers of pulldown-cmark were made", both[1:]),
        ("tests/differential/README.md", "begins with the {} worked rows of", both[:1]),
        ("tests/differential/README.md", "and then has {} cases with the answers", both[1:]),
        ("tests/differential/README.md", "must print `{} agree, 0 differ`", [str(sum(both))]),
        ("tests/differential/README.md", "The latter are {} lists of calls", [lines]),
        ("tests/differential/README.md", "up to {} inputs for each of {} other calls", [max(calls.values()), len(calls)]),
        ("tests/differential/README.md", "computes each of the {} cases", [cases]),
        ("README.md", "the {} checks of `tests/faults/run`", [2 * sum(totals("tests/faults/totals").values())]),
    ]


def of_parser():
    found = totals("tests/parser/totals")
    original, swapped = found["tests-original"], found["tests-swapped"]
    most = totals_file.read(TOP / "tests/parser/totals")["instructions"]
    page = "tests/parser/README.md"
    return [
        (page, "Of the {} functions of `scanners.rs`", [found["functions"]]),
        (page, "`puncttable.rs` {} are gone", [found["functions"] - found["kept"]]),
        (page, "{} functions stay:", [WORDS[found["kept"]].capitalize()]),
        (page, "EXPECTED.md), {} fragments made of pieces", [found["fragments"]]),
        (page, "3 of docs | {} of {} | {}; {} comments", [original, original, swapped, WORDS[original - swapped]]),
        (page, "| {} fragments, {} MB |", [found["fragments"], f"{found['bytes'] / 1e6:.1f}"]),
        (page, "| {} differ, all of known kinds; of {} calls {} are answered", [found[name] for name in ("differ", "calls", "answers")]),
        (page, "`totals` lets {}.", [most]),
    ]


def of_texts(kind):
    """Of whole texts through C, by bench/corpora/run: the least and the greatest ratio, on how many it is below 1, and how many there are."""
    part = text_of("bench/RESULTS.md").split("\nWhole texts, instructions a byte:\n")[1].split("\nThe first ")[0]
    return re.search(rf"(?m)^- {kind}: ([\d.]+) .* to ([\d.]+) .*, below 1 on (\d+) of (\d+) texts$", part).groups()


def of_others():
    """The costs of other parsers: in instructions, by bench/corpora/run, and in megabytes a second, as the pages of the packages have them."""
    pulldown, events, cmark, md4c = (of_texts(kind) for kind in ("HTML", "events", "HTML of cmark", "HTML of md4c"))
    results, node, python = "bench/RESULTS.md", "packages/javascript/README.md", "packages/python/README.md"
    markdown_it = float(source(node, r"([\d.]+) MB/s on either module,")) / float(source(node, r"and to ([\d.]+) by markdown-it"))
    mistune = float(source(python, r"(?m)^\| `html\(page\)` \| ([\d.]+) \|$")) / float(source(python, r"\| mistune [\d.]+ \| ([\d.]+) \|"))
    costs = [*cmark[:2], *md4c[:2], *pulldown[:2], f"{markdown_it:.1f}", f"{mistune:.0f}"]
    ahead = [md4c[2], WORDS[int(md4c[3])], pulldown[2], *events[:2]]
    patterns = [r"and cmark ([\d.]+)\. Instructions", r"md4c ([\d.]+) and cmark", r"beside pulldown-cmark ([\d.]+) \(`push_html`"]
    timed = [source(node, r"by markdown-it ([\d.]+) with its preset"), source(python, r"\| mistune ([\d.]+) \|")]
    return [
        ("README.md", "for cmark {}, md4c {} and pulldown-cmark {} with `simd`,", [source(results, pattern) for pattern in patterns]),
        ("README.md", "and time for [markdown-it {}](packages/javascript/README.md#how-fast-it-is) and [mistune {}]", timed),
        ("README.md", "| Cost of HTML, ours as 1 | 1 | {} to {} | {} to {} | {} to {} | – | {} (time) | {} (time) |", costs),
        ("README.md", "the most of [{} texts](bench/RESULTS.md#texts-of-many-kinds) ({} for cmark),", [WORDS[int(it[3])] for it in (md4c, cmark)]),
        ("README.md", "md4c is ahead on {} of the {} texts, pulldown-cmark on {}, and its events take {} to {} of our instructions", ahead),
    ]


def of_gate():
    """What `rt ci` counts: the crates, and the wrong bodies of their must-fail/."""
    proved = len(crates())
    refused = sum(int(numbers.split()[0]) for numbers in totals_file.read(TOP / "tests/mutations/totals").values())
    return [
        ("README.md", "{} passed, 0 failed", [proved + refused]),
        ("README.md", "proves {} crates, has the prover refuse {} wrong bodies,", [proved, refused]),
    ]


def of_packages():
    made = totals("packages/javascript/totals")["made_pages"]
    most, most_wide = (number("packages/javascript/test", rf"(?m)^{name}=(\d+)$") // 1000 for name in ("most", "most64"))
    asking = len(re.findall(r":\s+(?:\* )?MDS_NO_MEMORY\.", text_of("packages/c/include/fillaqut.h")))
    return [
        ("README.md", "WebAssembly module of at most {} KB", [most]),
        ("packages/javascript/README.md", "WebAssembly module of at most {} KB", [most]),
        ("packages/javascript/README.md", "64-bit memory and SIMD, and at most {} KB", [most_wide]),
        ("packages/javascript/README.md", "page's reading of {} made pages", [made]),
        ("README.md", "what the {} that ask for memory answer", [WORDS[asking]]),
    ]


def of_sources():
    events, html = "crates/markdown_events/specs/page/Sizes.antt", "crates/markdown_html/specs/HtmlSizes.antt"
    most_events = [number(events, r"≤ (\d+) \* length page"), number(events, r"\* length page \+ (\d+)")]
    most_html = [number(html, r"written ≤ (\d+) \* length page"), number(html, r"\* length page \+ (\d+)")]
    most_html.insert(1, 3 * most_html[0])  # a zero byte is read as U+FFFD, which has three
    return [
        ("README.md", "and cut no character; at most {} for each byte, and {} |", most_events),
        ("README.md", "by definition; at most {} bytes for each byte ({} for a zero byte), and {};", most_html),
        ("docs/DECISIONS.md", "a perfect hash of {} seeds", [number("crates/html_entities/generate.py", r"(?m)^SEED_COUNT = (\d+)")]),
    ]


def of_kit():
    """The logic of the kit that is here, with which the tree is proved; nothing where there is no kit."""
    if not shutil.which("rt"):
        return []
    said = subprocess.run(["rt", "version"], capture_output=True, text=True, check=True).stdout
    return [("README.md", "whose logic `rt version` names `{}`", [said.split()[-1]])]


def rows():
    return of_answers() + of_parser() + of_others() + of_gate() + of_packages() + of_sources() + of_kit()


def pattern_of(words):
    parts = [r"\s+".join(map(re.escape, re.split(r"\s+", part))) for part in words.split("{}")]
    return re.compile(FIGURE.join(parts))


def faults_of(page, words, figures, text):
    """What is wrong with a row, and the text of the page with its figures."""
    found = list(pattern_of(words).finditer(text))
    wanted = [printed(figure) for figure in figures]
    if len(found) != 1:
        return f"{page}: {len(found)} places have the words: {words}", text
    if list(found[0].groups()) == wanted:
        return "", text
    for at in range(len(wanted), 0, -1):
        start, end = found[0].span(at)
        text = text[:start] + wanted[at - 1] + text[end:]
    return f"{page}: {', '.join(found[0].groups())}, and not {', '.join(wanted)}: {words}", text


def unknown_of(text, known):
    """Numbers of README.md, beside those in code, that no row has."""
    text = re.sub(r"(?ms)^```.*?^```", "", text)
    for words in known:
        text = pattern_of(words).sub("", text)
    text = GIVEN.sub("", re.sub(r"`[^`]*`|\]\([^)]*\)", "", text))
    return [f"README.md: a figure of which docs/figures.py says nothing: {match[0].strip()}" for match in re.finditer(r".*\d.*", text)]


def faults(writes):
    """What is wrong in the pages; where it is to be written, what is left of it then."""
    said, texts, all_rows = [], {}, rows()
    for page, words, figures in all_rows:
        fault, text = faults_of(page, words, figures, texts.get(page, text_of(page)))
        is_mended = writes and text != texts.get(page, text_of(page))
        texts[page] = text if writes else text_of(page)
        said += [fault] if fault and not is_mended else []
    for page, text in texts.items():
        if text != text_of(page):
            (TOP / page).write_text(text)
    return said + unknown_of(texts["README.md"], [words for page, words, _ in all_rows if page == "README.md"])
