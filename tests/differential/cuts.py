#!/usr/bin/env python3
"""Prints what packages/c/tests/cuts.c has to print: what the definitions answer on hostile texts cut near their ends, added up.

Nothing here knows the library: each part is answered from docs/DEFINITIONS.md (answers.py), or counted by hand. Where a
figure comes from stands above its function. Bracketed sections are of CommonMark 0.31.2.
"""
import re
import sys
from bisect import bisect_left

sys.dont_write_bytecode = True
from answers import blank_line, destination, label, tag

MOST = 200
SIDES = ["without its first", "without its last", "only its first", "only its last"]


def part(text, side, count):
    """What is looked at of a text that is cut."""
    kept = len(text) - count
    return {"without its first": text[count:], "without its last": text[:kept], "only its first": text[:count],
            "only its last": text[kept:]}[side]


# Inline HTML (6.6). What is found at a place: the end of the least closer from where a search for it begins.

CLOSERS = {"comment": b"-->", "cdata": b"]]>", "declaration": b">", "processing": b"?>"}


def kind_at(text, place):
    """What begins at a place just after an opener, or None, and where its closer is looked for."""
    if text[place - 1:place] == b"?":
        return "processing", place
    if text.startswith(b"--", place):
        return "comment", place
    if text.startswith(b"[CDATA[", place):
        return "cdata", place + 7
    if text[place:place + 1].isalpha():
        return "declaration", place + 1
    return None, place


def least_closers(text):
    """For each kind the places of all its closers, in rising order."""
    return {kind: [hit.start() for hit in re.finditer(b"(?=" + re.escape(closer) + b")", text)]
            for kind, closer in CLOSERS.items()}


def find_at(text, closers, place):
    """The kind at the place, and the end of what begins there, or None."""
    kind, start = kind_at(text, place)
    if kind is None:
        return None, None
    hits = closers[kind]
    index = bisect_left(hits, start)
    return kind, hits[index] + len(CLOSERS[kind]) if index < len(hits) else None


def bytes_passed(text, place, kind, found, shut):
    """The bytes that a step passes over, by the table `cost` of docs/DEFINITIONS.md; `shut` has the kinds of which an
    earlier step found no closer."""
    span = (len(text) if found is None else found) - place
    first = text[place:place + 1]
    if kind == "processing":
        return 0 if kind in shut else span
    if kind == "comment":
        return 1 if kind in shut else 2 + span
    if first == b"-":
        return 1 if "comment" in shut else 2
    if kind == "cdata":
        return 7 if kind in shut else span
    if first == b"[":
        return 7
    if kind == "declaration":
        return 1 if kind in shut else span
    return 1


def scans(text):
    """Steps at all places after openers outside earlier finds: how many there are, how many find something, the sum of the
    ends that they find, and the bytes passed over."""
    closers = least_closers(text)
    shut, find_end = set(), 0
    steps = finds = ends = passed = 0
    for opener in re.finditer(rb"<[!?]", text):
        place = opener.end()
        if place < find_end:
            continue
        kind, found = find_at(text, closers, place)
        passed += bytes_passed(text, place, kind, found, shut)
        steps += 1
        assert passed <= 4 * len(text) + 8 * steps
        if found is not None:
            finds, ends, find_end = finds + 1, ends + found, found
        elif kind is not None:
            shut.add(kind)
    return steps, finds, ends, passed


# The part that is repeated, how often, and for the whole text the bytes passed over and the bound.
OPENERS = [
    (b"<!--", 5000, 24999, 120000),
    (b"<![CDATA[", 5000, 79991, 220000),
    (b"<!a", 5000, 19997, 100000),
    (b"<?", 5000, 9998, 80000),
    (b"<!--<![CDATA[<!a<?", 1000, 80952, 104000),
    (b"<!-->", 5000, 25000, 140000),
]


def print_openers():
    for opener, count, whole, bound in OPENERS:
        text = opener * count
        steps, _, _, passed = scans(text)
        assert (passed, 4 * len(text) + 8 * steps) == (whole, bound)
        for side in SIDES:
            sums = [0, 0, 0, 0, 0]
            for cut in range(1, MOST + 1):
                piece = part(text, side, cut)
                found = scans(piece)
                sums = [a + b for a, b in zip(sums, (*found, 4 * len(piece) + 8 * found[0]))]
            print(f"{count} times {opener.decode()}, {side} 1 to {MOST} bytes: {sums[0]} steps, "
                  f"{sums[1]} finds that end at {sums[2]}, passed {sums[3]} of {sums[4]}, 0 above the bound, 0 differ")


# List markers (5.2) and thematic breaks (4.1). The whole line is 10,000 times `- `, then `x`.

def items(line, calls):
    """The items that so many calls take, and the bytes that they take.

    A bullet is no marker where the line from it on holds bullets and spaces alone, three bullets or more, for there a
    thematic break begins. A bullet takes itself and one space, and its content stands two columns further; a bullet at
    the end takes itself. In these lines no other space follows the one behind a bullet.
    """
    taken = place = 0
    while taken < calls and line[place:place + 1] == b"-":
        if not line.endswith(b"x") and line.count(b"-", place) >= 3:
            break
        taken += 1
        place = min(place + 2, len(line))
    return taken, place


def print_bullets():
    line = b"- " * 10_000 + b"x"
    assert items(line, 10_000) == (10_000, 20_000)
    for side in SIDES:
        taken = scanned = rest = 0
        for cut in range(1, MOST + 1):
            piece = part(line, side, cut)
            found = items(piece, 10_000)
            taken, scanned, rest = taken + found[0], scanned + found[1], rest + len(piece) - found[1]
        print(f"10000 bullets, {side} 1 to {MOST} bytes, 10000 calls: {taken} answers of {2 * taken} columns, "
              f"scanned {scanned}, rest {rest}, 0 stops")


# Tabs (2.2): from column 0 on each takes four columns. The call takes all of them, and leaves the `x`.

def print_tabs():
    line = b"\t" * 100_000 + b"x"
    for side in SIDES:
        tabs = rest = 0
        for cut in range(1, MOST + 1):
            piece = part(line, side, cut)
            tabs, rest = tabs + piece.count(b"\t"), rest + piece.count(b"x")
        print(f"100000 tabs, {side} 1 to {MOST} bytes: {MOST} answers of {4 * tabs} columns, "
              f"scanned {tabs}, rest {rest}, 0 stops")


# Link destinations (6.3): of parentheses alone.

def print_parentheses():
    text = b"(" * 1000 + b")" * 1000
    assert (destination(text, 999), destination(text, 998)) == (2000, None)
    for side in SIDES:
        for max_next in (999, 998):
            taken = [destination(part(text, side, cut), max_next) for cut in range(1, MOST + 1)]
            taken = [item for item in taken if item is not None]
            print(f"1000 parentheses, {side} 1 to {MOST} bytes, most {max_next}: "
                  f"{len(taken)} finds of {sum(taken)} bytes")


# Labels and tags over lines (6.3, 6.6): behind each line ending a handler says how many bytes are skipped. Blank lines (2.2).

def nothing(_):
    return 0


def shown_label(text, skips):
    found = label(text, skips)
    return f"{found[0]} {'lent' if found[2] else 'built'} {found[1]}" if found else "none"


def tag_skipped(text):
    """The length of a tag of which all is skipped behind its first line ending."""
    found = tag(text, len)
    return str(found[1]) if found else "none"


def shown_blank_line(text):
    found = blank_line(text)
    return "none" if found is None else str(found)


SHORT = [
    ("label over CR LF", b"a\r\nb]", lambda label: shown_label(label, nothing), "5 built a b"),
    ("label over LF, CR", b"a\n\rb]", lambda label: shown_label(label, nothing), "none"),
    ("label over CR, X, LF", b"a\rX\nb]", lambda label: shown_label(label, lambda rest: rest[:1] == b"X"), "none"),
    ("label of which all is skipped", b"a\n]", lambda label: shown_label(label, len), "none"),
    ("tag of which all is skipped", b"<a\n>", tag_skipped, "none"),
    ("blank line", b"\r\r\n", shown_blank_line, "1"),
]


def print_short():
    # the same tag, where its second line begins with what is skipped, and where nothing is skipped
    assert (tag(b"<a\n> >", lambda rest: 2), tag(b"<a\n>", nothing)) == ((b"<a\n>", 6), (b"<a\n>", 4))
    for name, text, answer, whole in SHORT:
        assert answer(text) == whole
        for side in SIDES[:2]:
            for cut in range(len(text) + 1):
                print(f"{name}, {side} {cut} bytes: {answer(part(text, side, cut))}")


if __name__ == "__main__":
    print_openers()
    print_bullets()
    print_tabs()
    print_parentheses()
    print_short()
