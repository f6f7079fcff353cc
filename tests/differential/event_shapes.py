"""What fillaqut events and cmark, or cmark-gfm with tables and strikethrough, say of the elements and texts of a page, in one form, without
ranges. Pages and texts of them are bytes."""
import re

from block_trees import CMARK, CMARK_GFM, in_attribute, name_of, parsed, said_by, without_control

ENDINGS = re.compile(rb"\r\n|\r")
WITH_EXTENSIONS = [*CMARK_GFM, "-e", "strikethrough"]
# A code fence after a tab, of which a container may take some columns.
FENCE_AFTER_TAB = re.compile(rb"\t *(?:```|~~~)")
THEIR_NAMES = {"block_quote": "block quote", "list": "list", "item": "item", "code_block": "code block", "paragraph": "paragraph",
               "heading": "heading", "emph": "emphasis", "strong": "strong", "link": "link", "image": "image", "table": "table",
               "table_header": "table head", "table_row": "table row", "table_cell": "table cell", "strikethrough": "strikethrough"}
THEIR_LEAVES = {"thematic_break": "rule", "softbreak": "soft break", "linebreak": "hard break"}
ALIGNMENTS = ("none", "left", "center", "right")
THEIR_TEXTS = {"text": "text", "code": "code", "html_inline": "html", "html_block": "html", "code_block": "text"}


def in_text(text):
    """The text as cmark's XML has it, in which each line ending is a line feed."""
    return without_control(ENDINGS.sub(b"\n", text))


def joined(said):
    """The same, with neighbours of text, and of HTML, as one, each without its last line feed, which cmark adds to the last line of a page.
    Empty texts are left out."""
    found = []
    for line in said:
        if line[0] in ("text", "html") and found and found[-1][0] == line[0]:
            line = (line[0], found.pop()[1] + line[1])
        if line[1:] != (b"",) or line[0] == "code":
            found.append(line)
    return [(item[0], item[1].removesuffix(b"\n")) if item[0] in ("text", "html") else item for item in found]


def our_link(how, texts):
    destination, title = texts
    return in_attribute(b"mailto:" * (how == "email") + destination), in_attribute(title)


def our_said(event):
    """What an event says, in the form of both."""
    if event.words.startswith("end "):
        return ("end",)
    kind, _, element = event.words.partition(" ")
    if kind != "start":
        return (event.words, *map(in_text, event.texts))
    name = re.sub(" [0-9]+$", "", element)
    if name.startswith("table ") and name.split()[1] in ALIGNMENTS:
        return ("start", "table", name.removeprefix("table "))
    if name == "code block":
        return ("start", name, in_attribute(b"".join(event.texts)))
    if name.startswith(("link ", "image ")):
        name, how = name.split(" ", 1)
        return ("start", name, *our_link(how, event.texts))
    return ("start", name, element[len(name) :].strip())


def our_shape(events):
    """What the events say, without texts of tabs alone before a line ending, which cmark leaves out."""
    said = joined(map(our_said, events))
    is_left_out = lambda item, after: item[0] == "text" and not item[1].strip(b" \t") and after in (("soft break",), ("hard break",))
    return [item for item, after in zip(said, [*said[1:], None]) if not is_left_out(item, after)]


def their_details(element, name):
    if name == "heading":
        return (element.get("level"),)
    if name == "list":
        return (element.get("start") or "",)
    if name == "table":
        head = next(child for child in element if name_of(child) == "table_header")
        return (" ".join(cell.get("align") or "none" for cell in head),)
    if name == "code block":
        return (in_attribute((element.get("info") or "").encode("latin-1")),)
    if name in ("link", "image"):
        return tuple(in_attribute(element.get(name, "").encode("latin-1")) for name in ("destination", "title"))
    return ("",)


def is_read_tight(element, has_tight_tables):
    """Whether a list is tight: as cmark says, or also where a table stands directly in one of its items, by which cmark-gfm takes it for loose."""
    held = [name_of(block) for item in element for block in item] if has_tight_tables else []
    return element.get("tight") == "true" or "table" in held


def their_shape(page, program=CMARK, has_tight_tables=False):
    """The same of cmark, or of cmark-gfm. The paragraphs of a tight list are none."""
    said, waiting = [], [(iter(parsed(said_by(program, page))), False, None)]
    while waiting:
        held, is_tight, end = waiting[-1]
        element = next(held, None)
        if element is None:
            waiting.pop()
            said += [end] if end else []
            continue
        name, text = name_of(element), (element.text or "").encode("latin-1")
        if name in THEIR_LEAVES:
            said.append((THEIR_LEAVES[name],))
        elif name not in THEIR_NAMES:
            said.append((THEIR_TEXTS[name], text))
        elif name == "paragraph" and is_tight:
            waiting.append((iter(element), False, None))
        else:
            said.append(("start", THEIR_NAMES[name], *their_details(element, THEIR_NAMES[name])))
            said += [("text", text)] if name == "code_block" else []
            tight = is_read_tight(element, has_tight_tables) if name == "list" else name == "item" and is_tight
            waiting.append((iter(element), tight, ("end",)))
    return joined(said)


def without_runs(text):
    """The text with one space for each run of white space, and with none at its ends."""
    return b" ".join(text.split())


def is_same(page, before, our, after, their):
    """Whether what we say, with what is said before and after it, is what cmark says: the same, or a text in which cmark is known to part from
    the specification. It leaves out tabs before a line ending, where only spaces are left out (6.7, 6.8); keeps the indent of a lazy line in code
    and HTML, though the line is as one with the markers of its containers (5.1, 5.2), and after a backslash (6.7); and takes the indent of a
    fence for less than it is where a container has some columns of a tab (2.2, 4.5)."""
    if our == their or our is None or their is None or len(our) != 2 or our[0] != their[0]:
        return our == their
    kind, ours, theirs = *our, their[1]
    if kind == "text" and before == ("hard break",):
        theirs = theirs.lstrip(b" \t")
    if kind == "text" and after in (("soft break",), ("hard break",)) and ours.endswith(b"\t"):
        ours = ours.rstrip(b" \t")
    if kind == "text" and (before is None or before[:2] != ("start", "code block")):
        return ours == theirs
    if kind in ("code", "html"):
        return without_runs(ours) == without_runs(theirs)
    if FENCE_AFTER_TAB.search(page):
        return [part.lstrip(b" ") for part in ours.split(b"\n")] == [part.lstrip(b" ") for part in theirs.split(b"\n")]
    return False


def is_before_a_table(said):
    """Whether some element ends directly before a table."""
    return any(end == ("end",) and start[:2] == ("start", "table") for end, start in zip(said, said[1:]))


def without_escapes(said):
    """The same without backslashes before pipes in texts."""
    return [(item[0], item[1].replace(b"\\|", b"|")) if item[0] == "text" else item for item in said]


def how_many_alike(page, ours, theirs):
    """How many of what we say cmark says too, from the first on. In a paragraph before a table cmark-gfm leaves out backslashes before pipes."""
    if is_before_a_table(ours):
        ours, theirs = without_escapes(ours), without_escapes(theirs)
    around = zip([None, *ours], ours, [*ours[1:], None], [*theirs, *[None] * len(ours)])
    return next((number for number, item in enumerate(around) if not is_same(page, *item)), len(ours))
