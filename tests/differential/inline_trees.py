"""What fillaqut inlines and cmark say of the inlines of a page, in one form. Pages and texts of them are bytes."""
import re
from collections import namedtuple

from block_trees import CMARK, FILLAQUT, in_attribute, lines_in, meaning, name_of, parsed, said_by, without_control

OURS = [FILLAQUT, "inlines"]

BLOCK = re.compile(rb"([0-9]+) ([0-9]+) [0-9]+ (heading|setext|paragraph)( [1-6])?")
INLINE = re.compile(rb'  ([0-9]+) ([0-9]+) ([a-z ]+?)((?: "[^"]*")*)')
QUOTED = re.compile(rb'"([^"]*)"')
NUMBERED = re.compile(rb"\\u00(..)")
REFERENCE = rb"&(?:#[xX]([0-9a-fA-F]{1,6})|#([0-9]{1,7})|([a-zA-Z][a-zA-Z0-9]*));"
ESCAPE = re.compile(rb"\\([!-/:-@[-`{-~])|" + REFERENCE)
REFERENCES = re.compile(rb"(?!)()|" + REFERENCE)
ENDS_IN_HARD_BREAK = re.compile(rb"(?: {2,}|\\)$")

# Blocks of both: `kind` is heading or paragraph, `said` the inlines, each as a tuple of what it is and what is known of it. The text of
# neighbours is joined. Of a link that a label leads to `Label` stands for where it leads.
Block = namedtuple("Block", "kind first last said")
Label = namedtuple("Label", "text")

THEIR_NAMES = {"emph": "emphasis", "strong": "strong", "link": "link", "image": "image"}
THEIR_LEAVES = {"softbreak": "soft break", "linebreak": "hard break"}
THEIR_TEXTS = {"text": "text", "code": "code", "html_inline": "html"}


def bytes_of(quoted):
    """The bytes that fillaqut inlines prints in quotation marks."""
    return NUMBERED.sub(lambda item: bytes([int(item[1], 16)]), quoted)


def unescaped(text, pattern=ESCAPE):
    return without_control(pattern.sub(meaning, text))


def code_in(source):
    """The text of a code span. (CommonMark 0.31.2, 6.1)"""
    count = len(source) - len(source.lstrip(b"`"))
    text = re.sub(rb"\r\n|[\r\n]", b" ", source[count:-count])
    return text[1:-1] if len(text) > 1 and text[0] == text[-1] == 32 and text.strip(b" ") else text


def label_of(text):
    """A label by what it matches. (6.3)"""
    return Label(" ".join(text.decode().split(" ")).casefold()) if b"\n" not in text else Label(" ".join(text.decode().split()).casefold())


def target_of(how, texts):
    """Where a link leads: its destination and its title, or its label."""
    if how == b"inline":
        destination, *title = [in_attribute(unescaped(text)) for text in texts]
        return destination, *(title or [b""])
    (label,) = texts
    return (label_of(label[1:-1] if how == b"full" else label),)


def our_said(kind, texts):
    """What a line of fillaqut inlines says: inlines in the form of both."""
    words = kind.split(b" ")
    if words[0] == b"start":
        name = words[1].decode()
        return [("start", name, *target_of(words[2], texts))] if words[1] in (b"link", b"image") else [("start", name)]
    if words[0] == b"end":
        return [("end",)]
    if words[-1] == b"break":
        return [(kind.decode(),)]
    (source,) = texts
    if kind in (b"uri", b"email"):
        text = unescaped(source[1:-1], REFERENCES)
        return [("start", "link", in_attribute(b"mailto:" * (kind == b"email") + text), b""), ("text", text), ("end",)]
    if kind == b"code":
        return [("code", without_control(code_in(source)))]
    if kind == b"html":
        return [("html", without_control(source))]
    return [("text", without_control(source) if kind == b"text" else unescaped(source))]


def joined(said):
    """The same, with the text of neighbours joined."""
    found = []
    for line in said:
        if line[0] == "text" and found and found[-1][0] == "text":
            line = ("text", found.pop()[1] + line[1])
        if line != ("text", b""):
            found.append(line)
    return found


def our_blocks(page):
    found = []
    for line in said_by(OURS, page).splitlines():
        if line.startswith(b"  "):
            _, _, kind, texts = INLINE.fullmatch(line).groups()
            found[-1][-1] += our_said(kind, [bytes_of(found_text) for found_text in QUOTED.findall(texts)])
        else:
            first, last, kind, _ = BLOCK.fullmatch(line).groups()
            found.append(["paragraph" if kind == b"paragraph" else "heading", int(first), int(last), []])
    return [Block(*block[:3], joined(block[3])) for block in found]


def their_said(block):
    """The inlines of a block of cmark, whose text XML may have in several pieces."""
    said, waiting = [], [iter(block)]
    while waiting:
        element = next(waiting[-1], None)
        if element is None:
            waiting.pop()
            if waiting:
                said.append(("end",))
            continue
        name, text = name_of(element), (element.text or "").encode("latin-1")
        if name in THEIR_NAMES:
            leads = [in_attribute(element.get(name, "").encode("latin-1")) for name in ("destination", "title")]
            said.append(("start", THEIR_NAMES[name], *(leads if name in ("link", "image") else [])))
            waiting.append(iter(element))
        else:
            said.append((THEIR_LEAVES[name],) if name in THEIR_LEAVES else (THEIR_TEXTS[name], text))
    return joined(said)


def their_blocks(page):
    found = [element for element in parsed(said_by(CMARK, page)).iter() if name_of(element) in ("heading", "paragraph")]
    return [Block(name_of(item), *lines_in(item), their_said(item)) for item in found]


def meets(block, others):
    """Whether a block has a line of one of the others."""
    return any(other.first <= block.last and block.first <= other.last for other in others)


def in_pairs(ours, theirs):
    """Blocks of both that stand in the same lines, in order; None where these are not of one kind. A paragraph or heading of cmark begins
    with the definitions before it."""
    ours, theirs = [block for block in ours if meets(block, theirs)], [block for block in theirs if meets(block, ours)]
    if [block.kind for block in ours] != [block.kind for block in theirs]:
        return None
    return list(zip(ours, theirs))


def same(our, their, labels):
    """Whether an inline of both is the same; each label leads to one place in a page."""
    if len(our) == 3 and isinstance(our[2], Label):
        return their[:2] == our[:2] and labels.setdefault(our[2], their[2:]) == their[2:]
    return our == their


def agree(ours, theirs, labels):
    return len(ours) == len(theirs) and all(same(our, their, labels) for our, their in zip(ours, theirs))
