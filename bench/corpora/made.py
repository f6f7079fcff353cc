"""Makes the texts of one thing each: lists, quotes, short blocks, emphasis, prose, HTML, tables, links, code, Cyrillic, and Chinese with
Japanese and Korean. Their words are those of the real texts beside them, and of words.txt, in random order; each time they are the same.
"""
import random
import re
import textwrap
from collections import Counter, defaultdict
from pathlib import Path

HERE = Path(__file__).resolve().parent
SIZE = 300_000
WIDTH = 79
# How many of the words of the real texts are drawn from, the most frequent first.
KNOWN = 4000
FENCED = re.compile(r"(?m)^```(\w+)\n((?:(?!```).*\n)+?)^```$")
ENTITIES = ["&amp;", "&lt;", "&copy;", "&nbsp;", "&#8212;", "&eacute;"]
TAGS = ["b", "kbd", "i", "code", "sub", "span"]
MARKS = ["*", "_", "**", "__", "***"]


class Draw:
    """Draws words and parts of texts, by a seed. Only `random()` of Python's generator is used, which gives the same in each version."""

    def __init__(self, seed, words, pieces):
        self.generator, self.words, self.pieces, self.labels = random.Random(seed), words, pieces, []

    def number(self, least, most):
        return least + int(self.generator.random() * (most - least + 1))

    def chance(self, share):
        return self.generator.random() < share

    def one(self, items):
        return items[self.number(0, len(items) - 1)]

    def word(self):
        """Of many words a frequent one more often."""
        return self.words[int(len(self.words) * self.generator.random() ** (3 if len(self.words) == KNOWN else 1))]

    def phrase(self, least, most):
        return " ".join(self.word() for _ in range(self.number(least, most)))

    def sentence(self, least=5, most=18):
        words = [self.word() + ("," if self.chance(0.08) else "") for _ in range(self.number(least, most))]
        return f"{' '.join(words).rstrip(',').capitalize()}{self.one('.....:?!')}"

    def sentences(self, least, most):
        return " ".join(self.sentence() for _ in range(self.number(least, most)))


def wrapped(text, first="", later=""):
    how = {"initial_indent": first, "subsequent_indent": later, "break_long_words": False, "break_on_hyphens": False}
    return textwrap.fill(text, WIDTH, **how)


def prose(draw):
    return wrapped(draw.sentences(3, 9))


def marked(draw):
    """A word in emphasis; now and then one inside another, or a mark that nothing closes."""
    mark, word = draw.one(MARKS), draw.word()
    if draw.chance(0.15):
        return f"*{draw.word()} **{word}** {draw.word()}*"
    return f"{mark}{word}" if draw.chance(0.05) else f"{mark}{word}{mark}"


def emphasis(draw):
    return wrapped(" ".join(marked(draw) if draw.chance(0.9) else draw.word() for _ in range(draw.number(15, 60))))


def items(draw, indent, depth):
    """The items of a list, with others in some of them; between loose ones a blank line stands."""
    marker = draw.one(["- ", "* ", "+ ", "1. "])
    found, is_loose = [], draw.chance(0.3)
    for number in range(draw.number(2, 6)):
        own = f"{number + 1}. " if marker == "1. " else marker
        text = marked(draw) + " " + draw.sentence() if draw.chance(0.2) else draw.sentence()
        found.append(wrapped(text, indent + own, indent + " " * len(own)))
        if depth and draw.chance(0.25):
            found.append(items(draw, indent + " " * len(own), depth - 1))
    return ("\n\n" if is_loose else "\n").join(found)


def lists(draw):
    return items(draw, "", 3) if draw.chance(0.8) else prose(draw)


def quotes(draw):
    if draw.chance(0.25):
        return prose(draw)
    front = "> " * draw.number(1, 4)
    if draw.chance(0.2):
        return "\n".join(f"{front}{line}".rstrip() for line in items(draw, "", 1).splitlines())
    lines = wrapped(draw.sentences(2, 6), front, front).splitlines()
    is_lazy = draw.chance(0.15)
    return "\n".join([lines[0], *(line.removeprefix(front) if is_lazy else line for line in lines[1:])])


def short(draw):
    words = draw.sentence(1, 3)
    rule = draw.one(["---", "* * *", "___"])
    return draw.one([words, words, f"{'#' * draw.number(1, 3)} {words}", f"{words}\n===", rule, f"- {draw.word()}", f"> {words}", f"`{draw.word()}`", "\n"])


def html_inline(draw):
    tag, word = draw.one(TAGS), draw.word()
    kinds = [f"<{tag}>{word}</{tag}>", f"<{tag}>{word}</{tag}>", f'<a href="{word}">{draw.word()}</a>', f"{word}<br>", f"<!-- {word} -->"]
    return draw.one([*kinds, draw.one(ENTITIES), f"&lt;{word}&gt;", word])


def html(draw):
    text = " ".join(html_inline(draw) for _ in range(draw.number(15, 60)))
    if draw.chance(0.3):
        return f'<div class="{draw.word()}">\n{wrapped(text)}\n</div>'
    if draw.chance(0.15):
        rows = "\n".join(f"  <tr><td>{draw.phrase(1, 3)}</td><td>{draw.word()}</td></tr>" for _ in range(draw.number(2, 8)))
        return f"<table>\n{rows}\n</table>"
    return wrapped(text)


def tables(draw):
    if draw.chance(0.2):
        return draw.sentence()
    wide = draw.number(2, 6)
    rows = [[draw.phrase(1, 4) for _ in range(wide)] for _ in range(draw.number(3, 16))]
    rows.insert(1, [draw.one(["---", ":--", "--:", ":-:"]) for _ in range(wide)])
    return "\n".join(f"| {' | '.join(row)} |" for row in rows)


def address(draw):
    return f"https://{draw.word()}.example.org/{draw.word()}/{draw.word()}{draw.one(['', '?a=1&b=2', '#first', '/'])}"


def link(draw):
    label = f"{draw.phrase(1, 2)} {draw.number(1, 9999)}"
    text = draw.phrase(1, 3)
    kinds = [f"[{text}]({address(draw)})", f'[{text}]({address(draw)} "{text}")', f"<{address(draw)}>", f"![{text}](/{draw.word()}.png)"]
    references = [f"[{label}]", f"[{text}][{label}]", f"[{label}][]"]
    found = draw.one([*kinds, *references, draw.phrase(2, 8), f"[{text}]"])
    draw.labels += [label] if found in references else []
    return found


def links(draw):
    text = wrapped(" ".join(link(draw) for _ in range(draw.number(8, 30))))
    defined = "\n".join(f"[{label}]: {address(draw)}" for label in draw.labels)
    draw.labels.clear()
    return f"{text}\n\n{defined}" if defined else text


def code(draw):
    """Code of the real texts, fenced or indented, with a sentence before it."""
    language, lines = draw.one(draw.pieces)
    if draw.chance(0.2):
        return f"{draw.sentence()}\n\n{textwrap.indent(lines, '    ')}"
    return f"{draw.sentence()}\n\n```{language}\n{lines}```"


def in_blocks(draw, text, joint):
    """A text as a paragraph, and now and then as a heading, an item or a quote, some of its words in emphasis or in a link."""
    words = text.split(" ")
    at = draw.number(0, len(words) - 1)
    words[at] = draw.one([words[at], f"**{words[at]}**", f"`{words[at]}`", f"[{words[at]}](/a)"])
    return draw.one(["", "", "", "", "# ", "- ", "> "]) + joint.join(words)


def cyrillic(draw):
    return in_blocks(draw, draw.sentence(10, 60), " ")


def cjk(draw):
    """Sentences of one of three languages; only one of them has spaces between its words."""
    name = draw.one(["chinese", "japanese", "korean"])
    own = Draw(draw.number(0, 1_000_000), others()[name], [])
    text = own.phrase(15, 60)
    return in_blocks(draw, text, " ") + "." if name == "korean" else in_blocks(draw, text, "") + "。"


def others():
    """The words of words.txt by the name of their script or language."""
    found = defaultdict(list)
    for name, *words in map(str.split, (HERE / "words.txt").read_text().splitlines()):
        found[name] += words
    return found


KINDS = [code, lists, quotes, short, emphasis, prose, html, tables, links, cjk, cyrillic]


def blocks(kind, draw):
    size = 0
    while size < SIZE:
        block = kind(draw) + "\n\n"
        size += len(block.encode())
        yield block


def made(real):
    """{name: text} of all kinds, of the words and the code of these texts."""
    counts = Counter(re.findall(r"(?<![\w`/])[a-z]{2,}(?![\w`/])", real))
    words = [word for word, _ in sorted(counts.items(), key=lambda item: (-item[1], item[0]))[:KNOWN]]
    pieces = [(language, lines) for language, lines in FENCED.findall(real) if lines.count("\n") <= 60]
    known = {"cyrillic": others()["cyrillic"]}
    return {kind.__name__: "".join(blocks(kind, Draw(kind.__name__, known.get(kind.__name__, words), pieces))) for kind in KINDS}
