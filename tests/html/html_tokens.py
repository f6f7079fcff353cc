"""HTML as a browser reads it: its tags, texts and comments, without what says nothing."""
import re
from html.parser import HTMLParser

# As HTML calls them, of which white space next to their tags says nothing.
BLOCKS = set("""address article aside blockquote body br caption col colgroup dd div dl dt fieldset figcaption figure footer form h1 h2 h3 h4 h5 h6
    header hr li map object ol output p pre progress script section style table tbody td textarea tfoot th thead tr ul video""".split())
AS_WRITTEN = {"pre", "code", "textarea", "script", "style"}
VOID = set("area base br col embed hr img input link meta source track wbr".split())


class Tokens(HTMLParser):
    """The tags, texts and comments of HTML in order, a tag by its name and its attributes sorted. As in a browser an `a` ends another that is open,
    rows need no `tbody`, and what is open at the end ends there."""

    def __init__(self, html):
        super().__init__()
        self.made, self.open = [], []
        self.feed(html)
        self.close()
        while self.open:
            self.handle_endtag(self.open[-1])

    def handle_starttag(self, name, attributes):
        if name == "a" and "a" in self.open:
            self.handle_endtag("a")
        if name != "tbody":
            self.made.append(("start", name, tuple(sorted((word, value or "") for word, value in attributes))))
        if name not in VOID:
            self.open.append(name)

    def handle_startendtag(self, name, attributes):
        self.handle_starttag(name, attributes)

    def handle_endtag(self, name):
        while name in self.open:
            ended = self.open.pop()
            if ended != "tbody":
                self.made.append(("end", ended, ()))
            if ended == name:
                break

    def handle_data(self, text):
        self.made.append(("text", text, ()))

    def handle_comment(self, text):
        self.made.append(("comment", text, ()))

    handle_decl = handle_pi = unknown_decl = handle_comment


def normalized(html):
    """The tokens of HTML, but for white space that says nothing: next to a tag of a block, and more than one space elsewhere."""
    made, kept, is_after_space = [], 0, True
    for kind, word, attributes in Tokens(html).made:
        if kind == "text" and not kept:
            word = re.sub(r"[ \t\n\r\f]+", " ", word)
            word = word[1:] if is_after_space and word.startswith(" ") else word
            is_after_space = word.endswith(" ") or (is_after_space and not word)
        elif kind == "text":
            is_after_space = False
        elif word in BLOCKS:
            is_after_space = True
            without_last_space(made)
        if kind in ("start", "end") and word in AS_WRITTEN:
            kept += 1 if kind == "start" else -1
        if (kind, word) != ("text", ""):
            made.append((kind, word, attributes))
    without_last_space(made)
    return made


def without_last_space(made):
    """Takes the space from the end of a text before a block's tag."""
    if made and made[-1][0] == "text" and made[-1][1].endswith(" "):
        kind, word, attributes = made.pop()
        if word[:-1]:
            made.append((kind, word[:-1], attributes))
