"""How Rust's derived `Debug` prints values, and the values of `markdown_values` by their types."""


class Value:
    """A variant or a struct: its name, and its parts in order or by name."""

    def __init__(self, name, *parts, **fields):
        self.name, self.parts, self.fields = name, parts, fields


def some(value):
    """A value or None, as an Option."""
    return Value("None") if value is None else Value("Some", value)


ESCAPED = {"\\": "\\\\", '"': '\\"', "\t": "\\t", "\n": "\\n", "\r": "\\r"}


def debug_text(value):
    """The text of `{:?}`."""
    if isinstance(value, bool):
        return "true" if value else "false"
    if isinstance(value, (int, float)):
        return str(value)
    if isinstance(value, str):
        return '"' + "".join(ESCAPED.get(char, char) for char in value) + '"'
    if isinstance(value, list):
        return "[" + ", ".join(map(debug_text, value)) + "]"
    if isinstance(value, tuple):
        return "(" + ", ".join(map(debug_text, value)) + ")"
    if value.fields:
        return f"{value.name} {{ " + ", ".join(f"{name}: {debug_text(item)}" for name, item in value.fields.items()) + " }"
    return value.name + (debug_text(value.parts) if value.parts else "")


class Plain:
    """Printed as this text."""

    def __init__(self, text):
        self.name, self.parts, self.fields = text, (), {}


# Texts: which are owned, borrowed, or lie in the value itself, which has room for 22 bytes.

INLINED = 22


def boxed(text):
    return Value("Boxed", Value("BoxedStr", string=text))


def borrowed(text):
    return Value("Borrowed", text)


def with_variant(variant, text):
    """A text that is printed with its variant."""
    return Plain(f"{variant} {debug_text(text)}")


def copied(text):
    """How a text that is copied from an owned one is printed."""
    return with_variant("inlined" if len(text.encode()) <= INLINED else "boxed", text)


# Tags, by the text in each place of them.

def fenced(text):
    return Value("Fenced", text)


def code_block(text):
    return Value("CodeBlock", fenced(text))


def footnote(text):
    return Value("FootnoteDefinition", text)


def heading(text):
    """Of level 2 with an identifier, two classes and two attributes, of which one has a value."""
    attributes = [(text, some(text)), (text, some(None))]
    return Value("Heading", level=Value("H2"), id=some(text), classes=[text, text], attrs=attributes)


def link(text):
    return Value("Link", link_type=Value("Inline"), dest_url=text, title=text, id=text)


def image(text):
    return Value("Image", link_type=Value("Email"), dest_url=text, title=text, id=text)


def index(number):
    return Value("TreeIndex", value=number)
