"""Labels of links and footnotes, up to their bracket."""

NO_LINE, NOTHING, QUOTE, LETTER = "refuse", "zero", "bq", "x"


def label(text, *arguments):
    """A case of a text."""
    return ("label", text.encode(), *arguments)


# A text, what a handler skips at the front of each line, whether it is in a table, and: bytes taken, whether the label is lent, and
# the label (6.3).
ROWS = [
    label("«\t\tBlurry Eyes\t\t»]", NOTHING, False, (20, False, "« Blurry Eyes »".encode())),
    label("a\\ ]", NOTHING, False, (4, True, b"a\\")),
    label("hello\r\nworld\r\n]", NOTHING, False, (15, False, b"hello world")),
    label(" ]", NOTHING, False, None),
    label("a\\|b]", NOTHING, True, (5, False, b"a|b")),
    label("a\\|b]", NOTHING, False, (5, True, b"a\\|b")),
    label("a\\\\|b]", NOTHING, True, (6, False, b"a\\|b")),
    label("a[b]", NOTHING, False, None),
    label("", NOTHING, False, None),
    label("a", NOTHING, False, None),
    label("a\\[b]", NOTHING, False, (5, True, b"a\\[b")),
    label(" a ]", NOTHING, False, (4, True, b"a")),
    label("a\nb]", NOTHING, False, (4, False, b"a b")),
    label("a\n\nb]", NOTHING, False, None),
    label("a\n> b]", QUOTE, False, (6, False, b"a b")),
    # line endings of several bytes
    label("a\r\nb]", NOTHING, False, (5, False, b"a b")),
    label("a\n\rb]", NOTHING, False, None),
    label("a\rx\nb]", LETTER, False, None),
    label("Foo  Bar]", NOTHING, False, (9, False, b"Foo Bar")),
    # a container that ends with its first line
    label("a\nb]", NO_LINE, False, None),
    label("«\t\tBlurry Eyes\t\t»][blurry_eyes]", NO_LINE, False, (20, False, "« Blurry Eyes »".encode())),
    label("a\\]", NO_LINE, False, None),
    # 999 characters at most
    label("a" * 999 + "]", NOTHING, False, (1000, True, b"a" * 999)),
    label("a" * 998 + "é]", NOTHING, False, (1001, True, b"a" * 998 + "é".encode())),
    label("a" * 499 + "\n> " + "a" * 499 + "]", QUOTE, False, (1002, False, b"a" * 499 + b" " + b"a" * 499)),
    label("a" * 449 + "  " + "a" * 450 + "]", NOTHING, False, (902, False, b"a" * 449 + b" " + b"a" * 450)),
    label("a" * 997 + "\na]", NOTHING, False, (1000, False, b"a" * 997 + b" a")),
    label("a" * 998 + "\n]", NOTHING, False, (1000, False, b"a" * 998)),
    label("a" * 1000 + "]", NOTHING, False, None),
    label("a" * 999 + " ]", NOTHING, False, None),
    label("a" * 998 + "\r\n]", NOTHING, False, None),
    label("a" * 499 + "\n" + "a" * 500 + "]", NOTHING, False, None),
]
