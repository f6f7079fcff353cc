"""The blocks of a page in words, of what fillaqut blocks --json prints: a container with how many bytes of the page stand before its marker,
a leaf block with its first line and its last, and `end` where a container ends. Lists are left out."""
import json


def word_of(block):
    if block["kind"] == "end":
        return "end"
    if "bytes" in block:
        return f"{block['kind']} {block['first']} {block['last']}"
    return f"{block['kind']} {block['offset'] + block['column'] - 1}"


def in_words(printed):
    """A line of words; nothing of a page without blocks."""
    blocks = map(json.loads, printed.splitlines())
    words = [word_of(block) for block in blocks if block["kind"] != "list"]
    return "; ".join(words).encode() + b"\n" if words else b""
