#!/usr/bin/env python3
"""What the C functions answer of whole texts, by the package in packages/python/: each line of the input is a text with what it is asked with, as
JSON, and so is each answer, its HTML, events and blocks. Offsets are those of characters."""
import json
import os
import re
import sys
from pathlib import Path

TOP = Path(__file__).resolve().parents[4]
sys.dont_write_bytecode = True
sys.path.insert(0, str(TOP / "packages/python"))
os.environ.setdefault("FILLAQUT_LIBRARY", str(TOP / "out/libfillaqut.so.0"))
import fillaqut as mds

NOT_BUILT = ("footnotes", "definition-lists")


def named(found):
    """The name of a kind or an element as JavaScript has it."""
    return None if found is None else re.sub(r"_(\w)", lambda match: match[1].upper(), found.name.lower())


def answered(text, extensions, setting):
    built = [name for name in extensions if name not in NOT_BUILT]
    words = {"raw_html": setting["rawHtml"], "rel": setting["rel"], "images_as_links": setting["imagesAsLinks"]}
    return {
        "html": mds.html(text, extensions=built, **words),
        "unsafe": mds.html_unsafe(text, extensions=built),
        "events": [[named(it.kind), named(it.element), it.start, it.stop] for it in mds.events(text, extensions=built)],
        "blocks": [[named(it.kind), it.start, it.stop] for it in mds.scan_blocks(text, extensions=extensions)],
    }


for line in sys.stdin:
    print(json.dumps(answered(**json.loads(line))))
