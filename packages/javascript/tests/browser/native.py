#!/usr/bin/env python3
"""What the C functions answer, by the package in packages/python/, of the calls that a page has drawn: each line of the input
is a call as JSON with all that it is given, and so is each answer. Of a line start the calls of a line come in turn."""
import json
import os
import sys
from pathlib import Path

TOP = Path(__file__).resolve().parents[4]
sys.dont_write_bytecode = True
sys.path.insert(0, str(TOP / "packages/python"))
os.environ.setdefault("FILLAQUT_LIBRARY", str(TOP / "out/libfillaqut.so.0"))
import fillaqut as mds

ALIGNMENTS = ["none", "left", "center", "right"]


def item(found):
    return found and {"delimiter": chr(found.delimiter), "start": found.start, "indent": found.indent}


def underline(found):
    return found and {"end": found.end, "level": found.level}


def fence(found):
    return found and {"end": found.end, "character": chr(found.byte)}


def table(found):
    return found and {"end": found.end, "alignments": [ALIGNMENTS[number] for number in found.alignments]}


def part(found):
    return found and {"end": found.end, "start": found.start, "stop": found.stop}


def label(found):
    return found and {"end": found.end, "text": found.text.decode(), "start": found.start}


# Of each call of the page what it answers of bytes, and of what it is given beside them.
CALLS = {
    "scanBlankLine": mds.scan_blank_line,
    "scanHrule": mds.scan_hrule,
    "scanAtxHeading": mds.scan_atx_heading,
    "scanSetextHeading": lambda *given: underline(mds.scan_setext_heading(*given)),
    "scanCodeFence": lambda *given: fence(mds.scan_code_fence(*given)),
    "scanClosingCodeFence": lambda data, byte, count, at, end: mds.scan_closing_code_fence(data, at, end, byte=ord(byte), count=count),
    "scanHtmlBlockStart": mds.scan_html_block_start,
    "endsHtmlBlock": lambda data, kind, at, end: mds.ends_html_block(data, at, end, kind=kind),
    "interruptsParagraph": mds.interrupts_paragraph,
    "scanTableHead": lambda *given: table(mds.scan_table_head(*given)),
    "unescape": lambda data, at, end, how: mds.unescape(data, at, end, in_table=how["inTable"]).decode(),
    "scanLinkLabel": lambda data, place: label(mds.scan_link_label(data, place)),
    "scanLinkDest": lambda data, place: part(mds.scan_link_dest(data, place)),
    "scanAutolink": lambda data, place: part(mds.scan_autolink(data, place)),
    "scanHtmlTagOverLines": lambda data, place: (found := mds.scan_html_tag_over_lines(data, place)) and found.end,
    "scanInlineHtml": lambda data, place: mds.HtmlScanGuard(data).scan(place),
}
LINE_CALLS = {
    "upto": lambda start, count: start.upto(count),
    "quote": lambda start: start.quote(),
    "listItem": lambda start, indent: item(start.list_item(indent)),
}


def taken(data, line):
    """What the calls of a line answer in turn, and the offsets before and after each."""
    start, found = mds.LineStart(data, line["at"], line["end"]), []
    for call in line["taken"]:
        before = start.place
        answer = LINE_CALLS[call["call"]](start, *call["given"])
        found.append({"answer": answer, "from": before, "to": start.place})
    return found


def answered(data, row):
    if "taken" in row:
        return taken(data, row)
    of = row["of"].encode() if "of" in row else data
    return CALLS[row["call"]](of, *row["given"])


page = json.loads(sys.stdin.readline()).encode()
for line in sys.stdin:
    print(json.dumps(answered(page, json.loads(line))))
