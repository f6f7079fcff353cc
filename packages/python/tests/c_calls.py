"""Each function of the header, by its name without `mds_`, as the package's calls answer it: what C would answer is made of the
package's answer. What C gives is given in four forms, by itself, inside of other bytes, in a buffer and as a str among others,
and all must answer alike."""
import itertools

import fillaqut as mds
from fillaqut import _c
from tables import LARGEST as NONE

FORMS = ["alone", "inside", "buffer", "str"]
BEFORE, AFTER = b"<!>\xff", b"-->]"
CHARACTERS = "<!>\u20ac", "-->]\U0001f354"


class Data:
    """Bytes in one of the forms. As a str those that are no UTF-8 stand by themselves."""

    def __init__(self, data, form):
        self.raw, self.data, self.at, self.end = data, data, 0, None
        if form in ("inside", "buffer"):
            self.data = BEFORE + data + AFTER if form == "inside" else bytearray(BEFORE + data + AFTER)
            self.at, self.end = len(BEFORE), len(BEFORE + data)
        elif form == "str" and mds.is_utf8(data):
            text = data.decode()
            self.data, self.at = text.join(CHARACTERS), len(CHARACTERS[0])
            self.end = self.at + len(text)

    def beside(self, *places):
        """The same by itself, where a place is inside of a character."""
        return self if all(mds.is_utf8(self.raw[:place]) for place in places) else Data(self.raw, "alone")

    def place(self, byte):
        """The place of a byte, past the end too."""
        if not isinstance(self.data, str):
            return self.at + byte
        return self.at + len(self.raw[:byte].decode()) + max(0, byte - len(self.raw))

    def between(self, start, end):
        """How many bytes stand there."""
        return len(self.data[start:end].encode()) if isinstance(self.data, str) else end - start

    def length(self, end):
        return NONE if end is None else self.between(self.at, end)

    def count(self, start, count):
        """So many bytes from a byte on, as the page counts."""
        return self.place(start + count) - self.place(start)


def as_bytes(text):
    return text.encode() if isinstance(text, str) else text


def outcome_of(call, *given, **more):
    """The status that C would answer, and the answer or the refusal."""
    try:
        found = call(*given, **more)
    except mds.RefusalError as why:
        return why.status, why
    except IndexError as why:
        return _c.PAST_END, why
    return (_c.NOTHING if found is None else _c.OK), found


# What the calls take after the bytes and their places, in the order of C.
TAKEN = {
    "scan_ch": ["byte"], "scan_ch_repeat": ["byte"], "scan_while": ["accepted"], "calc_indent": ["limit"],
    "scan_closing_code_fence": ["byte", "count"], "scan_closing_metadata_block": ["byte"],
    "scan_metadata_block": ["yaml", "pluses"], "scan_link_dest": ["max_next"], "scan_wikilink_pipe": ["count"],
    "scan_reference_definition": ["max_next"],
}


def named(name, given):
    return dict(zip(TAKEN.get(name, []), given, strict=True))


def ends(name):
    """A function that answers a length."""
    return lambda d, *given: d.length(getattr(mds, name)(d.data, d.at, d.end, **named(name, given)))


def plain(name):
    return lambda d: getattr(mds, name)(d.data, d.at, d.end)


def from_back(d, accepted):
    return d.between(mds.scan_rev_while(d.data, d.at, d.end, accepted=accepted), len(d.data) if d.end is None else d.end)


def item(d):
    found = mds.scan_listitem(d.data, d.at, d.end)
    return {"length": NONE, "start": 0, "indent": 0, "delimiter": 0} if found is None else {
        "length": d.length(found.end), "start": found.start, "indent": found.indent, "delimiter": found.delimiter}


def indent(d, limit):
    status, found = outcome_of(mds.calc_indent, d.data, d.at, d.end, limit=limit)
    ok = status == _c.OK
    return {"status": status, "place": d.length(found.place) if ok else 0, "columns": found.columns if ok else 0}


def hrule(d):
    end = mds.scan_hrule(d.data, d.at, d.end)
    return {"length": d.length(end), "none_before": d.length(mds.no_hrule_before(d.data, d.at, d.end))}


def underline(d):
    found = mds.scan_setext_heading(d.data, d.at, d.end)
    return {"length": d.length(found and found.end), "level": found.level if found else 0}


def fence(name):
    def fenced(d, *given):
        found = getattr(mds, name)(d.data, d.at, d.end, **named(name, given))
        return {"length": d.length(found and found.end), "byte": found.byte if found else 0}

    return fenced


def part(name):
    def parted(d, start, *given):
        d = d.beside(start)
        if name == "scan_wikilink_pipe":
            given = [d.count(start, number) for number in given]
        status, found = outcome_of(getattr(mds, name), d.data, d.place(start), d.end, **named(name, given))
        ok = status == _c.OK
        return {"status": status, "end": d.length(found.end) if ok else 0, "start": d.length(found.start) if ok else 0,
                "length": d.between(found.start, found.stop) if ok else 0}

    return parted


def definition(d, start, *given):
    d = d.beside(start)
    name = "scan_reference_definition"
    status, found = outcome_of(getattr(mds, name), d.data, d.place(start), d.end, **named(name, given))
    made = {"status": status, "end": d.length(found.end) if status == _c.OK else 0}
    for part in ("label", "destination", "title"):
        span = getattr(found, part) if status == _c.OK else mds.Span(d.at, d.at)
        made[f"{part}_start"] = d.length(span and span.start)
        made[f"{part}_length"] = d.between(*span) if span else 0
    return made


def delimiter_run(d, place):
    d = d.beside(place)
    status, found = outcome_of(mds.scan_delimiter_run, d.data, d.place(place), d.end, begin=d.at)
    if status != _c.OK:
        return {"status": status, "byte": 0, "count": 0, "can_open": False, "can_close": False}
    return {"status": status, "byte": found.byte, "count": d.between(d.place(place), found.end), "can_open": found.can_open,
            "can_close": found.can_close}


def text(name, of=lambda found: found.text, **given):
    """A text that is made, as struct mds_text has it."""
    def made(d):
        status, found = outcome_of(getattr(mds, name), d.data, d.at, d.end, **given)
        ok = status == _c.OK
        taken = d.length(getattr(found, "end", len(d.data) if d.end is None else d.end)) if ok else 0
        return {"status": status, "taken": taken, "text": as_bytes(of(found)) if ok else b""}

    return made


def over(call, d, start, skips, **given):
    """A call over a table of the page, as far as there is one, or its refusal."""
    rows = [(d.place(place), min(d.count(place, length), len(d.data) - d.place(place)))
            for place, length in skips if d.place(place) <= len(d.data)]
    return call(d.data, d.place(start), d.end, skips=mds.Skips(d.data, rows), **given)


def check_skips(data, skips):
    return outcome_of(mds.Skips, data, skips)[0]


def tag(d, skips, start=0):
    d = d.beside(start, *itertools.chain(*[(place, place + length) for place, length in skips]))
    status, found = outcome_of(over, mds.scan_html_tag_over_lines, d, start, skips)
    ok = status == _c.OK
    return {"status": status, "taken": d.length(found.end) if ok else 0, "text": as_bytes(found.text or b"") if ok else b""}


def label(d, skips, in_table, start=0):
    d = d.beside(start, *itertools.chain(*[(place, place + length) for place, length in skips]))
    status, found = outcome_of(over, mds.scan_link_label, d, start, skips, in_table=in_table)
    ok = status == _c.OK
    return {"status": status, "taken": d.length(found.end) if ok else 0, "text": as_bytes(found.text) if ok else b"",
            "start": d.length(found.start) if ok else 0}


def html_start(d):
    return mds.scan_html_block_start(d.data, d.at, d.end) or 0


def html_end(d, kind):
    try:
        found = mds.ends_html_block(d.data, d.at, d.end, kind=kind)
    except ValueError:
        return _c.BAD_KIND
    return _c.OK if found else _c.NOTHING


def first_end(d, place):
    front = Data(d.raw, "str") if isinstance(d.data, str) else Data(d.raw, "alone")
    front.data, front.at = front.data[front.at : front.end], 0  # a guard is for a text from its front
    status, found = outcome_of(mds.HtmlScanGuard(front.data).scan, front.place(place))
    return {"status": status, "end": front.length(found) if status == _c.OK else 0}


def labels_match(one, other):
    status, found = outcome_of(mds.labels_match, one, other)
    return {True: _c.OK, False: _c.NOTHING}.get(found, status)


def label_key(data):
    status, found = outcome_of(mds.label_key, data)
    ok = status == _c.OK
    return {"status": status, "taken": len(data) if ok else 0, "text": found if ok else b""}


# The calls on line starts by their names without `mds_`: the package's call, and the fields of the answer where it has some.
LINE_CALLS = {
    "line_space": ["space"], "line_space_up_to": ["upto", "columns"], "line_all_space": ["all_space"], "line_is_at_end": ["eol"],
    "line_quote": ["quote"], "line_list": ["list_item", "delimiter", "start", "indent"], "line_definition": ["definition", "columns"],
    "line_task": ["task", "checked"], "line_alert": ["alert", "kind"],
}


def line_call(start, call, given):
    """What a call on a line start answers."""
    method, *fields = LINE_CALLS[call]
    status, found = outcome_of(getattr(start, method), *given)
    if not fields:
        return {"status": _c.NOTHING if found is False else _c.OK if found in (None, True) else status}
    if status != _c.OK:
        return {"status": status}
    values = [getattr(found, name) for name in fields] if len(fields) > 1 else [found]
    return {"status": status, **dict(zip(fields, values))}


def line_state(d, start):
    """Where a line start has come to."""
    return {"place": d.length(start.place), "pending": start.pending, "phase": start._numbers.phase}


def at_front(call):
    """A call at the front of a line, and where the line start has come to."""
    def called(d, *given):
        start = mds.LineStart(d.data, d.at, d.end)
        return {**line_call(start, call, given), **line_state(d, start)}

    return called


def label_text(d, in_table):
    """A label by itself, without where it starts."""
    found = label(d, [], in_table)
    del found["start"]
    return found


# The calls of packages/rows.tsv, by their names without `mds_`.
CALLS = {
    **{name: ends(name) for name in (
        "scan_ch", "scan_ch_repeat", "scan_while", "scan_whitespace_in_line", "scan_eol", "scan_line", "scan_nextline",
        "scan_blank_line", "scan_blockquote_start", "scan_closing_code_fence", "scan_closing_metadata_block",
        "scan_html_type_7", "scan_html_tag")},
    **{name: plain(name) for name in ("is_utf8", "starts_html_block_type_6", "interrupts_paragraph")},
    **{name: fence(name) for name in ("scan_code_fence", "scan_metadata_block")},
    **{name: part(name) for name in (
        "scan_link_dest", "scan_link_title", "scan_autolink", "scan_email_autolink", "scan_code_span", "scan_wikilink_pipe")},
    "scan_reference_definition": definition,
    "scan_delimiter_run": delimiter_run,
    "scan_rev_while": from_back,
    "scan_atx_heading": lambda d: mds.scan_atx_heading(d.data, d.at, d.end) or 0,
    "scan_listitem": item,
    "calc_indent": indent,
    "scan_hrule": hrule,
    "scan_setext_heading": underline,
    "scan_html_block_start": html_start,
    "ends_html_block": html_end,
    "scan_entity": text("scan_entity"),
    "scan_table_head": text("scan_table_head", of=lambda found: bytes(found.alignments)),
    "scan_inline_html": first_end,
    "unescape": lambda d, in_table: text("unescape", of=lambda found: found, in_table=in_table)(d),
    "scan_link_label": label_text,
    "labels_match": lambda d, other: labels_match(d.raw, other),
    "label_key": lambda d: label_key(d.raw),
    **{name: at_front(name) for name in ("line_list", "line_definition", "line_task", "line_alert")},
}
