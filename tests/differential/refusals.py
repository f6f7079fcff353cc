#!/usr/bin/env python3
"""Prints what tests_refusals has to print with ample memory: its cases in order, each with the value that its calls use or
change, and with what they answer.

    tests/differential/refusals.py | cmp - crates/tests_refusals/stdout

Nothing here knows the library. What a call answers is counted from docs/DEFINITIONS.md (answers.py, cuts.py, trees.py); how
a value is printed follows the rules of Rust's derived `Debug` for the types of `markdown_values` (debug_format.py, case_answers.py). Which
calls a case makes, and on what, is as crates/tests_refusals/src has it; those without a request are in no_memory_answers.py.
"""
import sys

sys.dont_write_bytecode = True
import answers
from case_answers import KNOWN, OF_30, STREET, html_steps, label_answer, quote, tag_answer
from debug_format import (Plain, Value, boxed, code_block, debug_text, fenced, footnote, heading, image, index, link, some,
                          with_variant)
from no_memory_answers import NO_MEMORY
from trees import nested

def call(before, answer):
    return [f"before {debug_text(before)}", "ready", debug_text(answer)]


def copy(value):
    return call(value, value)


# Texts, kinds of code blocks, tags and events. What owns its text is copied; what was lent a text comes to own it.

def into_static(form):
    return call(OF_30, form(boxed(OF_30)))


def copy_of(form):
    return copy(form(boxed(OF_30)))


def events():
    names = ["Text", "Code", "InlineMath", "DisplayMath", "Html", "InlineHtml", "FootnoteReference"]
    return [lambda text, name=name: Value(name, text) for name in names]


def start(text):
    return Value("Start", heading(text))


def in_both(name, form):
    return [(f"{name}_clone", copy_of(form)), (f"{name}_into_static", into_static(form))]


def values():
    yield "text_from_string", call(OF_30, boxed(OF_30))
    yield "text_clone", copy(boxed(OF_30))
    yield "text_into_string", copy(OF_30) + copy("藏")
    yield "text_into_static", call(OF_30, with_variant("boxed", OF_30))
    yield from in_both("code_block_kind", fenced)
    yield from in_both("heading", heading)
    yield from in_both("code_block", code_block)
    yield from in_both("footnote", footnote)
    yield "table_clone", copy(Value("Table", [Value("None"), Value("Center")]))
    yield from in_both("link", link)
    yield from in_both("image", image)
    yield "event_clone", sum([copy_of(event) for event in events()], [])
    yield "event_into_static", sum([into_static(event) for event in events()], [])
    yield from in_both("start", start)


# Scanners.

def run_answer(line, calls):
    """A run of calls as it is printed, each answer by the kind of its call."""
    kinds = {"upto": "Count", "list": "List", "definition": "Definition"}
    found, rest, place, stop = answers.line_run(line, calls)
    run_answers = [Value(kinds.get(name, "Flag"), some(item) if name in ("list", "definition") else item)
                    for (name, *_), item in zip(calls, found)]
    stopped = some(None if stop is None else (stop, Value("SpacePending")))
    return Value("LineRun", answers=run_answers, rest=list(rest), scanned=place, stop=stopped)


def line_run():
    line = "> -\t1.\t:   x\ty"
    calls = [("upto", 3), ("quote",), ("list", 0), ("space", 1), ("is_at_end",), ("list", 4), ("space", 2),
             ("definition", 8), ("is_at_end",), ("upto", 0)]
    return call(line, run_answer(line.encode(), calls))


def row():
    """A delimiter row of eighteen columns."""
    length, columns = answers.table_head(b"|-|:-|-:|:-:|-|:-|-:|:-:|-|:-|-:|:-:|-|:-|-:|:-:|-|:-|\n")
    assert len(columns) == 18
    return call("18 columns", (length, [Value(column) for column in columns]))


def unescaped(text):
    return with_variant("boxed", answers.unescaped(text, KNOWN))


def html_run(text, places):
    """The finds of the places up to one that is refused, the bytes passed over, and why it is refused."""
    steps = list(html_steps(text.encode(), places))
    stops = [(at, Value(why)) for at, (why, _, _) in enumerate(steps) if why]
    made = steps[:stops[0][0]] if stops else steps
    finds, passed = [some(found) for _, found, _ in made], made[-1][2]
    return Value("HtmlRun", answers=finds, passed=passed, stop=some(stops[0] if stops else None))


def scans():
    yield "run_line", line_run()
    yield "scan_table_head", row()
    yield "unescape", call("a\\*b &amp;lt; ..", unescaped("a\\*b &amp;lt; &#x1F354; &no; c\r".encode()))
    yield "unescape_900", call("900 references", unescaped(b"&amp;" * 900))
    yield "scan_html_block_inner", call("<foo bar>", tag_answer(b"<foo\n> bar>", quote))
    yield "scan_html_block_inner_900", call("448 attributes", tag_answer(b"<ab" + b"\n> a" * 448 + b">", quote))
    yield "scan_link_label_rest", call("hello world", label_answer(b"hello\r\nworld\r\n]"))
    yield "scan_link_label_rest_900", call("two words", label_answer(b"a" * 450 + b"  " + b"a" * 449 + b"]"))
    yield "scan_link_label_bytes", call("hello world", label_answer(b"hello\r\nworld\r\n]\xff"))
    yield "link_label_new", call(STREET, Plain(STREET))
    text = "<!-- <!x> <!-- <![CDATA[ ]]>"
    yield "run_inline_html", call(text, html_run(text, [2, 7, 12, 17, 18]))


# Trees: A, in it B, in that C, and in that D.

def changed(tree, change, before, after):
    """A call on a tree: so many nodes are printed before it and after it."""
    lines = [tree.described("before", before), "ready"]
    return lines + [debug_text(index(change(tree))), tree.described("after", after)]


def appended():
    behind, below = nested(*"ABCD"), nested(*"ABCD")
    below.push()
    return [line for tree in (behind, below) for line in changed(tree, lambda tree: tree.append("E"), 4, 5)]


def pushed():
    lines = changed(nested("A"), lambda tree: tree.push(), 1, 1)
    tree = nested(*"ABCD")
    for count, item in ((4, "E"), (5, "F"), (6, None)):
        lines += changed(tree, lambda tree: tree.push(), count, count)
        if item:
            tree.append(item)
    return lines


def cloned():
    tree = nested(*"ABCD")
    return [tree.described("before", 4), "ready", tree.described("copy", 4), tree.described("after", 4)]


def ordered():
    tree = nested(*"ABCD")
    order = [(index(node), depth) for node, depth in tree.in_order()]
    return [tree.described("before", 4), "ready", debug_text(order), tree.described("after", 4)]


def trees():
    yield "tree_with_capacity", call("no tree", True)
    yield "tree_append", appended()
    yield "tree_create_node", changed(nested(*"ABCD"), lambda tree: tree.create_node("E"), 4, 5)
    yield "tree_push", pushed()
    yield "tree_clone", cloned()
    yield "tree_in_order", ordered()


def main():
    no_memory = ((f"no_memory_{name}", ["ready", *map(debug_text, answers_of())]) for name, answers_of in NO_MEMORY.items())
    for cases in (values(), scans(), trees(), no_memory):
        for name, lines in cases:
            print("\n".join([f"case {name}", *lines]))


if __name__ == "__main__":
    main()
