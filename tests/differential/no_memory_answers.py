"""What the cases `no_memory_..` of tests_refusals print: the answers of calls that take no memory. refusals.py says where each
comes from."""
import answers
from case_answers import KNOWN, OF_30, STREET, html_steps, label_answer, quote, tag_answer
from cuts import CLOSERS, bytes_passed, find_at, least_closers
from debug_format import INLINED, Plain, Value, borrowed, copied, index, link, some, with_variant
from trees import nested

OF_22, OF_23 = OF_30[:22], OF_30[:23]
TABLE = Value("Table", [Value("None"), Value("Center")])


# Texts. Equal texts have one hash, and a copy is equal.

def inlined(text):
    return (text, True) if len(text.encode()) <= INLINED else "too long"


def texts():
    return [
        inlined(OF_22), inlined(OF_23), Plain("🍔 true"), (with_variant("borrowed", OF_30), True, True),
        (with_variant("inlined", "藏"), True, True), with_variant("inlined", "a"), copied(OF_22),
    ]


# Kinds of code blocks, levels, alerts, alignments, links, tags and events. Alerts are numbered from 1, alignments from 0.

ALERTS = ("Note", "Tip", "Important", "Warning", "Caution")
ALIGNMENTS = ("None", "Left", "Center", "Right")


def numbered(names, first, number):
    """The value of the number, or None."""
    return some(Value(names[number - first]) if first <= number < first + len(names) else None)


def values():
    is_indented = lambda kind: (kind == "indented", kind == "fenced")
    level = lambda number: Plain(f"h{number} {number}" if 1 <= number <= 6 else f"not {number}")
    numbers = [
        (1 + ALERTS.index("Note"), numbered(ALERTS, 1, 6)), (ALIGNMENTS.index("Right"), numbered(ALIGNMENTS, 0, 0)),
    ]
    return [
        *map(is_indented, ("indented", "fenced", "fenced")), level(3), level(7), *numbers, Value("CollapsedUnknown"), Value("Link"),
        Value("List", True), link(borrowed(OF_30)), Value("Text", borrowed(OF_30)), Value("TaskListMarker", True),
        Value("End", Value("Table")),
    ]


# Options, by their bits: from 2 on, and old footnotes are footnotes with a bit of their own.

TABLES, FOOTNOTES, MATH, GFM = 1 << 1, 1 << 2, 1 << 10, 1 << 11
OLD_FOOTNOTES = FOOTNOTES | 1 << 9
ALL = sum(1 << bit for bit in range(1, 16))


def options():
    is_known = lambda bits: bits & ~ALL == 0
    is_gfm = lambda bits: bits & FOOTNOTES == FOOTNOTES and bits & OLD_FOOTNOTES != OLD_FOOTNOTES
    six = TABLES | FOOTNOTES
    three = TABLES | MATH | GFM
    return [
        (0, ALL), (is_known(1), is_known(512)), (7 & ALL, 7), (True, True),
        (FOOTNOTES & OLD_FOOTNOTES == OLD_FOOTNOTES, FOOTNOTES & OLD_FOOTNOTES != 0),
        (is_gfm(FOOTNOTES), is_gfm(OLD_FOOTNOTES)), (six, six & OLD_FOOTNOTES), OLD_FOOTNOTES & ~FOOTNOTES,
        six ^ OLD_FOOTNOTES, ~six & ALL, three, three & ~TABLES ^ MATH,
    ]


# Starts of lines.

def of_line(line, *calls):
    """What calls answer on the start of a line; a call without an answer prints nothing."""
    start, found = answers.LineStart(line), []
    for name, *words in calls:
        found.append(getattr(start, name)(*words))
    return found


def lines():
    is_three = lambda taken: taken == 3
    taken, is_at_end, one, two, after, _, last = of_line(
        b"\t \tx", ("upto", 3), ("is_at_end",), ("seen",), ("upto", 2), ("seen",), ("all_space",), ("seen",))
    found = [(is_three(taken), is_at_end), one, two, after, last]
    quote, taken, item, seen = of_line(b">\t\t- x", ("quote",), ("upto", 9), ("list", 1), ("seen",))
    found += [quote, taken, some(item), seen]
    indent, seen = of_line(b":\tx", ("definition", 0), ("seen",))
    found += [some(indent), seen]
    box, seen = of_line(b"\t[x] a", ("task",), ("seen",))
    found += [some(box), seen]
    alert, seen = of_line(b"[!Note]  \nx", ("alert",), ("seen",))
    found += [some(alert and Value(alert)), seen]
    _, left = of_line(b">\tx", ("quote",), ("rest",))
    signs = [ord("#")] * 4
    found += [len(left), Value("Err", len(left)), signs, Value("Ok", len(left)), [*left, *signs[len(left):]]]
    quote, taken, item, seen = of_line(b">\t- x", ("quote",), ("upto", 9), ("list", 1), ("seen",))
    found += [False, (0, taken), some(item), seen]
    called = [Value("Flag", quote), None, Value("Count", taken), Value("List", some(item))]
    return found + [Value("Ok", call) if call else Value("Err", Value("SpacePending")) for call in called] + [seen]


# Scanners of lines.

def classes(byte):
    """Whether a byte is white space, white space that ends no line, punctuation."""
    classes_of = (rb"[ \t-\r]", answers.INLINE_SPACE, answers.PUNCTUATION)
    return tuple(answers.length_of(word, byte) is not None for word in classes_of)


def run_of(text, byte):
    return len(text) - len(text.lstrip(byte))


def scanners():
    level, setext = answers.atx_level(b"###"), answers.setext(b"==  \nx")
    broken, other = answers.thematic_break(b"* * *\n"), answers.thematic_break(b"- -x-")
    assert other is None
    return [
        *map(classes, (b"\n", b" ", b"-", b"a")),
        int(b"ab".startswith(b"a")), run_of(b"aab", b"a"), run_of(b"aab", b"a"), run_of(b"baa"[::-1], b"a"),
        answers.length_of(answers.INLINE_SPACE + b"*", b" \tx"), answers.length_of(rb"[ \t]*", b" \t\x0bx"),
        some(answers.eol(b"\rx")), some(answers.blank_line(b"\r\r\n")), answers.line(b"a\r\nb"), len(b"a\r\nb".splitlines()[0]),
        len(answers.lines(b"a\r\n\nb")), b"a\rb\nc".index(b"\n") + 1,
        some(answers.length_of(b"> ?", b"> ")), Value("Ok", broken), Value("Err", answers.break_length(b"- -x-")),
        answers.indent(b"\t x", 4), some(Value(f"H{level}")), some((setext[0], Value(f"H{setext[1]}"))),
        some(answers.code_fence(b"~~~a`")), some(answers.closing_code_fence(b"````  \n", ord("`"), 3)),
        some(answers.metadata_block(b"---\na: b\n---\n", ord("-"))), some(answers.closing_metadata(b"--- \n", ord("-"))),
        *map(answers.interrupts, (b"  1. a", b"-\n")), some(answers.list_item(b"-   x")), some(answers.list_item(b"1844674407370955161615!")),
    ]


# Scanners of inline text, and what the calls that may want memory answer without it.

def reference_answer(text):
    found = answers.reference(text, KNOWN)
    if not found:
        return 0, some(None)
    variant = "borrowed" if found[1] in KNOWN.values() else "inlined"
    return found[0], some(with_variant(variant, found[1]))


def destination_answer(text, max_next):
    length = answers.destination(text, max_next)
    return some(None if length is None else (length, text[:length].decode()))


def title_answer(text):
    return some(answers.link_title(text))


def definition_answer(text, max_next):
    found = answers.reference_definition(text, max_next)
    if not found:
        return some(None)
    label, destination, title = (item and Plain(f"{item[0]}..{item[1]}") for item in found[:3])
    return some(Value("ReferenceDefinition", label=label, destination=destination, title=some(title), len=found[3]))


HTML_LINES = (b"<PRE>", b"a --> b", b"</td/>", b"<b c> \n")


def html_answer(text):
    """The kind of the block that begins there, and whether the line ends a comment, and a block with a name."""
    kind = answers.html_kind(text)
    ends = tuple(answers.ends_html(text, name) for name in ("Comment", "BlockName"))
    return some(kind and Value(kind)), *ends


def inline():
    end, address = answers.uri(b"https://a.b>", 0)
    bare, address_ahead = (answers.destination(text, 1) for text in (b"((a)) b", b"https://a.b/c/d/e/f g"))
    plain = "plain & simple"
    assert answers.unescaped(plain.encode(), KNOWN) == plain
    return [
        *map(reference_answer, ("&#x1F354;".encode(), b"&amp;", b"&#12345678;")),
        some(answers.wikilink(b"a|b]]", 0, 3)), destination_answer(b"((a))", 1), destination_answer(b"(((a)))", 1),
        some((end, borrowed(address), Value("Autolink"))), some(answers.wikilink(b"a|b]]", 0, 3)[0] - 1),
        some((bare, Plain(f"0..{bare}"))), some(len(address)), *map(title_answer, (b"'a\n\\'b' c", b"(a\n\nb)")),
        definition_answer(b"[a]: <b>\n'c'\n", 1), definition_answer(b"[a]: b 'c' d", 1),
        some(Plain("{}..{}".format(*answers.separated_title(b"a \n'b'", 1)))),
        some((address_ahead, Plain(f"0..{address_ahead}"))), definition_answer(b"[a]: https://a.b/c/d/e/f 'g'\n", 1),
        answers.is_block_name(b"DIV>"),
        some(answers.tag_alone(b"<a b=\t'c'>  \n")), *map(html_answer, HTML_LINES),
        *(answers.ends_html(b"", name) for name in ("Comment", "TagAlone")), tag_answer(b"<foo bar>", None), tag_answer(b"</a\n>", None),
        tag_answer(b"<a\nb\nc>", quote), tag_answer(b"</a\n\n> >", quote), with_variant("borrowed", plain),
        answers.table_head(b"| a |"), *map(label_answer, (b"a\\ ]", b" a b ]", b"a  b", b"a\n\nb]")),
    ]


# Inline HTML under a guard, of which a scan of a comment keeps the place of its closer's second hyphen, and the text's length
# where a search finds no closer.

def guarded(text, kind, number=0):
    """A scan just after the first opener, where nothing is shut: what it answers, the guard's number for the kind, and the
    bytes passed over."""
    closers = least_closers(text)
    begun, found = find_at(text, closers, 2)
    assert begun == kind
    if found is None:
        number = len(text)
    elif kind == "comment":
        number = found - len(CLOSERS[kind]) + 1
    return some(found), number, bytes_passed(text, 2, kind, found, set())


def steps(text, places):
    """The answer of each step, then the bytes passed over and the number of steps that were not refused."""
    made = list(html_steps(text, places))
    step_answers = [Value("Err", Value(why)) if why else Value("Ok", some(found)) for why, found, _ in made]
    return [*step_answers, (made[-1][2], sum(not why for why, _, _ in made))]


def inline_html():
    comment, cdata = guarded(b"<!--->", "comment"), guarded(b"<![CDATA[a]>b]]>", "cdata")
    processing = guarded(b"<?>", "processing")
    text = b"<!a-->b"
    hit = text.index(b"-->")
    # one byte is looked at, three are compared, and a search passes over all up to the end of its hit
    passed = 1 + 3 + hit + 3
    *either, (either_passed, _) = steps(b"<!-->", [3, 2])
    return [
        comment[:2], cdata[:2], (*processing[:2], 0), (len(text), some(text[1])), some(text[2]), text[3:6] == b"-->",
        some(hit), passed, guarded(b"<!--<?a?>", "comment"), guarded(b"<?a?>", "processing"), *either, either_passed,
        *steps(b"<!-- a <!-- b --> <!-- c", [2, 9, 2, 20, 1]),
    ]


def labels():
    """A label has its text, and two whose texts have one case folding match and have one hash."""
    match = STREET.casefold() == f"STRASSE {OF_30.upper()}".casefold()
    return [(True, match, match)]


# Trees of ranges.

def linked(number):
    """The index of a node, or of none."""
    return some(index(number) if number else None)


def spine_answer(tree):
    up, grandparent = (tree.spine[-at] if len(tree.spine) >= at else None for at in (1, 2))
    return [linked(tree.focus), *tree.spine, len(tree.spine), (linked(up), linked(grandparent)), not tree.nodes]


def tree_index():
    number = nested([0, 9]).focus
    return [(number, linked(number + 1), linked(number - 1))]


def tree():
    tree = nested([0, 9], [0, 8], [0, 3])
    tree.append([3, 8])
    found = spine_answer(tree)
    tree.nodes[3][0][1] = 4
    found += [(tree.nodes[3][0][1], linked(tree.nodes[3][2])), linked(tree.pop())]
    tree.truncate_to_parent(3)
    found.append((linked(tree.focus), linked(tree.nodes[2][2])))
    tree.nodes[4][1], tree.nodes[2][2] = 3, None
    found += [(linked(tree.nodes[4][1]), linked(tree.nodes[2][2])), linked(tree.next_sibling(1))]
    tree.reset()
    return found + spine_answer(tree)


def remove_node():
    tree = nested([0, 9], [0, 8])
    return [linked(tree.remove_node()), *spine_answer(tree)]


def truncate_siblings():
    tree = nested([0, 9], [3, 8])
    tree.cut_children(4)
    return [(index(tree.focus), *tree.nodes[tree.focus][0]), *spine_answer(tree)]


NO_MEMORY = {
    "texts": texts,
    "copied_short_text": lambda: [(copied(OF_22), True, True)],
    "static_owned_text": lambda: [with_variant("boxed", OF_30)],
    "owned_string": lambda: [OF_30[:15]],
    "values": values,
    "static_table": lambda: [TABLE],
    "options": options,
    "lines": lines,
    "scanners": scanners,
    "inline": inline,
    "inline_html": inline_html,
    "labels": labels,
    "tree_index": tree_index,
    "tree": tree,
    "remove_node": remove_node,
    "truncate_siblings": truncate_siblings,
}
