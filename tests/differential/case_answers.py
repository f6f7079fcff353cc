"""What tests_refusals is made of and how it prints tags, labels and scans of inline HTML, for refusals.py and no_memory_answers.py."""
import answers
from cuts import bytes_passed, find_at, least_closers
from debug_format import Plain, borrowed, boxed, debug_text, some

OF_30 = "0123456789abcdefghijklmnopqrst"
STREET = "Straße " + OF_30
KNOWN = {b"amp": "&"}


def quote(rest):
    """How many bytes of the rest are a block quote's."""
    return 2 if rest.startswith(b"> ") else 0


def tag_answer(text, skips):
    """Its length, and the length and text of a buffer: of the tag where something in it is skipped, else of nothing."""
    found = answers.tag(text, skips)
    if not found:
        return Plain("none")
    buffer = found[0] if found[1] != len(found[0]) else b""
    return Plain(f"{found[1]} {len(buffer)} {debug_text(buffer.decode())}")


def label_answer(text):
    """The bytes taken and the text of a label in which nothing is skipped."""
    found = answers.label(text, lambda rest: 0)
    return some(found and (found[0], borrowed(found[1]) if found[2] else boxed(found[1])))


def html_steps(text, places):
    """For each place why it is refused, if it is, what is found there, and the bytes passed over so far. A refused place
    changes nothing."""
    closers, shut, passed, last, end = least_closers(text), set(), 0, 0, 0
    for place in places:
        is_opener = place > 1 and text[place - 2:place] in (b"<!", b"<?")
        why = "NoOpener" if not is_opener else "NotRising" if place <= last else "InsideFind" if place < end else None
        if why:
            yield why, None, passed
            continue
        kind, found = find_at(text, closers, place)
        passed += bytes_passed(text, place, kind, found, shut)
        shut |= {kind} if kind and found is None else set()
        last, end = place, found or end
        yield None, found, passed
