"""What fillaqut events and pulldown-cmark 0.9.2 say of the events of a page, in one form. Pages and texts of them are bytes."""
import re
from collections import namedtuple

from block_trees import FILLAQUT, is_text, said_by

OURS = [FILLAQUT, "events"]

LINE = re.compile(rb'([0-9]+) ([0-9]+) ([a-z][a-z0-9 ]*?)((?: "[^"]*"| (?:id|class) "[^"]*")*)')
QUOTED = re.compile(rb'"([^"]*)"')
NUMBERED = re.compile(rb"\\u00(..)")
# How links and images are written that have a label, which pulldown-cmark 0.9.2 doesn't tell.
TEXTS_OF_A_LINK = 2

# The markers of tasks.
TASKS = ("checked task", "unchecked task")

# An event: where its source begins and ends, what it is, and the texts that are returned with it.
Event = namedtuple("Event", "start end words texts")


def bytes_of(quoted):
    """The bytes that are printed in quotation marks."""
    return NUMBERED.sub(lambda item: bytes([int(item[1], 16)]), quoted)


def event_of(line):
    start, end, words, texts = LINE.fullmatch(line).groups()
    return Event(int(start), int(end), words.decode(), tuple(bytes_of(found_text) for found_text in QUOTED.findall(texts)))


def renamed(event):
    """The event under the names of 0.9.2, which has no label of a link, and one name for HTML of both kinds; None where it has no such event."""
    if event.words in ("start html block", "end html block"):
        return None
    if event.words.startswith(("start link", "start image")):
        return event._replace(texts=event.texts[:TEXTS_OF_A_LINK])
    return event._replace(words="html") if event.words == "inline html" else event


def joined(events):
    """The same, with neighbours of text, and of HTML, as one event each. Empty texts are left out."""
    found = []
    for event in events:
        if event.words in ("text", "html"):
            if event.texts == (b"",):
                continue
            if found and found[-1].words == event.words:
                last = found.pop()
                event = Event(last.start, event.end, event.words, (last.texts[0] + event.texts[0],))
        found.append(event)
    return found


def with_tasks(events):
    """The same with each marker of a task in its paragraph, before which 0.9.2 has it."""
    found = []
    for event in events:
        if found and found[-1].words in TASKS and event.words == "start paragraph":
            found.insert(-1, event)
        else:
            found.append(event)
    return found


def said(program, page):
    """The events that a program prints of a page; None where it is not UTF-8."""
    return [event_of(line) for line in said_by(program, page).splitlines()] if is_text(page) else None


def our_events(page, options=()):
    """The events that ours prints, with the extensions of these options of the other program."""
    events = said([*OURS, *(word for option in options for word in ("-e", option.removeprefix("--")))], page)
    return events and joined([item for item in map(renamed, events) if item])


def their_events(program, page, options=()):
    events = said([program, *options], page)
    return events and joined(with_tasks(events))
