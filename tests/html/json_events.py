"""The JSON objects of `fillaqut html --to json`: which members each has, and the line of `--to events` that says the same."""
from html_programs import Fails

# The members that an object has, in order: all have the first three, and a start has those of its element.
TEXTS = {"text", "code", "html", "inline html"}
OF_ELEMENTS = {"heading": ["level"]}
OF_STARTS = {"code block": ["info"], "list": ["first"], "table": ["columns"], **dict.fromkeys(("link", "image"), ["type", "destination", "title", "label"])}
# Those that may be missing.
MAY_BE_MISSING = {"info", "first", "label"}


def members_of(event):
    """The members of an object, in order, those that are missing left out."""
    kind, element = event["kind"], event.get("element")
    found = ["kind", "start", "end"]
    if kind in TEXTS:
        found += ["text"]
    elif kind == "task":
        found += ["checked"]
    elif kind in ("start", "end"):
        found += ["element", *OF_ELEMENTS.get(element, []), *(OF_STARTS.get(element, []) if kind == "start" else [])]
    return [item for item in found if item in event or item not in MAY_BE_MISSING]


def word_of(value):
    """A member as `--to events` has it; a text in quotation marks."""
    return str(value) if isinstance(value, int) else f'"{"".join(map(byte_of, value.encode()))}"'


def byte_of(byte):
    return chr(byte) if 0x20 <= byte < 0x7F and byte not in b'"\\' else f"\\u00{byte:02x}"


def line_of(event):
    """The line of `--to events` that says what an object does."""
    names = members_of(event)
    if list(event) != names:
        raise Fails(f"an object has the members {', '.join(event)}, and not {', '.join(names)}")
    if event["kind"] == "task":
        words = ["checked task" if event["checked"] else "unchecked task"]
    else:
        plain = {"kind", "element", "type"}
        shown = [name for name in names if name not in ("start", "end")]
        words = [event[name] if name in plain else " ".join(event[name]) if name == "columns" else word_of(event[name]) for name in shown]
    return " ".join([str(event["start"]), str(event["end"]), *words])
