"""Writes the computed part of docs/MAP.md: the names of calls, types and files in its items, and the totals of its head.

A name that the tree has not is taken out. One that the page has not, or has at another module, is put into the item of its module,
after the one that comes before it in the code. What an item says beside its names stays, and so does each item whose names are
right.
"""
import re
import textwrap

from map_page import (MAP, USES, calls_and_types, counted, crates_of, files_of, files_of_folder, has_calls, listed, modules_of,
                      named, sections_of, tokens_of)
from rattle_source import TOP, public_items, text_of

ITEM = re.compile(r"(?m)^- .*(?:\n  .*)*\n?")
WIDTH = 121
SHARED = "### Shared by several constructs"
COMMENT = re.compile(r'(?:"""|//!|///?|/\*\*?|\*|--|#)\s*')


def joined(item):
    return " ".join(line.strip() for line in item.splitlines())


def wrapped(line, indent="  "):
    """An item, or a paragraph, on lines none of which parts a name."""
    kept = re.sub(r"`[^`]*`", lambda found: found[0].replace(" ", "\0"), line)
    how = {"subsequent_indent": indent, "break_long_words": False, "break_on_hyphens": False}
    return textwrap.fill(kept, WIDTH, **how).replace("\0", " ") + "\n"


def changed(text, change):
    """The text with its items changed, each as one line; one that comes to nothing is left out."""

    def replaced(found):
        before = joined(found[0])
        after = change(before)
        return found[0] if after == before else wrapped(after) if after else ""

    return ITEM.sub(replaced, text)


def without(line, name):
    """An item without the first place of a name; nothing, where no other stands there."""
    quoted = f"`{name}`"
    if named(line) == [name]:
        return ""
    for old in (f", {quoted}", f"{quoted}, ", quoted):
        if old in line:
            return line.replace(old, "", 1)
    return line


def with_name(line, name, before, after):
    """An item with one name more, beside one of these or at its end."""
    if f"`{before}`" in line:
        return line.replace(f"`{before}`", f"`{before}`, `{name}`", 1)
    if f"`{after}`" in line:
        return line.replace(f"`{after}`", f"`{name}`, `{after}`", 1)
    return f"{line}, `{name}`"


def with_item(part, item, first=False):
    """A part with one item more: the last, or the first after the paragraphs."""
    items = list(ITEM.finditer(part))
    if not items:
        return f"{part.rstrip()}\n\n{wrapped(item)}\n"
    at = items[0].start() if first else items[-1].end()
    return part[:at] + wrapped(item) + part[at:]


def parts_of(section):
    """What stands before the first construct of a section, and each construct."""
    return re.split(r"(?m)^(?=### )", section)


def home(parts, module):
    """Which part has a module, or the module above it: or the only part, or none."""
    while module:
        for at, part in enumerate(parts):
            if module in modules_of(part):
                return at
        module = module.rpartition("/")[0]
    return 0 if len(parts) == 1 else None


def put(part, label, name, neighbours):
    """A part with a name in the item of a label, which is made where there is none."""
    head = f"- {label}: "
    if not listed(part, label):
        types = head + f"`{name}`"
        if label == "Types" and (found := re.search(r"(?m)^- Calls: .*(?:\n  .*)*\n", part)):
            return part[: found.end()] + wrapped(types) + part[found.end() :]
        return with_item(part, types, first=True)
    return changed(part, lambda line: with_name(line, name, *neighbours) if line.startswith(head) else line)


def with_names(parts, label, wanted):
    """The parts with these names, each where its module is, and no others in the items of a label."""
    modules, seen = dict(wanted), set()
    for at, part in enumerate(parts):
        for name in listed(part, label):
            if name in modules and name not in seen and home(parts, modules[name]) in (at, None):
                seen.add(name)
            else:
                parts[at] = changed(parts[at], lambda line: without(line, name) if line.startswith(f"- {label}: ") else line)
    for name, module in wanted:
        if name not in seen and (place := home(parts, module)) is not None:
            here = set(listed(parts[place], label))
            beside = [item for item, its in wanted if its == module and (item in here or item == name)]
            at = beside.index(name)
            parts[place] = put(parts[place], label, name, ("".join(beside[:at][-1:]), "".join(beside[at + 1 :][:1])))
    return parts


def described(path):
    """What the head of a file says that it is, in its first sentence, behind a colon."""
    try:
        lines = [line for line in text_of(path).splitlines()[:9] if not line.startswith("#!")]
    except UnicodeDecodeError:
        return ""
    said = []
    for line in lines:
        found = COMMENT.match(line.strip()) or (said and not line.startswith(("use ", "import ")) and line.strip())
        if not found:
            break
        said.append(COMMENT.sub("", line.strip(), count=1))
    sentence = re.split(r"\.(?=\s|$|\"\"\")|\"\"\"|\*/", " ".join(said))[0].strip()
    is_word = sentence[1:2].islower()
    return f": {sentence[0].lower() if is_word else sentence[0]}{sentence[1:]}" if sentence else ""


def with_module(crate, section, path):
    """A section with a module: in the construct of the module above it, in one of its own where it has calls, or among files."""
    module, parts = path[4:-3], parts_of(section)
    if "/" in module and len(parts) > 1 and (at := home(parts, module.rpartition("/")[0])) is not None:
        title, head, rest = parts[at].split("\n\n", 2)
        names, mark, rule = joined(head).partition(": ")
        parts[at] = "\n".join([title, "", wrapped(f"{names}, `{module}`{mark}{rule}", ""), rest])
    elif len(parts) > 1 and any(item.module == module for item in public_items(crate)):
        title = described(f"crates/{crate}/{path}").removeprefix(": ") or module
        at = next((at for at, part in enumerate(parts) if part.startswith(SHARED)), len(parts))
        parts.insert(at, f"### {title[0].upper()}{title[1:]}\n\n`{module}`:\n\n")
    else:
        return with_file(section, path, f"crates/{crate}/{path}")
    return "".join(parts)


def with_file(section, name, path):
    """A section with an item for a file, among those that constructs share or at its end."""
    parts = parts_of(section)
    at = next((at for at, part in enumerate(parts) if part.startswith(SHARED)), -1)
    parts[at] = with_item(parts[at], f"- `{name}`{described(path)}")
    return "".join(parts)


def without_file(section, name):
    """A section without a file: it leaves the head of its item, and the item goes where no other file is left there."""

    def change(line):
        head, mark, rest = line.partition(": ")
        return line if name not in named(head) else (left + mark + rest if (left := without(head, name)) else "")

    return changed(section, change)


def with_files(crate, section):
    for name in [token for token in tokens_of(section) if not (TOP / "crates" / crate / token).exists()]:
        section = without_file(section, name)
    while missing := next((path for path, count, by_rule in files_of(crate, section) if not count and not by_rule), None):
        is_module = missing.startswith("src/")
        section = with_module(crate, section, missing) if is_module else with_file(section, missing, f"crates/{crate}/{missing}")
    return section


def with_uses(section):
    uses = calls_and_types(USES)[0]
    for module in dict.fromkeys(use.module for use in uses):
        wanted = [(use.name, module) for use in uses if use.module == module]
        section = with_names([section], f"`src/{module}.rt`", wanted)[0]
    return section


def of_crate(crate, section):
    section = with_files(crate, section)
    if crate == USES:
        return with_uses(section)
    if not has_calls(crate, section):
        return section
    parts = parts_of(section)
    for label, items in zip(("Calls", "Types"), calls_and_types(crate)):
        parts = with_names(parts, label, [(item.name, item.module) for item in items])
    return "".join(parts)


def of_folder(name, section):
    wanted, tokens = files_of_folder(name, section)
    for item in [token for token in tokens if token not in wanted]:
        section = without_file(section, item)
    for item in [word for word in wanted if word not in tokens]:
        section = with_file(section, item, f"{name}/{item}")
    return section


def with_totals(text):
    sections = sections_of(text)
    head, mark, rest = text.partition("\n## ")
    for what, number in counted(crates_of(sections), sections).items():
        head = re.sub(rf"\b\d+(\s+{what}\b)", rf"{number}\g<1>", head)
    return head + mark + rest


def written(text):
    """The page as the tree has it."""
    parts = re.split(r"(?m)^(## `[\w/]+`\n)", text)
    for at in range(1, len(parts), 2):
        name = named(parts[at])[0]
        if name in crates_of([name]):
            parts[at + 1] = of_crate(name, parts[at + 1])
        elif name.endswith("/") and (TOP / name).is_dir():
            parts[at + 1] = of_folder(name.rstrip("/"), parts[at + 1])
    return with_totals("".join(parts))


def write():
    (TOP / MAP).write_text(written(text_of(MAP)))
    text_of.cache_clear()
