"""Holds the rows of docs/CONTRACTS.md against the clauses in the sources."""
import re

from crate_list import crates
from rattle_source import definitions, items_of, public_items, text_of, words_of

# Words of our specs that a row need not name: how an answer is said.
GENERAL = {"SomeExactly", "IsOnly"}
NAME = re.compile(r"(?:[^\W\d][\w'-]*::)*[^\W\d][\w'-]*(?:\([^)]*\))?$")


def rows_of(text):
    """The rows of the page: their crate, the names in their heads, what they say, and a name for messages."""
    rows, crate = [], ""
    for number, line in enumerate(text.splitlines(), 1):
        if line.startswith("## "):
            crate = (re.findall(r"`(\w+)", line) or [""])[0]
        elif line.startswith("- ") and crate:
            rows.append([crate, line[2:], number])
        elif rows and line.startswith("  ") and line.strip():
            rows[-1][1] += " " + line.strip()
    return [(crate, *head_and_rest(text, number)) for crate, text, number in rows]


def head_and_rest(text, number):
    """The names of the head of a row, which ends at the first colon, the rest of the row, and its name."""
    found = re.match(r"((?:`[^`]*`|[^:`])*): (.*)", text)
    head, rest = found.groups() if found else (text, "")
    return re.findall(r"`([^`]+)`", head), rest, f"line {number}, row {head}"


def calls_named(crate, names):
    """The public calls that a head names: a short name is of the type that was named last, or a function."""
    known = {item.name: item for item in public_items(crate) if item.kind != "type"}
    found, missing, of_type = [], [], ""
    for name in names:
        full = name if name in known else f"{of_type}::{name}"
        if full in known:
            found.append(known[full])
            of_type = known[full].of_type
        elif not is_lemma(name):
            missing.append(name)
    return found, missing


def is_lemma(name):
    return any("/proofs/" in path for path, _ in definitions().get(name, []))


def allowed_names(crate, calls, names):
    """What a row may name: clauses and words of its calls, of private functions that it names, and what is public."""
    private = [item for item in items_of(crate) if item.kind == "fn" and not item.public and item.short in names]
    allowed = {entry for known in crates() for item in public_items(known) for entry in (item.name, item.short)}
    for item in [*calls, *private]:
        allowed |= {item.short, *item.clauses, *re.findall(r"[^\W\d][\w'-]*", item.contract)}
    return allowed | {name for name in names if is_lemma(name)} | set(crates())


def faults_of_row(crate, row):
    """What one row names that is neither in the contracts of its calls nor public."""
    heads, text, title = row
    calls, missing = calls_named(crate, heads)
    yield from [f"{title}: there is no call {item}" for item in missing]
    names = [found_text for found_text in re.findall(r"`([^`]+)`", text) if NAME.match(found_text)]
    general = [] if heads else [item for item in public_items(crate) if item.kind != "type"]
    allowed = allowed_names(crate, calls or general, names)
    if heads and not calls and not missing:
        allowed |= set(definitions())
    stale = [name for name in names if name not in allowed]
    if stale:
        yield f"{title}: not in the contract: {', '.join(stale)}"


def faults_of_lemmas(text, rows):
    """Lemmas for callers that no row of their section names."""
    heads = {name for row in rows for name in row[1]} | set(re.findall(r"(?m)^\|.*, `(\w+)` \|$", text))
    sections = re.findall(r"(?m)^## .*`(\w+)::proofs::ForCallers`", text)
    if not sections:
        yield "no section of lemmas was found"
    for crate in sections:
        for line in re.findall(r"\{([^}]*)\}", text_of(f"crates/{crate}/proofs/ForCallers.antt")):
            yield from [f"no row names the lemma {part.strip()}" for part in line.split(",") if part.strip() not in heads]


def faults_of_answers(text):
    """What is wrong in the table of what makes an answer the only one."""
    rows = re.findall(r"(?m)^\| `([\w:]+)` \| `(\w+)`, `(\w+)` \|$", text)
    calls = {item.name: item for item in public_items("markdown_scanners_tree") if item.kind == "fn"}
    named = {call for call, _, _ in rows}
    for call, clause, lemma in rows:
        if call not in calls or clause not in calls[call].clauses or not is_lemma(lemma):
            yield f"one answer: {call} has no clause {clause}, or there is no lemma {lemma}"
    yield from [f"one answer: {call.name} is missing" for call in calls.values() if "only" in call.clauses and call.name not in named]


def faults_of_rows(text):
    """What the rows lack, and what they name that is not so."""
    rows, ours = rows_of(text), set(crates())
    if not rows:
        yield "no row was found"
    yield from faults_of_lemmas(text, rows)
    yield from faults_of_answers(text)
    said = {}
    for crate, heads, body, title in rows:
        yield from faults_of_row(crate, (heads, body, title))
        for item in calls_named(crate, heads)[0]:
            first, names = said.setdefault((crate, item.name), (title, set()))
            names.update(re.findall(r"`([^`]+)`", body))
    for crate in sorted({row[0] for row in rows} & ours):
        for item in [item for item in public_items(crate) if item.kind in ("fn", "impl")]:
            title, names = said.get((crate, item.name), (None, set()))
            missing = [word for word in words_of(item, ours) if word not in names | GENERAL]
            if title is None:
                yield f"no row names {item.name}"
            elif missing:
                yield f"{title}: needs {', '.join(missing)} of {item.name}"
