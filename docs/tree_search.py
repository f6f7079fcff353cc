"""What docs/where finds in the tree for a call, a type or a word."""
import re
from functools import cache
from pathlib import Path

from crate_list import crates
from rattle_source import TOP, definitions, files_below, imports_of, items_of, lemmas_imported, text_of, words_of

OPERATORS = {
    "eq": r"[=!]=|assert_(?:eq|ne)!", "index": r"\w\[", "add": r" \+ ", "sub": r" - ",
    "fmt": r"format!|write!|\bprinted", "hash": r"hash",
}


@cache
def all_items():
    return [item for crate in crates() for item in items_of(crate)]


def edit_files():
    """Each file of wrong bodies, with its crate."""
    for path in sorted(TOP.glob("crates/*/must-fail/*.edit")):
        yield path, path.parent.parent.name
    for path in sorted(TOP.glob("tests/mutations/*.edits")):
        yield path, path.stem


@cache
def edits():
    """Each wrong body: where it stands, its crate, what it edits as pairs of a source file and the text there, and all of it."""
    found = []
    for path, crate in edit_files():
        line = 1
        for text in re.split(r"\n(?=name: )", path.read_text()):
            sources = re.findall(r"^(file|old): *(.*)$", text, flags=re.M)
            pairs, source = [], ""
            for word, rest in sources:
                if word == "file":
                    source = f"crates/{crate}/{rest.strip()}"
                else:
                    pairs.append((source, rest))
            found.append((f"{path.relative_to(TOP).as_posix()}:{line}", crate, pairs, text))
            line += text.count("\n") + 1
    return found


def pattern_of(item):
    """How code names a call: alone, or as a method of its type."""
    if not item.of_type:
        return re.compile(rf"\b{item.short}\b")
    if item.trait and item.short in OPERATORS:
        return re.compile(OPERATORS[item.short])
    return re.compile(rf"(?:\.|\b{item.of_type}::|Self::){item.short}\b(?=\s*\(|\))")


def naming(item, crate, below=""):
    """The functions of a crate that name a call, each with the line that does first."""
    pattern = pattern_of(item) if item.kind == "fn" else re.compile(rf"\b{item.trait.split('<')[0] or item.short}\b")
    for other in items_of(crate):
        if other.kind != "fn" or not other.path.startswith(f"crates/{crate}/src/{below}"):
            continue
        if item.of_type and not re.search(rf"\b{item.of_type}\b", text_of(other.path)):
            continue
        lines = text_of(other.path).splitlines()[other.line - 1 : other.end]
        is_strict = bool(item.trait) and item.short in ("eq", "index", "add", "sub")
        if is_strict and not re.search(rf"\b{item.of_type}\b", "\n".join(lines)):
            continue
        if at := next((at for at, line in enumerate(lines) if pattern.search(line)), None):
            yield other, other.line + at


@cache
def tokens_of(item):
    return set(re.findall(r"\w+", item.body))


def private_items(crate):
    found = [item for item in items_of(crate) if item.kind in ("fn", "const")]
    return [item for item in found if not item.public and not item.test and not item.trait]


def private_part(item):
    """The call, and what is private and only it uses; then what is private and others use as well."""
    own, others = [item], private_items(item.crate)
    users = {other: callers_of(other) for other in others}
    while more := [other for other in others if other not in own and users[other] and all(by in own for by in users[other])]:
        own += more
    shared = []
    while more := [other for other in others if other not in own + shared and any(by in own + shared for by in users[other])]:
        shared += more
    return own, shared


def callers_of(item):
    """The functions of the crate that use a function or a constant."""
    pattern = pattern_of(item)
    return [
        entry
        for entry in items_of(item.crate)
        if entry.kind == "fn" and item.short in tokens_of(entry) and entry is not item and not entry.test
        and (entry.path.startswith((item.path, item.path[:-3] + "/")) or in_crate(item)) and pattern.search(entry.body)
    ]


def in_crate(item):
    line = text_of(item.path).splitlines()[item.line - 1]
    return "pub" in line


def edits_in(items):
    """Where the wrong bodies stand whose text stands in one of the items."""
    for place, _, pairs, _ in edits():
        for source, old in pairs:
            text = text_of(source) if (TOP / source).is_file() else ""
            line = text[: text.find(old)].count("\n") + 1 if old in text else 0
            if any(item.path == source and item.line <= line <= item.end for item in items):
                yield place
                break


def edits_naming(pattern, crate=""):
    """Where the wrong bodies stand, of a crate or of all, whose own words a pattern fits."""
    return [place for place, of, _, text in edits() if crate in ("", of) and re.search(pattern, text)]


def alone(word):
    """A pattern for a word that stands alone."""
    return rf"(?<![\w.'-]){re.escape(word)}(?![\w'-])"


def proofs_of(item):
    """The proof files of a call."""
    top = f"crates/{item.crate}/proofs"
    found = []
    for path in files_below(top if item.of_type else f"{top}/{item.module}", ".antt"):
        above = Path(path).parent
        if above.name == item.short and (not item.of_type or re.match(item.of_type + r"(?![a-z])", above.parent.name)):
            found.append(path)
    return found


def naming_word(word, parts):
    """The first line of each file of these parts that names a word, imports apart."""
    pattern = re.compile(alone(word))
    for crate in crates():
        for part, suffix in parts:
            for path in files_below(f"crates/{crate}/{part}", suffix):
                if word not in text_of(path):
                    continue
                text = re.sub(r"(?m)^[ \t]*(?:ghost )?(?:pub )?use .*$", "", text_of(path))
                if found := pattern.search(text):
                    yield path, text[: found.start()].count("\n") + 1


def contracts_with(word):
    """The functions and impls whose contract names a word."""
    ours = set(crates())
    return [item for item in all_items() if word in item.contract and not item.test and word in words_of(item, ours)]


def lemmas_of(item):
    """The lemmas that the attribute of a function cites."""
    lines, at = text_of(item.path).splitlines(), item.line - 2
    while at >= 0 and lines[at].strip() and not lines[at].strip().startswith(("///", "//", "}")):
        at -= 1
    cited = re.findall(r"proofs::(?:\w+::)*([\w-]+)", "\n".join(lines[at + 1 : item.line - 1]))
    return [(path, number, word) for word in cited for path, number in definitions().get(word, []) if "/proofs/" in path]


def lemmas_of_proofs(item):
    """The lemmas that the proof files of a call import."""
    own = proofs_of(item)
    return [lemma for path in own for lemma in lemmas_imported(path) if lemma[0] not in own]


def items_with_clause(name):
    """The functions and traits that have a clause of this name."""
    return [item for item in all_items() if name in item.clauses and name not in ("requires", "ensures") and not item.test]


def implementers(trait):
    """The places that implement a trait."""
    for crate in crates():
        for path in files_below(f"crates/{crate}/src", ".rt"):
            for number, line in enumerate(text_of(path).splitlines(), 1):
                if re.match(rf"impl\b.*\b{trait}(?:<.*>)? for ", line):
                    yield f"{path}:{number}"


def definition_of(word, path):
    """Where the word that a file of code imports is defined."""
    words, aliases = imports_of(path)
    places = [place for place in definitions().get(word, []) if "/specs/" in place[0]]
    for crate, module in [words[word]] if word in words else aliases.values():
        if found := [place for place in places if place[0] == f"crates/{crate}/specs/{module}.antt"]:
            return found
    return places or definitions().get(word, [])
