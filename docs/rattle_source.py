"""Reads Rattle sources: the items of code, with their contracts and bodies, and the words and lemmas that specs and proofs define.

All scripts that need to know what a source says ask here, by patterns over lines as `rt fmt` lays them out; none of them parses a source itself.
"""
import re
from dataclasses import dataclass, field
from functools import cache
from pathlib import Path

from crate_list import crates

TOP = Path(__file__).resolve().parent.parent
WORD = re.compile(r"[^\W\d][\w']*")
TYPE = re.compile(r"pub (struct|enum|union|type|const|static) (\w+)")
IMPORT = re.compile(r"use Rattle\.(\w+)\.specs\.([\w.]+?)(?:\.\{([^}]*)\}| as (\w+))")
PROOF_IMPORT = re.compile(r"(?m)^\s*(?:pub )?use Rattle\.(\w+)\.proofs\.([\w.'-]+?)(?:\.\{([^}]*)\}| as \w+)")
HEADED = re.compile(r"(?:(?:abbrev|unfoldable) (?:pub )?|(?:pub )?(?:record|data|ruleset) )([^\s:({]+)")
STATED = re.compile(r"(?:pub )?([^\s:({]+) :")
OF_FUNCTIONS = ("Answers.antt", "Invariants.antt", "Proof.antt")
PRIVATE = re.compile(r"\s*(?:pub\(crate\) )?(?:const|static) (\w+):")
PRIVATE_TYPE = re.compile(r"(?:pub\(crate\) )?(?:struct|enum|union|type|trait) (\w+)")


@dataclass(eq=False)
class Item:
    """A function, a type, a trait, a trait's impl without a function of its own, or a private constant."""

    kind: str  # fn, type, trait, impl or const
    name: str  # as the map has it: scan_entity, LineStart::new, CowStr::from(char), Eq for CowStr
    crate: str
    path: str  # from the top of the tree
    line: int
    end: int = 0
    public: bool = False
    test: bool = False
    of_type: str = ""
    trait: str = ""
    clauses: list = field(default_factory=list)
    contract: str = ""
    conditions: list = field(default_factory=list)  # what its `requires` say, of each its name and its text
    body: str = ""

    @property
    def short(self):
        """The name of the function or type alone."""
        return self.name.split("(")[0].split("::")[-1]

    @property
    def module(self):
        return self.path.split("/src/")[1].removesuffix(".rt")


@cache
def text_of(path):
    return (TOP / path).read_text()


@cache
def files_below(folder, suffix):
    return [path.relative_to(TOP).as_posix() for path in sorted((TOP / folder).rglob("*" + suffix)) if path.is_file()]


def without_generics(text):
    """The text without a list of generics at its front."""
    if not text.startswith("<"):
        return text.strip()
    depth = 0
    for at, item in enumerate(text):
        depth += (item == "<") - (item == ">")
        if depth == 0:
            return text[at + 1 :].strip()
    return text


def head_of_block(line):
    """The trait, with its arguments, and the type of the head of an impl or a trait."""
    if found := re.match(r"pub trait (\w+)", line):
        return "", found[1]
    head = without_generics(line.removeprefix("impl").strip()).rstrip("{ ")
    trait, _, of_type = head.rpartition(" for ")
    trait = re.sub(r"'\w+ ", "", trait).split("::")[-1]
    return trait, re.search(r"\w+", of_type)[0]


def in_braces(text, start):
    """What stands between the brace at a place and the one that closes it."""
    depth = 0
    for at in range(start, len(text)):
        depth += (text[at] == "{") - (text[at] == "}")
        if depth == 0:
            return text[start + 1 : at]
    return text[start + 1 :]


def clauses_of(text):
    """The names of the clauses in the head of a function or in a block, and what the clauses say."""
    names, said = [], []
    for found in re.finditer(r"(?m)^\s*(requires|ensures)\*?\s+(?:(\w+)\s+)?\{|^\s*ghost (\w+)\s*[:=]\s*\{", text):
        names.append(found[2] or found[3] or found[1])
        said.append(in_braces(text, found.end() - 1))
    return names, "\n".join(said)


def conditions_of(text):
    """What the `requires` in the head of a function say: of each its name, which may be empty, and its text in one line."""
    found = re.finditer(r"(?m)^\s*requires\*?\s+(?:(\w+)\s+)?\{", text)
    return [(clause[1] or "", " ".join(in_braces(text, clause.end() - 1).split())) for clause in found]


def function_at(lines, start):
    """The head of the function at a line, its body, and its last line."""
    indent = re.match(r"\s*", lines[start])[0]
    has_clauses = False
    for at in range(start, len(lines)):
        line = lines[at].rstrip()
        has_clauses |= bool(re.match(r"\s*(requires|ensures)\b", line))
        opens = line == indent + "{" or not has_clauses and line.endswith(("{", "{}"))
        if opens and not line.endswith("{}"):
            end = next((number for number in range(at + 1, len(lines)) if lines[number].rstrip() == indent + "}"), at)
            return "\n".join(lines[start : at + 1]), "\n".join(lines[at + 1 : end]), end
        following = lines[at + 1].strip() if at + 1 < len(lines) else ""
        if opens or line.endswith(";") and not following.startswith(("requires", "ensures")):
            return "\n".join(lines[start : at + 1]), "", at
    return lines[start], "", start


def function_item(lines, at, found, block, where):
    """The item of a function, in a block or alone."""
    head, body, end = function_at(lines, at)
    names, said = clauses_of(head)
    trait, of_type = block["head"] if block and found[1] else ("", "")
    if trait:
        more, ghosts = clauses_of("\n".join(lines[block["at"] : block["end"]]))
        names, said = [line for line in more if line not in names] + names, ghosts
    name = f"{of_type}::{found[3]}" if of_type else found[3]
    visible = bool(found[2]) and "(" not in found[2] or bool(trait)
    is_test = any("#[test]" in line for line in lines[max(0, at - 3) : at] if line.strip().startswith("#["))
    return Item("fn", name, *where, at + 1, end + 1, visible, is_test, of_type, trait, names, said, conditions_of(head), body)


def block_item(lines, block, where):
    """The item of a trait, or of an impl of one."""
    names, said = clauses_of("\n".join(lines[block["at"] : block["end"]]))
    trait, of_type = block["head"]
    kind, name = ("impl", f"{trait.split('<')[0]} for {of_type}") if trait else ("trait", of_type)
    return Item(kind, name, *where, block["at"] + 1, block["end"] + 1, True, False, of_type, trait, names, said)


def items_of_file(path):
    """All items of a file, private ones too."""
    lines, where, found = text_of(path).splitlines(), (path.split("/")[1], path), []
    block = None
    for at, line in enumerate(lines):
        if block and at > block["end"]:
            block = None
        if re.match(r"impl\b|pub trait ", line):
            end = next((number for number in range(at, len(lines)) if lines[number] == "}"), len(lines) - 1)
            block = {"at": at, "end": end, "head": head_of_block(line)}
            if line.startswith("pub trait") or block["head"][0]:
                found.append(block_item(lines, block, where))
        elif match := re.match(r"(\s*)(pub(?:\([\w: ]+\))? )?(?:extern \"C\" )?(?:const )?fn (\w+)", line):
            found.append(function_item(lines, at, match, block, where))
        elif match := re.match(r"(\s*)" + TYPE.pattern, line):
            name = f"{block['head'][1]}::{match[3]}" if match[1] and block else match[3]
            found.append(Item("type", name, *where, at + 1, at + 1, True))
        elif match := PRIVATE.match(line):
            end = next((end for end in range(at, len(lines)) if lines[end].endswith(";")), at)
            found.append(Item("const", match[1], *where, at + 1, end + 1))
        elif match := PRIVATE_TYPE.match(line):
            found.append(Item("type", match[1], *where, at + 1, at + 1))
    return found


@cache
def items_of(crate):
    """All items of the code of a crate, those of its tests too."""
    found = [item for path in files_below(f"crates/{crate}/src", ".rt") for item in items_of_file(path)]
    return named_apart([item for item in found if item.trait != "Model"])


def named_apart(found):
    """The items with names that say which is which."""
    own = {item.name for item in found if item.kind == "fn" and not item.trait}
    of_traits = [item for item in found if item.kind == "fn" and item.trait]
    named = [item.name for item in of_traits]
    for item in of_traits:
        if item.name in own:
            item.public = False
        elif named.count(item.name) > 1 and "<" in item.trait:
            item.name += "(" + item.trait.split("<")[1].rstrip(">") + ")"
    shown = {(item.path, item.trait, item.of_type) for item in of_traits if item.public}
    return [item for item in found if item.kind != "impl" or (item.path, item.trait, item.of_type) not in shown]


def public_items(crate):
    """What a crate offers: calls, types, traits and impls, without tests and what lies in a trait."""
    traits = {item.name for item in items_of(crate) if item.kind == "trait"}
    types = {item.name for item in items_of(crate) if item.kind in ("type", "trait") and item.public}
    return [
        item
        for item in items_of(crate)
        if item.public and item.of_type not in traits - {item.name} and (not item.trait or item.of_type in types)
        and "/tests" not in item.path
    ]


@cache
def imports_of(path):
    """The words of specs that a file takes, each with its crate and its module, and its names for whole modules."""
    words, aliases = {}, {}
    for found in IMPORT.finditer(text_of(path)):
        place = found[1], found[2].replace(".", "/")
        if found[4]:
            aliases[found[4]] = place
        for word in (found[3] or "").split(","):
            words[word.split(" as ")[-1].strip()] = place
    return words, aliases


def lemmas_imported(path):
    """The lemmas that a proof file takes of our crates, each with where it is defined; of a whole module that it names, the file."""
    for crate, module, words in PROOF_IMPORT.findall(text_of(path)):
        own = f"crates/{crate}/proofs/{module.replace('.', '/')}.antt"
        for word in [part.split(" as ")[0].strip() for part in words.split(",")]:
            places = [place for place in definitions().get(word, []) if place[0].startswith(f"crates/{crate}/proofs/")]
            yield from [(*item, word) for item in [place for place in places if place[0] == own] or places]
        if not words and (TOP / own).is_file():
            yield own, 1, ""


def words_of(item, ours):
    """The words of our specs that a contract names."""
    words, aliases = imports_of(item.path)
    text = re.sub(r"ghost use [^;]*;", "", item.contract)
    found = [match[0] for match in re.finditer(r"(?<![.\w])[^\W\d][\w'-]*", text) if words.get(match[0], [""])[0] in ours]
    for entry in re.finditer(r"(?<![.\w])(\w+)\.([\w'-]+)", text):
        if aliases.get(entry[1], [""])[0] in ours:
            found.append(entry[2])
    return list(dict.fromkeys(found))


def defined_in(path):
    """The words and lemmas that a file defines, with their lines; the fields of records are none."""
    record, has_blocks = None, re.search(r"(?m)^module ", text_of(path))
    for number, line in enumerate(text_of(path).splitlines(), 1):
        bare = line.lstrip(" ")
        indent = len(line) - len(bare)
        if record is not None and bare and indent <= record:
            record = None
        if record is not None:
            continue
        if found := HEADED.match(bare):
            record = indent if " record " in f" {bare[:11]}" else None
            yield found[1], number
        elif indent <= (2 if has_blocks else 0) and (found := STATED.match(bare)):
            yield found[1], number


@cache
def definitions():
    """Where each word of specs and each lemma is defined."""
    found = {}
    for crate in crates():
        for part in ("specs", "proofs"):
            for path in files_below(f"crates/{crate}/{part}", ".antt"):
                if part == "specs" or not path.endswith(OF_FUNCTIONS):
                    for word, number in defined_in(path):
                        found.setdefault(word, []).append((path, number))
    return found


class NoFunction(Exception):
    """An edit changes something that stands before all functions of its file, as a constant."""


def without_ensures(text, place):
    """The source without the `ensures` of the function that stands at the place, and that function's name."""
    heads = [match.start() for match in re.finditer(r"^(pub )?(extern \"C\" )?fn ", text, flags=re.M) if match.start() <= place]
    if not heads:
        raise NoFunction
    start = max(heads)
    end = text.index("\n{\n", start)
    head = re.sub(r"^    ensures\b.*?(?=^    requires\b|\Z)", "", text[start:end] + "\n", flags=re.M | re.S)
    return text[:start] + head.rstrip("\n") + text[end:], re.search(r"fn (\w+)", head)[1]
