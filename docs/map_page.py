"""What docs/MAP.md has, in sections of crates and of folders, and what the tree has of it."""
import re
from collections import Counter

from contract_rows import rows_of
from crate_list import crates
from rattle_source import TOP, files_below, public_items, text_of

MAP = "docs/MAP.md"
USES = "parser_uses"
FOLDERS = [path.relative_to(TOP).as_posix() for at in ("packages", "tests") for path in sorted((TOP / at).iterdir()) if path.is_dir()]
FOLDERS += ["bench", "docs"]
UNLISTED = (".pyc", ".edit", "Cargo.lock", ".wasm", ".d.mts", ".o", ".so")  # wrong bodies, and what tools make
PARTS = {"src": ".rt", "specs": ".antt", "proofs": ".antt"}
OF_TYPES = ("type", "trait")


def named(text):
    return re.findall(r"`([^`]+)`", text)


def sections_of(text):
    """The text of the section of each crate or folder, by its name; a folder's ends in a slash."""
    parts = re.split(r"^## `([\w/]+)`\n", text, flags=re.M)
    return dict(zip(parts[1::2], parts[2::2]))


def paragraphs_of(section):
    """The paragraphs and the list items of a section, each in one line."""
    found = [""]
    for line in section.splitlines():
        if not line.strip() or line.startswith(("- ", "#")):
            found.append("")
        found[-1] += " " + line.strip()
    return [item.strip() for item in found if item.strip()]


def listed(section, label):
    """The names of the items that begin with a label."""
    heads = [line.removeprefix(f"- {label}: ") for line in paragraphs_of(section) if line.startswith(f"- {label}: ")]
    return [name for line in heads for name in named(line)]


def has_calls(name, section):
    """Whether a section lists all calls of its crate; that of the uses does so by their files."""
    return name != USES and "- Calls: " in section


def modules_of(section):
    """The modules of the constructs of a section: those that their first lines name."""
    lines = paragraphs_of(section)
    heads = [line for above, line in zip(lines, lines[1:]) if above.startswith("### ") and line.startswith("`")]
    return [name for line in heads for name in named(re.split(r":(?: |$)", line)[0])]


def fits(path, module):
    """Whether the path rule puts a file of specs/ or proofs/ where a module has its own."""
    inside = path.split("/", 1)[1].removesuffix(".antt")
    folder, _, name = module.rpartition("/")
    camel = "".join(part.capitalize() for part in name.split("_"))
    return inside.startswith(module + "/") or inside in (module, f"{folder}/{camel}".strip("/"))


def only_lists(crate, path):
    """A file of modules beside their folder."""
    return path.endswith("Lib.antt") or path.endswith(".antt") and (TOP / "crates" / crate / path[:-5]).is_dir()


def tokens_of(section):
    """The files and folders of a crate that its section names, with how often."""
    return Counter(name for name in named(section) if name.startswith(tuple(f"{part}/" for part in PARTS)))


def files_of(crate, section):
    """The files of a crate, each with how often its section names it and whether the path rule puts it somewhere."""
    tokens = tokens_of(section)
    modules = modules_of(section) + [token[4:-3] for token in tokens if token.startswith("src/") and token.endswith(".rt")]
    of_rule = [module for module in modules if module not in ("lib", "scanners")]
    for part, suffix in PARTS.items():
        for path in [path.removeprefix(f"crates/{crate}/") for path in files_below(f"crates/{crate}/{part}", suffix)]:
            by_rule = part != "src" and any(fits(path, word) for word in of_rule)
            by_rule |= part == "src" and path[4:-3] in modules_of(section)
            by_rule |= only_lists(crate, path) or any(token.endswith("/") and path.startswith(token) for token in tokens)
            yield path, tokens[path], by_rule


def files_of_folder(name, section):
    """The files of a folder of scripts that its section has to name, and those that it names."""
    tokens = [name for line in paragraphs_of(section) if line.startswith("- ") for name in named(line.split(": ")[0])]
    files = [path.relative_to(TOP / name).as_posix() for path in sorted((TOP / name).rglob("*")) if path.is_file()]
    folders = [token for token in tokens if token.endswith("/") and (TOP / name / token).is_dir()]
    kept = [file for file in files if not file.endswith(UNLISTED) and not file.startswith("target/")]
    wanted = [item for item in kept if not any(item.startswith(at) for at in folders)]
    return [word for word in wanted if name != "docs" or not word.endswith(".md")] + folders, tokens


def calls_and_types(crate):
    """The calls, and the types, that a section of the crate has to name."""
    items = [item for item in public_items(crate) if crate != USES or item.kind == "fn" and not item.trait]
    return [item for item in items if item.kind not in OF_TYPES], [item for item in items if item.kind in OF_TYPES]


def counted(ours, sections):
    """The totals that the head of the page has."""
    with_calls = [crate for crate in ours if has_calls(crate, sections[crate])]
    calls, types = (sum(len(calls_and_types(crate)[at]) for crate in with_calls) for at in (0, 1))
    uses, rows = len(calls_and_types(USES)[0]), len(rows_of(text_of("docs/CONTRACTS.md")))
    return {"crates": len(ours), "calls": calls, "types": types, "uses": uses, "rows": rows}


def crates_of(sections):
    """The crates that have sections."""
    return [crate for crate in crates() if crate in sections]
