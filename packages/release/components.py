"""What libraries and programs are made of beside the crates of the tree: crates of the kit, as components.tsv has them."""
import subprocess
import sys
from collections import namedtuple
from pathlib import Path

sys.dont_write_bytecode = True
TOP = Path(__file__).resolve().parents[2]
sys.path.append(str(TOP / "docs"))
from crate_list import libraries, made_of
from kit import kit

TABLE = TOP / "packages/release/components.tsv"
# The crates that are given out, compiled.
GIVEN = ("markdown_scanners_c", "fillaqut", "cmark_scan")
Component = namedtuple("Component", "crate name version licence source")


class BadComponents(Exception):
    """The table is not as the tree and the kit are."""


def rows(table=TABLE):
    """The rows of the table."""
    lines = [line.split("\t") for line in table.read_text().splitlines() if line and not line.startswith("#")]
    if wrong := [words for words in lines if len(words) != len(Component._fields)]:
        raise BadComponents(f"a row has other columns: {wrong[0]}")
    return [Component(*words) for words in lines]


def ours():
    """The crates of the tree of which something is compiled."""
    return sorted({name for given in GIVEN for name in made_of(given)})


def used(rlibs):
    """The crates of the kit that these use, and all below them."""
    found = sorted({name for crate in ours() for name in libraries()[crate]} - set(libraries()))
    for name in found:
        lines = (rlibs / f"{name}.rlib/format").read_text().splitlines()
        found += [line[4:] for line in lines if line.startswith("dep ") and line[4:] not in found]
    return found


def licences(crate, sources):
    """The texts of the licences that the kit has of a crate."""
    return [path.read_text() for path in sorted((sources / crate).glob("LICENSE*"))]


def names_version(component, sources):
    """Whether the kit says of the crate that it has this version."""
    folder = sources / component.crate
    texts = [path.read_text() for path in [folder / "README.md", *sorted(folder.rglob("*.rt"))] if path.is_file()]
    return any(component.version in text or component.version.replace(".", ", ") in text for text in texts)


def faults(found, crates, sources):
    """What the table says that is not so. Crates of which the kit has no licence are the kit's own; a crate of the tree may have others' data."""
    named = [component.crate for component in found if component.crate not in ours()]
    foreign = {crate for crate in crates if licences(crate, sources)}
    yield from (f"{crate} has no row" for crate in sorted(foreign - set(named)))
    yield from (f"{crate} is not compiled into anything, or has no licence" for crate in named if crate not in foreign)
    yield from (f"{crate} has several rows" for crate in sorted(set(named)) if named.count(crate) > 1)
    yield from (f"{it.crate}: the kit names no version {it.version}" for it in found if it.crate in foreign and not names_version(it, sources))


def components():
    """All components, where the table agrees with the kit."""
    found = rows()
    if wrong := list(faults(found, used(kit() / "rlibs"), kit() / "rattle")):
        raise BadComponents("; ".join(wrong))
    return found


def kit_version():
    """The first word of what the kit says of itself."""
    return subprocess.run(["rt", "version"], capture_output=True, text=True, check=True).stdout.split()[0]


def notices():
    """The licences of all components, each text once, with the components that it is of."""
    sources, texts = kit() / "rattle", {}
    for component in components():
        for text in licences(component.crate, sources):
            texts.setdefault(text.strip(), []).append(f"{component.name} {component.version} ({component.crate})")
    parts = ["Libraries and programs are made of the crates of fillaqut, under this licence:", (TOP / "LICENSE").read_text().strip()]
    for text, names in texts.items():
        listed = "\n".join(f"- {name}" for name in sorted(names))
        parts.append(f"Parts of these are ports of, or have the data of:\n\n{listed}\n\n{text}")
    return f"\n\n{'-' * 80}\n\n".join(parts) + "\n"
