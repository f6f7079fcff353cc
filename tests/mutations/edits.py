"""The wrong bodies of the tree: where they stand, how many there must be, and the texts that each makes."""
import re
import shutil
import sys
from pathlib import Path
from typing import NamedTuple

TOP = Path(__file__).resolve().parents[2]
sys.path.append(str(TOP / "docs"))
import totals_file

TOTALS = TOP / "tests/mutations/totals"
# What a proof reads of a crate.
PARTS = ("src", "specs", "proofs")


def totals():
    """How many wrong bodies each crate must have, in must-fail/ and in tests/mutations/, by the crate's name."""
    return {name: tuple(map(int, numbers.split())) for name, numbers in totals_file.read(TOTALS).items()}


class Edit(NamedTuple):
    """A wrong body: of which crate, by what name, and the lines that say what to write in place of what."""

    crate: str
    name: str
    text: str

    @property
    def file(self):
        """The name of its file in must-fail/."""
        return f"{self.name}.edit"


def in_gate(crate):
    return [Edit(crate, path.stem, path.read_text()) for path in sorted((TOP / "crates" / crate / "must-fail").glob("*.edit"))]


def out_of_gate(crate):
    file = TOP / f"tests/mutations/{crate}.edits"
    parts = re.split(r"^name: ", file.read_text(), flags=re.M)[1:] if file.exists() else []
    return [Edit(crate, *part.split("\n", 1)) for part in parts]


def free_memory():
    """The memory that is free, in kilobytes."""
    return int(re.search(r"MemAvailable:\s+(\d+)", Path("/proc/meminfo").read_text())[1])


class BadEdit(Exception):
    """Why an edit can't be applied."""


def replaced(text, path, old, new):
    if old == new:
        raise BadEdit(f"it changes nothing: {old}")
    found = text.count(old)
    if found != 1:
        raise BadEdit(f"its old text stands {found} times in {path}, and not once: {old}")
    return text.replace(old, new)


def edited(edit):
    """The texts of the files that an edit changes, by their path in the crate. Each pair is over what the pairs before it made."""
    crate, texts, path, old = TOP / "crates" / edit.crate, {}, None, None
    for line in edit.text.split("\n"):
        word, _, rest = line.partition(":")
        rest = rest.removeprefix(" ")
        if word == "file":
            path, old = rest.strip(), None
            if not (crate / path).is_file():
                raise BadEdit(f"there is no file {path}")
        elif word == "old":
            old = rest
        elif word == "new":
            if not path or not old:
                raise BadEdit("a line new: has no file: and old: before it")
            text = texts.get(path) or (crate / path).read_text()
            texts[path], old = replaced(text, path, old, rest), None
    if not texts:
        raise BadEdit("it has no pair of lines old: and new:")
    return texts


def copied(scratch):
    """Copies what proofs and builds read of the tree into a folder."""
    for name in ("crates.txt", "HANDLES", "README.md", "LICENSE", "VERSION", "CHANGELOG.md"):
        shutil.copy(TOP / name, scratch)
    for name in ("packages", "docs"):
        shutil.copytree(TOP / name, scratch / name, ignore=shutil.ignore_patterns("target"))
    for crate in (TOP / "crates").iterdir():
        for part in PARTS:
            if (crate / part).is_dir():
                shutil.copytree(crate / part, scratch / "crates" / crate.name / part)
        for part in ("stdin", "stdout", "args"):
            if (crate / part).is_file():
                shutil.copy(crate / part, scratch / "crates" / crate.name)
        if (crate / "runs").is_dir():
            shutil.copytree(crate / "runs", scratch / "crates" / crate.name / "runs")
    return scratch
