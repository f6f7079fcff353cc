"""Makes three packages of Debian's source of pulldown-cmark 0.9.2: `original`, as it is; `swapped`, whose scanners, labels and
line starts are those of packages/rust; and `beside`, which makes each call on both and notes where they answer differently."""
import re
import shutil
from pathlib import Path

HERE = Path(__file__).resolve().parent
TOP = HERE.parents[1]
REGISTRY = Path("/usr/share/cargo/registry")
SOURCE = REGISTRY / "pulldown-cmark-0.9.2"
# These and what they need are Debian's librust-pulldown-cmark-dev, and librust-NAME-dev of the others.
NEEDED = [SOURCE] + [
    REGISTRY / name for name in ("html5ever-0.26.0", "markup5ever_rcdom-0.2.0", "regex-1.7.1", "aho-corasick-0.7.19", "tendril-0.4.0")
]

# What stays of scanners.rs, linklabel.rs and puncttable.rs, and why.
KEPT = {
    "scan_email": "e-mail autolinks are none of the library's",
    "is_ascii_alphanumeric": "called by scan_email alone",
    "is_punctuation": "Unicode punctuation is none of the library's",
}
# The guard of inline HTML holds its text, which lives as long as the page.
GUARDS = [
    (r"html_scan_guard: HtmlScanGuard,\n", "html_scan_guard: HtmlScanGuard<'input>,\n"),
    (r"fn scan_inline_html\(&mut self, bytes: &\[u8\]", "fn scan_inline_html(&mut self, bytes: &'input [u8]"),
]
# What is swapped in place, or by a name of ours.
PASSES = {
    "parse.rs": [
        *GUARDS,
        (r"(?m)^(?:(?://|#\[).*\n)*pub\(crate\) struct HtmlScanGuard\b[\s\S]*?^}\n", "pub(crate) use crate::scanners::HtmlScanGuard;\n"),
        (r"use unicase::UniCase;", "use crate::scanners::UniCase;"),
    ],
    "firstpass.rs": [(r"use unicase::UniCase;", "use crate::scanners::UniCase;")],
}
MANIFEST = """[package]
name = "pulldown-cmark-{name}"
version = "0.9.2"
edition = "2021"
build = false

[lib]
name = "pulldown_cmark"

[dependencies]
bitflags = "1.3"
memchr = "2.5"
unicase = "2.6"
{more}
[dev-dependencies]
html5ever = "0.26"
lazy_static = "1.4"
markup5ever_rcdom = "0.2"
regex = "1.6"
tendril = "0.4"

[features]
gen-tests = []
serde = []
simd = []
"""
WORKSPACE = """[workspace]
members = ["original", "swapped", "beside", "compare"]
resolver = "2"

[patch.crates-io]
tendril = { path = "tendril" }
"""
CONFIG = """[source.crates-io]
replace-with = "debian"

[source.debian]
directory = "{registry}"
"""


class NotAsKnown(Exception):
    """The source is another than the one that this is for."""


def replaced(text, pattern, by, of):
    """The text with what the pattern finds, once, replaced."""
    text, count = re.subn(pattern, lambda _: by, text)
    if count != 1:
        raise NotAsKnown(f"{of}: {count} of {pattern!r}")
    return text


def functions(text):
    """The names of the functions that stand by themselves in a module."""
    return re.findall(r"(?m)^(?:pub\(crate\) )?fn (\w+)", text)


def without(text, name, of):
    """A module without a function and what stands above it."""
    return replaced(text, rf"(?m)^(?:(?://|#\[).*\n)*(?:pub\(crate\) )?fn {name}\b[\s\S]*?^}}\n\n?", "", of)


def without_type(text, name, of):
    """A module without a struct, its calls and what stands above it."""
    text = replaced(text, rf"(?m)^(?:(?://|#\[).*\n)*pub\(crate\) struct {name}\b[\s\S]*?^}}\n\n?", "", of)
    return replaced(text, rf"(?m)^impl.* {name}\b[\s\S]*?^}}\n\n?", "", of)


def swapped_scanners(text):
    """scanners.rs, of which what is kept stands over swapped.rs."""
    for name in functions(text):
        if name not in KEPT:
            text = without(text, name, "scanners.rs")
    text = without_type(text, "LineStart", "scanners.rs")
    text = replaced(text, r"(?m)^(?://.*\n)*const HTML_TAGS[\s\S]*?^\];\n\n", "", "scanners.rs")
    text = replaced(text, r"(?m)^use [\s\S]*?^use memchr::memchr;\n", "mod swapped;\npub(crate) use swapped::*;\n"
                    "pub(crate) use crate::puncttable::is_punctuation;\nuse crate::strings::CowStr;\n", "scanners.rs")
    return text


def swapped_labels(text):
    """linklabel.rs, whose labels are those of swapped.rs."""
    text = without(text, "scan_link_label_rest", "linklabel.rs")
    text = replaced(text, r"(?m)^use unicase[\s\S]*?^use crate::strings", "pub(crate) use crate::scanners::"
                    "{scan_link_label_rest, UniCase};\nuse crate::strings", "linklabel.rs")
    return replaced(text, r"UniCase<CowStr<'a>>", "UniCase<'a>", "linklabel.rs")


def swapped_punctuation(text):
    """puncttable.rs, which asks ours of ASCII."""
    text = without(text, "is_ascii_punctuation", "puncttable.rs")
    text = replaced(text, r"(?m)^const PUNCT_MASKS_ASCII[\s\S]*?^\];\n", "", "puncttable.rs")
    return replaced(text, r"(?m)^const PUNCT_TAB", "use crate::scanners::is_ascii_punctuation;\n\nconst PUNCT_TAB", "puncttable.rs")


def copy_package(scratch, name, more=""):
    """A package of the source, and its folder src."""
    package = scratch / name
    shutil.copytree(SOURCE, package, ignore=shutil.ignore_patterns("main.rs", "build.rs", "Cargo.toml", ".cargo*", "debian", "examples"))
    (package / "Cargo.toml").write_text(MANIFEST.format(name=name, more=more))
    return package / "src"


def make_swapped(scratch, ours):
    """The package `swapped`; the functions that were swapped."""
    source = copy_package(scratch, "swapped", ours)
    before = []
    for file, swap in [("scanners.rs", swapped_scanners), ("linklabel.rs", swapped_labels), ("puncttable.rs", swapped_punctuation)]:
        text = (source / file).read_text()
        before += functions(text)
        (source / file).write_text(swap(text))
    for file, swaps in PASSES.items():
        text = (source / file).read_text()
        for pattern, by in swaps:
            text = replaced(text, pattern, by, file)
        (source / file).write_text(text)
    (source / "scanners").mkdir()
    shutil.copy(HERE / "swapped.rs", source / "scanners/swapped.rs")
    return before


def make_beside(scratch, ours):
    """The package `beside`: both, of which beside.rs makes the calls."""
    source = copy_package(scratch, "beside", ours)
    (source / "scanners").mkdir()
    text = (source / "scanners.rs").read_text()
    (source / "scanners/before.rs").write_text(replaced(text, r"(?m)^fn scan_email", "pub(crate) fn scan_email", "scanners.rs"))
    shutil.copy(HERE / "beside.rs", source / "scanners.rs")
    shutil.copy(HERE / "swapped.rs", source / "scanners/swapped.rs")
    text = (source / "linklabel.rs").read_text()
    (source / "scanners/label.rs").write_text(text)
    (source / "linklabel.rs").write_text(swapped_labels(text))
    for file in ["parse.rs", "firstpass.rs"]:
        text = (source / file).read_text()
        text = replaced(text, r"use unicase::UniCase;", "use crate::scanners::UniCase;", file)
        if file == "parse.rs":
            text = replaced(text, r"pub declaration: usize,\n", "pub declaration: usize,\n    pub swapped: "
                            "crate::scanners::SwappedGuard<'input>,\n", file)
            for pattern, by in [*GUARDS, (r"struct HtmlScanGuard \{", "struct HtmlScanGuard<'input> {")]:
                text = replaced(text, pattern, by, file)
        (source / file).write_text(text)
    with (source / "lib.rs").open("a") as file:
        file.write("\npub use crate::scanners::{take_notes, Note};\n")


def make_workspace(scratch):
    """All packages in a fresh folder. It answers the names of all functions that could be swapped."""
    for folder in NEEDED:
        if not folder.is_dir():
            raise NotAsKnown(f"there is no {folder}")
    scratch.mkdir(parents=True, exist_ok=True)
    (scratch / ".cargo").mkdir()
    (scratch / ".cargo/config.toml").write_text(CONFIG.format(registry=REGISTRY))
    (scratch / "Cargo.toml").write_text(WORKSPACE)
    ours = f'fillaqut = {{ path = "{TOP / "packages/rust"}" }}\n'
    copy_package(scratch, "original")
    names = make_swapped(scratch, ours)
    make_beside(scratch, ours)
    shutil.copytree(HERE / "compare", scratch / "compare")
    shutil.copytree(REGISTRY / "tendril-0.4.0", scratch / "tendril", ignore=shutil.ignore_patterns(".cargo*"))
    packed = [path for path in (scratch / "tendril/src").glob("*.rs") if "repr(packed)" in path.read_text()]
    for file in packed: # a reference into it is an error of the compiler by now
        file.write_text(file.read_text().replace("repr(packed)", "repr(C)"))
    return names
