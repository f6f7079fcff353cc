"""What bench/pages, bench/growth and bench/corpora/run share: builds programs of pulldown-cmark 0.9.2 and of md4c, and counts the instructions of a program."""
import os
import re
import shutil
import subprocess
import sys
import tempfile
from pathlib import Path

TOP = Path(__file__).resolve().parents[1]
REGISTRY = Path("/usr/share/cargo/registry")
CONFIG = f"""[source.crates-io]
replace-with = "debian"

[source.debian]
directory = "{REGISTRY}"
"""


def stop(why):
    sys.exit(f"{os.path.relpath(sys.argv[0], TOP)}: {why}")


def built(folder, source, name, *words):
    """A program of pulldown-cmark 0.9.2, built from Debian's packages without a network, by cargo with these words."""
    if not (REGISTRY / "pulldown-cmark-0.9.2").is_dir():
        stop("Debian's librust-pulldown-cmark-dev is needed")
    package = shutil.copytree(TOP / source, folder / name)
    (package / ".cargo").mkdir()
    (package / ".cargo/config.toml").write_text(CONFIG)
    subprocess.run(["cargo", "build", "--quiet", "--offline", "--release", "--target-dir", "target", *words], cwd=package, check=True)
    return package / "target/release" / name


def built_md4c(folder):
    """A program that writes the HTML of its standard input by md4c."""
    program = folder / "md4c"
    words = ["gcc", "-O2", "-o", program, TOP / "bench/md4c/main.c", "-lmd4c-html", "-lmd4c"]
    if subprocess.run(words).returncode:
        stop("Debian's libmd4c-html0-dev and gcc are needed")
    return program


def instructions(words, page=os.devnull):
    """How many instructions a program takes whose standard input is a page, by callgrind."""
    with tempfile.NamedTemporaryFile() as out, open(page, "rb") as text:
        counted = ["valgrind", "--tool=callgrind", f"--callgrind-out-file={out.name}", *map(str, words)]
        subprocess.run(counted, check=True, stdin=text, capture_output=True)
        return int(re.search(r"(?m)^(?:summary|totals): (\d+)", Path(out.name).read_text())[1])
