"""What fillaqut html, cmark and cmark-gfm make of a page. Pages and HTML are bytes."""
import os
import shutil
import subprocess
import sys

sys.dont_write_bytecode = True
from spec import TOP

OURS = [os.environ.get("FILLAQUT", str(TOP / "crates/fillaqut/out/fillaqut")), "html"]
CMARK = os.environ.get("CMARK", "cmark")
CMARK_GFM = os.environ.get("CMARK_GFM", "cmark-gfm")
EXTENSIONS = ("table", "strikethrough", "tasklist")
SECONDS = 60

PLAIN = [*OURS, "--unsafe"]
SAFE = OURS
EXTENDED = [*PLAIN, "--gfm"]
SAFE_EXTENDED = [*OURS, "--gfm"]
THEIRS = [CMARK, "--unsafe"]
THEIRS_EXTENDED = [CMARK_GFM, "--unsafe", *(word for extension in EXTENSIONS for word in ("-e", extension))]


class Fails(Exception):
    """A program has not done what it was asked."""


def html_of(program, page):
    """The HTML of a page."""
    try:
        ran = subprocess.run(program, input=page, stdout=subprocess.PIPE, stderr=subprocess.PIPE, timeout=SECONDS)
    except subprocess.TimeoutExpired:
        raise Fails(f"{program[0]} takes longer than {SECONDS} seconds for {page[:200]!r}") from None
    if ran.returncode:
        raise Fails(f"{program[0]} ends with status {ran.returncode} for {page[:200]!r}: {ran.stderr.decode(errors='replace').strip()}")
    return ran.stdout


def missing_of(*programs):
    """Those of the programs that are not there."""
    return [program[0] for program in programs if not shutil.which(program[0])]
