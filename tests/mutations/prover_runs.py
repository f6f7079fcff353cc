"""Has the prover try wrong bodies by the commands of `rt`, which tries the edits of a crate's must-fail/ over one more proof of the crate, and
says of each what comes of it.

`rt must-fail` is asked in a scratch copy of what it reads of the tree, where they are the crate's only edits: it begins with what `rt check` and
`rt lib` have kept of the same files anywhere on this machine. `rt ci` is asked in the tree itself, where they stand beside the crate's own until it ends.
"""
import contextlib
import os
import random
import re
import shutil
import subprocess
import sys
import tempfile
import time
from pathlib import Path

from crate_list import CRATES, libraries, made_of
from edits import PARTS, TOP, out_of_gate

# What rt says of an edit: the crate, the edit, what comes of it, and why.
SAID = re.compile(r"^(?:rt: )?must-fail (\w+)/(\S+\.edit): (refused|NOT REFUSED|BAD EDIT|NOT TRIED)\b(.*)$", re.M)
REFUSED = "refused"
# Of an edit that is refused by a limit of the prover, or as a proof file names what it took away.
HARDLY = " (only b"
LINES_OF_A_FAILURE = 30


def copied(scratch, edits):
    """A crate and those below it, with these edits of it as its only ones."""
    crate = edits[0].crate
    (scratch / ".git").mkdir()  # rt looks for the top of a repository no further
    shutil.copy(TOP / "HANDLES", scratch)
    below = made_of(crate)
    lines = [line for line in CRATES.read_text().splitlines(keepends=True) if re.split(r"[ :]", line)[0] in below]
    (scratch / "crates.txt").write_text("".join(lines))
    for name in below:
        for part in PARTS:
            if (TOP / "crates" / name / part).is_dir():
                shutil.copytree(TOP / "crates" / name / part, scratch / "crates" / name / part)
    (scratch / "crates" / crate / "must-fail").mkdir()
    for edit in edits:
        (scratch / "crates" / crate / "must-fail" / edit.file).write_text(edit.text)


HOW = {"stdin": subprocess.DEVNULL, "stdout": subprocess.PIPE, "stderr": subprocess.STDOUT, "text": True, "errors": "replace"}


def said_of(edits, lanes):
    """All that `rt must-fail` prints of the edits of a crate, and its status."""
    with tempfile.TemporaryDirectory(prefix="mutations-") as folder:
        copied(Path(folder), edits)
        ran = subprocess.run(["rt", "must-fail", edits[0].crate], cwd=folder, env={**os.environ, "RT_JOBS": str(lanes)}, **HOW)
    return ran.stdout, ran.returncode


def count_refused(edits, printed):
    """How many of these edits of a crate the prover refuses, by what rt has printed. Those that it does not refuse, or hardly, are named."""
    said = {name: (what, why) for _, name, what, why in SAID.findall(printed)}
    for edit in edits:
        what, why = said.get(edit.file, ("NO ANSWER", ""))
        if what != REFUSED or HARDLY in why:
            print(f"{edit.crate}/{edit.name}: {what}{why}", flush=True)
    return sum(said.get(edit.file, [""])[0] == REFUSED for edit in edits)


def are_refused(edits, lanes):
    """Whether the prover refuses each of these edits of a crate. It says how many, and how long that took."""
    since = time.monotonic()
    printed, status = said_of(edits, lanes)
    refused = count_refused(edits, printed)
    is_well = status == 0 and refused == len(edits) > 0
    if not is_well:
        print(*printed.splitlines()[-LINES_OF_A_FAILURE:], sep="\n")
    print(f"{edits[0].crate}: {refused} of {len(edits)} refused, in {time.monotonic() - since:.0f} s", flush=True)
    return is_well


@contextlib.contextmanager
def placed(edits):
    """These edits of a crate stand among those that `rt ci` tries of it."""
    folder = TOP / "crates" / edits[0].crate / "must-fail"
    is_new = not folder.exists()
    folder.mkdir(exist_ok=True)
    copies = [folder / edit.file for edit in edits]
    if taken := [copy for copy in copies if copy.exists()]:
        raise SystemExit(f"tests/mutations/run: {taken[0]} is there already")
    try:
        for edit, copy in zip(edits, copies):
            copy.write_text(edit.text)
        yield
    finally:
        for copy in copies:
            copy.unlink(missing_ok=True)
        if is_new:
            folder.rmdir()


def pass_in_ci(edits):
    """Runs `rt ci` over the tree with these edits of a crate among its own, and returns whether it passes and the prover refuses each."""
    lines = []
    with placed(edits), subprocess.Popen(["rt", "ci"], cwd=TOP, **HOW) as running:
        for line in running.stdout:
            sys.stdout.write(line)
            sys.stdout.flush()
            lines.append(line)
    refused = count_refused(edits, "".join(lines))
    print(f"{edits[0].crate}: {refused} of the {len(edits)} wrong bodies that were drawn are refused", flush=True)
    return running.returncode == 0 and refused == len(edits) > 0


def drawn(seed, count, crate=None):
    """So many edits of one crate, or all where it has fewer: of this crate, or of one that the seed draws, of more edits the likelier."""
    chosen = random.Random(seed)
    by_crate = {name: out_of_gate(name) for name in sorted(libraries()) if out_of_gate(name)}
    taken = by_crate[crate or chosen.choices([*by_crate], map(len, by_crate.values()))[0]]
    found = sorted(chosen.sample(taken, min(count, len(taken))))
    print(f"drawn by the seed {seed}: {len(found)} of the {len(taken)} wrong bodies of {found[0].crate}", flush=True)
    return found


def prove_all(by_crate, lanes):
    """Tries the edits of each crate, one crate after another; the status is 1 where one is not refused, and where there is none."""
    found = [are_refused(edits, lanes) for edits in by_crate if edits]
    return 0 if found and all(found) else 1
