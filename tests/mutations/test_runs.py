"""Builds the tree with a wrong body in it, unproved, and runs the tests and stored runs that may notice it.

A static library is built only where it is proved. So in the crate of the C functions the edited function loses what it
ensures: then it is proved to be safe, and packages/c/run may notice it.
"""
import re
import shutil
import subprocess
import sys
import tempfile
from concurrent.futures import ThreadPoolExecutor
from pathlib import Path

from crate_list import TOP, crates, made_of
from edits import copied, edited
from rattle_source import NoFunction, without_ensures

sys.path.append(str(TOP / "tests/rows"))
from rows import FOLDER, rows_of, stored_run

# Tests of hostile texts that don't end in the minute that rt gives a build with checks: they say nothing here.
SLOW = {"passes_over_hostile_texts_once", "passes_over_cut_texts_once"}

# What may notice a wrong body of a crate, the quickest first: the stored run of a program, its rows in tests/rows, the tests of a crate,
# or its tests of memory, of which each is refused its first request.
TESTS = {
    "markdown_values": ["tests cmark_vectors", "run tests_replay", "rows fillaqut events", "tests tests_uses"],
    "markdown_scanners_tree": ["run tests_replay", "tests markdown_scanners_tree", "tests cmark_vectors"],
    "program_faults": ["tests cmark_scan", "rows fillaqut blocks"],
    "cmark_scan": ["run cmark_scan", "tests cmark_scan", "refused cmark_scan"],
    "markdown_blocks": ["run fillaqut blocks", "rows fillaqut blocks", "tests tests_uses"],
    "markdown_inlines": ["rows fillaqut inlines", "rows fillaqut html", "tests tests_uses"],
    "markdown_events": ["rows fillaqut events", "tests tests_uses"],
    "page_programs": ["run fillaqut blocks", "run fillaqut inlines", "run fillaqut events", "rows fillaqut blocks"],
    "page_blocks": ["run fillaqut blocks", "rows fillaqut blocks"],
    "markdown_html": ["run fillaqut html", "rows fillaqut html", "tests tests_uses"],
    "page_html": ["run fillaqut html", "rows fillaqut html"],
    "page_links": ["run fillaqut links"],
    "page_tables": ["run fillaqut tables"],
}


def stale_tests():
    """Crates of TESTS that crates.txt has not, and tests that are not made of their crate."""
    for crate, tests in TESTS.items():
        names = {test.split()[1] for test in tests}
        unknown = {crate, *names} - set(crates())
        yield from [f"there is no crate {item}" for item in sorted(unknown)]
        yield from [f"{name} is not made of {crate}" for name in sorted(names - unknown) if crate not in made_of(name)]


def stored_case(crate, command, cases):
    """Writes the stored run of a program as a case, or that of a command."""
    run = stored_run(crate / "runs" / command if command else crate)
    (cases / "stored").write_bytes(run.page)
    (cases / "stored.stdout").write_bytes(run.printed)
    (cases / "stored.args").write_text(f"{command}\n{run.words}" if command else run.words)


def rows_run(crate, command, cases):
    """Writes the rows of a command in tests/rows as cases, but those that name files, read nothing or fail."""
    for rows, files in [rows_of(path) for path in FOLDER.glob("*.txt")]:
        asked = [row for row in rows if row.words[:2] == [crate.name, command] and row.page is not None and not (files or row.view or row.status)]
        for row in asked:
            name = row.where.rsplit("/", 1)[-1].replace(".txt:", "_")
            (cases / name).write_bytes(row.page)
            (cases / f"{name}.stdout").write_bytes(row.printed)
            (cases / f"{name}.args").write_text("".join(f"{word}\n" for word in row.words[1:]))


# What writes the cases of a program.
CASES = {"run": stored_case, "rows": rows_run}


def words_of(kind, crate, command, scratch):
    """The words of a test's command."""
    if kind in CASES:
        cases = scratch / f"{kind} {crate.name} {command}"
        cases.mkdir()
        CASES[kind](crate, command, cases)
        return ["rt", "try", "--steps", "1", "--cases", str(cases)]
    tests = ["rt", "try", "--test", "--steps", "1"]
    return [*tests, "--fail-alloc", "1", "--", "memory"] if kind == "refused" else tests


def fails(said):
    """Whether a test that is not too slow did not pass, or None where none was run."""
    tests = re.findall(r"^test (\S+) \.\.\. (\w+)", said, flags=re.M)
    ends = [how for name, how in tests if name.rsplit("::", 1)[-1] not in SLOW]
    return any(how != "ok" for how in ends) if ends else None


def fails_in(name, scratch):
    """Whether the tests or the stored run fail in the tree of the folder, or None where they were not built or none was run."""
    kind, name, *command = name.split()
    crate = scratch / "crates" / name
    how = {"stdin": subprocess.DEVNULL, "stdout": subprocess.PIPE, "stderr": subprocess.STDOUT, "errors": "replace"}
    ran = subprocess.run(words_of(kind, crate, "".join(command), scratch), cwd=crate, **how)
    if "run=none" in ran.stdout or "proved=no" not in ran.stdout:
        return None
    return ran.returncode != 0 if kind in CASES else fails(ran.stdout)


def noticed_in_c(crate, texts):
    """Whether packages/c/run notices the edited texts, where the functions that they change are safe."""
    for path, text in texts.items():
        before = (crate / path).read_text()
        place = next(at for at, (one, other) in enumerate(zip(before, text)) if one != other)
        try:
            freed, name = without_ensures(text, place)
        except NoFunction:
            return False, "NOT BUILT: it changes no function"
        (crate / path).write_text(freed)
        shutil.rmtree(crate / path.replace("src/", "proofs/").removesuffix(".rt") / name, ignore_errors=True)
    how = {"stdin": subprocess.DEVNULL, "stdout": subprocess.DEVNULL, "stderr": subprocess.DEVNULL}
    if subprocess.run(["rt", "lib"], cwd=crate, **how).returncode:
        return False, "NOT BUILT: not even safe"
    is_noticed = subprocess.run(["packages/c/run"], cwd=crate.parent.parent, **how).returncode
    return (True, "noticed by packages/c/run") if is_noticed else (False, "NOTICED BY NO TEST")


def noticed_by(edit):
    """Whether a test or a stored run notices the edit, and which, or why none was found."""
    crate = edit.crate
    with tempfile.TemporaryDirectory(prefix="mutations-") as folder:
        scratch = copied(Path(folder))
        if crate not in TESTS:
            return noticed_in_c(scratch / "crates" / crate, edited(edit))
        for path, text in edited(edit).items():
            (scratch / "crates" / crate / path).write_text(text)
        for test in TESTS[crate]:
            is_noticed = fails_in(test, scratch)
            if is_noticed is None:
                return False, f"NOT RUN: {test}"
            if is_noticed:
                return True, f"noticed by {test}"
    return False, "NOTICED BY NO TEST"


def try_all(edits, lanes):
    """Tries the edits, a line each, and counts those that a test or a stored run notices."""
    noticed = others = 0
    with ThreadPoolExecutor(lanes) as pool:
        for edit, (is_noticed, found) in zip(edits, pool.map(noticed_by, edits)):
            noticed, others = noticed + is_noticed, others + (not is_noticed)
            print(f"{edit.crate}/{edit.name}: {found}", flush=True)
    print(f"{noticed} noticed, {others} not noticed")
    return 1 if others or not edits else 0
