"""The memory and the output of whole programs on the texts of repeated.py, for bench/growth: measured, held against limits, and as a table.

Memory is the most that a program has resident, less what it has of a page of one letter; Debian's `time` says so, to a per cent.
"""
import lzma
import re
import shutil
import subprocess
import sys
import tempfile
from pathlib import Path

import repeated
from programs import TOP, built, built_md4c, stop
from totals_file import read, write

HERE = Path(__file__).resolve().parent
PAGE, TOTALS, REAL = HERE / "RESULTS.md", HERE / "memory.totals", HERE / "corpora/real.md.xz"
FILLAQUT = TOP / "crates/fillaqut/out/fillaqut"
HEAD = "## Memory of texts that repeat one thing"
SIZES = {"1mb": 1_000_000, "10mb": 10_000_000}
TITLES = {"1mb": "1 MB", "10mb": "10 MB"}
OURS = {"html": "html", "events": "events"}
COLUMNS = {"html": "html", "events": "events", "md4c": "md4c", "cmark": "cmark", "pulldown": "pulldown-cmark"}
EXTENSIONS = [word for name in ("tables", "strikethrough", "tasks", "wikilinks") for word in ("-e", name)]
# Bytes of memory for a byte of a page: of a repeated text, and of a real one.
MOST, MOST_REAL = 150, 8
# How far a text that takes more than the first may be above its total, until it is mended.
ABOVE = 1.03
# Seconds after which a program is stopped.
LONGEST = 60
WORDS = f"""
By `bench/growth --memory`: bytes of memory for a byte of a page that repeats one thing, of 1 MB and of 10 MB, and bytes that are written for
each of it. `html` and `events` are `fillaqut html` and `fillaqut events` with `-e tables -e strikethrough -e tasks -e wikilinks`; md4c 0.4.8
(`bench/md4c`) has the same extensions, cmark 0.30.2 none, and pulldown-cmark 0.9.2 (`push_html`) tables. Memory is what a program has resident at
most, less what it has of a page of one letter, and so holds the page and what is not written yet. The texts that take most come first. A dash
stands where a program is stopped after {LONGEST} seconds, or was not measured.
"""


def programs(folder, fillaqut, others):
    """{program: the words that have it write what it makes of a page}; a page is its standard input, or its last word."""
    ours = {name: lambda page, command=command: [fillaqut, command, *EXTENSIONS] for name, command in OURS.items()}
    if not others:
        return ours
    pulldown, md4c = built(folder, "bench/pulldown", "pulldown"), built_md4c(folder)
    return {
        **ours,
        "md4c": lambda page: [md4c, "--extensions"],
        "cmark": lambda page: ["cmark", "--unsafe"],
        "pulldown": lambda page: [pulldown, "html+tables", page, "0"],
    }


def used(words, page):
    """The bytes of memory that a program has resident at most, and the bytes that it writes; None and None where it is stopped. `time` starts it,
    since a process that is started from here begins with as much memory as this one has."""
    with open(page, "rb") as text, tempfile.NamedTemporaryFile() as most, tempfile.TemporaryFile() as written:
        timed = ["/usr/bin/time", "--format=%M", f"--output={most.name}", "timeout", str(LONGEST), *map(str, words)]
        done = subprocess.run(timed, stdin=text, stdout=written)
        if done.returncode == 124:
            return None, None
        if done.returncode:
            stop(f"{' '.join(timed)} ended with {done.returncode}")
        return int(most.read()) * 1024, written.seek(0, 2)


def measured(fillaqut, size, others):
    """The totals of all texts at a size: {text.program.size.memory: bytes}, and the same of what is written; a line on standard error says that
    those of a text are there."""
    with tempfile.TemporaryDirectory(prefix="memory-") as scratch:
        folder, totals = Path(scratch), {}
        words_of, page = programs(folder, fillaqut, others), folder / "page.md"
        page.write_text("a\n")
        starts = {program: used(words(page), page)[0] for program, words in words_of.items()}
        for name in repeated.REPEATED:
            page.write_text(repeated.page(name, SIZES[size]))
            for program, words in words_of.items():
                memory, written = used(words(page), page)
                if memory is not None:
                    totals |= {f"{name}.{program}.{size}.memory": max(memory - starts[program], 0), f"{name}.{program}.{size}.output": written}
            print(f"{name}: {TITLES[size]}", file=sys.stderr, flush=True)
        return totals


def real(fillaqut):
    """The bytes of memory that each program of ours takes for a byte of a real page."""
    with tempfile.TemporaryDirectory(prefix="memory-") as scratch:
        page, text = Path(scratch) / "page.md", lzma.open(REAL).read()
        words_of = programs(Path(scratch), fillaqut, False)
        page.write_bytes(b"a\n")
        starts = {program: used(words(page), page)[0] for program, words in words_of.items()}
        page.write_bytes(text)
        return {program: (used(words(page), page)[0] - starts[program]) / len(text) for program, words in words_of.items()}


def for_a_byte(totals, name, program, size, what):
    found = totals.get(f"{name}.{program}.{size}.{what}")
    return None if found is None else int(found) / SIZES[size]


def faults_of(found, of_real, known):
    """What takes more memory than it may. A text above the limit of all may take what it took; one that is no longer above it has its totals
    written anew."""
    for name in repeated.REPEATED:
        for program in OURS:
            taken = for_a_byte(found, name, program, "1mb", "memory")
            before = for_a_byte(known, name, program, "1mb", "memory")
            at_most = max(MOST, ABOVE * (before or 0))
            if taken is None or before is None or taken > at_most:
                yield f"fillaqut {program} on {name}: {number(taken)} bytes of memory for a byte of the page, {number(at_most)} at most"
    for program, taken in of_real.items():
        if taken > MOST_REAL:
            yield f"fillaqut {program} on the text of RESULTS: {number(taken)} bytes of memory for a byte of the page, {MOST_REAL} at most"


def number(value):
    return "–" if value is None else f"{value:.0f}" if value >= 9.95 else f"{value:.1f}"


def table(totals):
    """A line for each text, those first of which ours take most."""
    memory = [(program, size) for program in COLUMNS for size in SIZES]
    head = ["text", *(f"{COLUMNS[program]}: {TITLES[size]}" if size == "1mb" else TITLES[size] for program, size in memory)]
    head += [f"output: {COLUMNS[program]}" for program in COLUMNS]
    cells_of = {name: [for_a_byte(totals, name, program, size, "memory") for program, size in memory] for name in repeated.REPEATED}
    lines = []
    for name in sorted(cells_of, key=lambda name: -max(cells_of[name][0] or 0, cells_of[name][2] or 0)):
        outputs = [for_a_byte(totals, name, program, "1mb", "output") for program in COLUMNS]
        lines.append(f"| {' | '.join([repeated.REPEATED[name][0].replace('|', '&#124;'), *map(number, cells_of[name] + outputs)])} |")
    return "\n".join([f"| {' | '.join(head)} |", f"| --- |{' ---: |' * (len(head) - 1)}", *lines])


def section(totals):
    return f"{HEAD}\n{WORDS}\n{table(totals)}\n"


def needs(fillaqut, others):
    if not Path(fillaqut).is_file():
        stop(f"there is no {fillaqut}: rt run, in crates/fillaqut, builds our program")
    if not shutil.which("/usr/bin/time") or others and not shutil.which("cmark"):
        stop("Debian's time and cmark are needed")


def print_table(fillaqut, is_writing):
    """Prints the table; or puts it into RESULTS, and the totals into their file, when those of a size are there."""
    needs(fillaqut, True)
    found = {}
    for size in SIZES:
        found |= measured(fillaqut, size, True)
        if is_writing:
            put(found)
    if not is_writing:
        print(table(found))


def put(found):
    """Puts the totals into their file, and the table of them into RESULTS."""
    write(TOTALS, found, only=True)
    text, made = PAGE.read_text(), section(found)
    before = re.search(rf"(?ms)^{HEAD}\n.*?(?=^## )", text)
    if not before:
        stop(f"{PAGE} has no section {HEAD}")
    PAGE.write_text(text[: before.start()] + made + "\n" + text[before.end() :])


def check_page():
    """Whether the table of RESULTS is that of the totals; nothing is measured."""
    if section(read(TOTALS)) in PAGE.read_text():
        return 0
    print("the table of memory in bench/RESULTS.md is not that of bench/memory.totals: bench/growth --memory --write makes it")
    return 1


def check(fillaqut):
    """Measures our program on all texts of 1 MB and on a real one, and holds it against the limits."""
    needs(fillaqut, False)
    found, of_real, known = measured(fillaqut, "1mb", False), real(fillaqut), read(TOTALS)
    faults = list(faults_of(found, of_real, known))
    for line in faults:
        print(line)
    above = sum(max(for_a_byte(found, name, program, "1mb", "memory") or 0 for program in OURS) > MOST for name in repeated.REPEATED)
    print(f"memory: {len(repeated.REPEATED)} texts, {above} of them above {MOST} bytes a byte, {len(faults)} faults")
    return 1 if faults or not found else 0
