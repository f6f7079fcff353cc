"""Counts instructions of both parsers by callgrind, each of each text in a part of its own."""
import re
import subprocess

LENGTHS = [1000, 2000, 4000, 8000, 16000]
# What each input is of a length. A parser may not go over what it has read again and again.
GROWING = {
    "`* ` n times": lambda n: "* " * n + "a\n",
    "`>` n times": lambda n: ">" * n + "a\n",
    "`[a](b) ` n times in a line": lambda n: "[a](b) " * n + "\n",
    "`[a](b)` in n lines": lambda n: "[a](b)\n" * n,
    "`[a]: b` in n lines": lambda n: "[a]: b\n" * n,
    "`[a` in n lines": lambda n: "[a\n" * n,
    "`<!-- a` in n lines": lambda n: "<!-- a\n" * n,
    "`a <!-- b` in n lines": lambda n: "a <!-- b\n" * n,
    "`a <b` in n lines": lambda n: "a <b\n" * n,
}
# How much faster than the original's its instructions may grow, from the least length to the most.
SLACK = 1.1


def counts(compare, scratch, files):
    """The instructions of each file: of the original, and swapped."""
    for old in scratch.glob("callgrind.*"):
        old.unlink()
    words = ["valgrind", "--tool=callgrind", f"--callgrind-out-file={scratch}/callgrind.out", "--toggle-collect=measured_*",
             "--dump-after=measured_original", "--dump-after=measured_swapped", compare, "instructions", *files]
    subprocess.run([str(word) for word in words], check=True, capture_output=True)
    parts = sorted(scratch.glob("callgrind.out.*"), key=lambda item: int(item.suffix[1:]))
    found = [int(re.search(r"(?m)^(?:summary|totals): (\d+)", part.read_text())[1]) for part in parts]
    if len(found) != 2 * len(files):
        raise RuntimeError(f"callgrind made {len(found)} parts for {len(files)} files")
    return list(zip(found[0::2], found[1::2]))


def instructions(compare, scratch, files):
    """Those of all files together."""
    both = counts(compare, scratch, files)
    return sum(item[0] for item in both), sum(item[1] for item in both)


def growth(compare, scratch):
    """Prints how the instructions of both grow with an input; the inputs on which they grow faster than the original's."""
    files = []
    for name, made in GROWING.items():
        for length in LENGTHS:
            files.append(scratch / f"growing{len(files)}.md")
            files[-1].write_text(made(length))
    both = counts(compare, scratch, files)
    steep = []
    print("| Input | | " + " | ".join(map(str, LENGTHS)) + " |\n|---|---|" + "---:|" * len(LENGTHS))
    for row, name in enumerate(GROWING):
        found = both[row * len(LENGTHS):(row + 1) * len(LENGTHS)]
        for parser, column in [("original", 0), ("swapped", 1)]:
            print(f"| {name} | {parser} | " + " | ".join(f"{item[column] / 1e6:.2f} M" for item in found) + " |")
        if found[-1][1] / found[0][1] > SLACK * found[-1][0] / found[0][0]:
            steep.append(name)
    return steep
