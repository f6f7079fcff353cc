#!/usr/bin/env python3
"""Writes the rows of HTML's entities from Python's `html.entities.html5`, with the tables by which they are found.

It writes specs/Rows1.antt and so on, three files of src/, and for the tests of the packages what is asked, and what has
to be answered: packages/entities/, from Python's list alone.
"""
import argparse
import os
import sys
from html.entities import html5
from pathlib import Path

TOP = Path(__file__).resolve().parent
NAMES = sorted(name[:-1] for name in html5 if name.endswith(";"))
MEANINGS = [html5[name + ";"] for name in NAMES]
FACTOR = 31
SEED_COUNT = 1024
ROWS_A_FILE = 450
HEAD = "Written by generate.py. Do not edit."


def hash_of(name):
    number = 0
    for byte in name.encode():
        number = (number * FACTOR + byte) % 2**32
    return number


def find_places():
    """A seed for each hash below SEED_COUNT, and the number of the row at each place, one place a row."""
    hashes = [hash_of(name) for name in NAMES]
    groups = {}
    for row, number in enumerate(hashes):
        groups.setdefault(number % SEED_COUNT, []).append(row)
    seeds, places = [0] * SEED_COUNT, [None] * len(NAMES)
    for at in sorted(groups, key=lambda item: (-len(groups[item]), item)):
        for seed in range(len(NAMES)):
            taken = [(hashes[row] // SEED_COUNT + seed) % len(NAMES) for row in groups[at]]
            if len(set(taken)) == len(taken) and all(places[item] is None for item in taken):
                break
        else:
            sys.exit("no seed gives each name a place of its own: choose another FACTOR")
        seeds[at] = seed
        for row, place in zip(groups[at], taken):
            places[place] = row
    return seeds, places


def starts_of(texts):
    """Where each text begins once they are written one after another in UTF-8, and where the last ends."""
    starts = [0]
    for text in texts:
        starts.append(starts[-1] + len(text.encode()))
    return starts


def rows_file(number, rows):
    lines = [f"-- {HEAD}", "use Rattle.std.specs.Prelude.{List, [], ◌∷◌}", "use Rattle.html_entities.specs.Row.{Row}", "",
             f"-- {NAMES[rows[0]]} to {NAMES[rows[-1]]}", f"unfoldable pub rows_{number} : List Row", f"rows_{number} ="]
    sign = ""
    for row in rows:
        characters = " ∷ ".join(f"0x{ord(meaning):X}" for meaning in MEANINGS[row])
        lines.append(f'    {sign}("{NAMES[row]}", {characters} ∷ [])')
        sign = "∷ "
    return "\n".join(lines + ["    ∷ []", ""])


def numbers_static(name, kind, about, numbers):
    width = len(str(max(numbers))) + 2
    a_line = 96 // width
    lines = [", ".join(map(str, numbers[at:at + a_line])) for at in range(0, len(numbers), a_line)]
    body = "".join(f"    {line},\n" for line in lines)
    return f"/// {about}\n#[rattlefmt::skip]\npub(crate) static {name}: [{kind}; {len(numbers)}] = [\n{body}];\n"


def text_static(name, about, pieces):
    lines = [""]
    for piece in pieces:
        if len(lines[-1]) + len(piece) > 92:
            lines.append("")
        lines[-1] += piece
    body = "\\\n    ".join(lines)
    return f"/// {about}\n#[rattlefmt::skip]\npub(crate) static {name}: &str = \"\\\n    {body}\";\n"


def escaped(text):
    return "".join(f"\\u{{{ord(char):x}}}" for char in text)


def name_text_file():
    return "\n".join([f"//! The names of the rows. {HEAD}\n",
                      text_static("NAMES", "The names, one after another.", NAMES),
                      numbers_static("NAME_STARTS", "u16", "Where each name begins, and where the last ends.", starts_of(NAMES))])


def meaning_text_file():
    return "\n".join([f"//! The meanings of the rows. {HEAD}\n",
                      text_static("MEANINGS", "The meanings, one after another.", map(escaped, MEANINGS)),
                      numbers_static("MEANING_STARTS", "u16", "Where each meaning begins, and where the last ends.", starts_of(MEANINGS))])


def places_file():
    seeds, places = find_places()
    return "\n".join([f"//! The tables that lead from the hash of a name to its row. {HEAD}\n",
                      numbers_static("SEEDS", "u16", "How far the names with some hash are moved, so that no two share a place.", seeds),
                      numbers_static("PLACES", "u16", "The number of the row at each place.", places)])


def other_case(letter):
    return letter.lower() if letter.isupper() else letter.upper()


def asked_names():
    """Each name, with a letter more and a letter less, and with its first or its last letter in the other case."""
    for name in NAMES:
        yield name
        yield name + "s"
        yield name[:-1]
        yield other_case(name[0]) + name[1:]
        yield name[:-1] + other_case(name[-1])


def known(name):
    return html5.get(name + ";")


def asked_and_answers():
    """What is asked, a line each, and the answers. A line is a name, which means something or `none`; or it is `text ` and a text to be resolved."""
    asked = list(asked_names())
    answers = [known(name) or "none" for name in asked]
    for names in (asked, [item for item in asked if known(item)]):
        asked_text = "".join(f"&{name};" for name in names)
        asked = asked + [f"text {asked_text}"]
        answers.append("".join(known(name) or f"&{name};" for name in names))
    return "".join(f"{item}\n" for item in asked), "".join(f"{answer}\n" for answer in answers)


def files():
    numbers = list(range(len(NAMES)))
    parts = [numbers[at:at + ROWS_A_FILE] for at in range(0, len(numbers), ROWS_A_FILE)]
    asked, answers = asked_and_answers()
    made = {f"specs/Rows{number}.antt": rows_file(number, rows) for number, rows in enumerate(parts, 1)}
    return {**made, "src/name_text.rt": name_text_file(), "src/meaning_text.rt": meaning_text_file(), "src/places.rt": places_file(),
            "../../packages/entities/asked": asked, "../../packages/entities/meanings": answers}


def main():
    parser = argparse.ArgumentParser(description=__doc__, formatter_class=argparse.RawDescriptionHelpFormatter)
    parser.add_argument("--check", action="store_true", help="writes nothing, and says which file is not what it would write; the status is 1 then")
    is_check, status = parser.parse_args().check, 0
    for path, text in files().items():
        if not is_check:
            (TOP / path).write_bytes(text.encode())
        elif not (TOP / path).exists() or (TOP / path).read_bytes() != text.encode():
            print(f"{os.path.normpath(f'crates/html_entities/{path}')} is not what generate.py writes")
            status = 1
    sys.exit(status)


if __name__ == "__main__":
    main()
