#!/usr/bin/env python3
"""packages/c/tests/examples_of_spec.py COMMAND..: passes all examples of the specification to spec.c, as that command runs it, and prints how many have
the HTML that stands there."""
import subprocess
import sys
from pathlib import Path

sys.dont_write_bytecode = True
sys.path.append(str(Path(__file__).resolve().parents[3] / "tests/html"))
import spec


def main(command):
    examples = list(spec.examples(spec.COMMONMARK))
    pages = b"".join(example.page + b"\0" for example in examples)
    found = subprocess.run(command, input=pages, stdout=subprocess.PIPE, check=True).stdout.split(b"\0")[:-1]
    differ = [example for example, html in zip(examples, found) if example.html != html] if len(found) == len(examples) else examples
    sys.exit(f"{differ}" if differ else print(len(examples)))


if __name__ == "__main__":
    main(sys.argv[1:])
