#!/usr/bin/env python3
"""Reads each *.md file below FOLDER by the workers of a dask cluster, that of ADDRESS or else N of this machine, and writes JSON lines
into the new folder OUT: of each page its path, its HTML, which is safe, where its links lead, as the page says it, and its headings.

A file in OUT has its name once it is whole. Where a worker dies, another one does its work again. Each has to reach both folders and to
have this package. Debian: apt-get install python3-dask python3-distributed
"""
import argparse
import json
import sys
import uuid
from pathlib import Path

from distributed import Client, as_completed
from fillaqut import Element, EventKind, LinkKind, event_columns, html

EXTENSIONS = ("tables", "strikethrough", "tasks")
SHOWN = (EventKind.TEXT, EventKind.CODE, EventKind.SOFT_BREAK, EventKind.HARD_BREAK)


def begun(columns, element):
    """The indices of the events by which such an element begins."""
    at = columns.elements.find(element)
    while at >= 0:
        if columns.kinds[at] == EventKind.START:
            yield at
        at = columns.elements.find(element, at + 1)


def link(target):
    return f"mailto:{target.destination}" if target.kind == LinkKind.EMAIL else target.destination


def heading(columns, start):
    stop = columns.elements.index(Element.HEADING, start + 1)  # its end, as no heading stands in another
    texts = [columns[at].text for at in range(start, stop) if columns.kinds[at] in SHOWN]
    return {"level": columns[start].level, "text": "".join(" " if text is None else text for text in texts)}


def row(path):
    """What is written of a page, or why it can't be read."""
    try:
        page = path.read_bytes().decode(errors="replace")
    except OSError as why:
        return {"path": str(path), "error": why.strerror}
    columns = event_columns(page, extensions=EXTENSIONS)
    links = [link(columns[at].target) for at in begun(columns, Element.LINK)]
    headings = [heading(columns, at) for at in begun(columns, Element.HEADING)]
    return {"path": str(path), "html": html(page, extensions=EXTENSIONS), "links": links, "headings": headings}


def write(part, paths):
    """Writes the rows of these pages, where they are not there yet: of a worker that dies its tasks are done again, those that it has done too."""
    if part.is_file():
        return
    draft = part.with_name(f".{uuid.uuid4()}")
    with open(draft, "w") as file:
        file.writelines(json.dumps(row(path)) + "\n" for path in paths)
    draft.replace(part)


def run(client, paths, out, size=100):
    """Writes the rows of all pages, so many into each file, and answers how many there are. It says which files could not be written."""
    parts = {out / f"part-{at // size:06}.jsonl": paths[at : at + size] for at in range(0, len(paths), size)}
    for _ in as_completed(client.map(write, parts, parts.values(), pure=False)):
        pass  # without its answer, which is lost with the worker that has it
    for part in [part for part in parts if not part.is_file()]:  # once more, one by one: dask gives up also what waits beside a page that ends workers
        [done] = as_completed([client.submit(write, part, parts[part], pure=False)])
        if done.status == "error":
            print(f"corpus.py: {part}: {done.exception()!r}", file=sys.stderr)
    for draft in out.glob(".*"):  # of workers that have died
        draft.unlink()
    return sum(len(parts[part]) for part in parts if part.is_file())


def main():
    parser = argparse.ArgumentParser(description=__doc__, formatter_class=argparse.RawDescriptionHelpFormatter)
    parser.add_argument("folder", type=Path, metavar="FOLDER")
    parser.add_argument("out", type=Path, metavar="OUT")
    parser.add_argument("--scheduler", metavar="ADDRESS")
    parser.add_argument("--workers", type=int, metavar="N", help="else as many as there are processors")
    asked = parser.parse_args()
    paths = sorted(asked.folder.resolve().rglob("*.md"))
    if not paths:
        parser.error(f"there is no page below {asked.folder}")
    if asked.out.exists():
        parser.error(f"{asked.out} is there already")
    asked.out.mkdir()
    own = {} if asked.scheduler else {"n_workers": asked.workers, "threads_per_worker": 1, "dashboard_address": None}
    with Client(asked.scheduler, **own) as client:
        count = run(client, paths, asked.out.resolve())
        print(f"{count} of {len(paths)} pages, workers: {len(client.ncores())}")
    return count != len(paths)


if __name__ == "__main__":
    sys.exit(main())
