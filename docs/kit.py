#!/usr/bin/env python3
"""Calls the kit's `rattle` on a static library, CRATE, over the libraries that `rt ci` or `rt lib` has proved and built in the tree.

    docs/kit.py CRATE --are-built       status 0 where each library below the crate is there, and is newer than its sources
    docs/kit.py CRATE --archive FILE    proves the crate, and compiles it for C; where a library is not built, rt proves all of them first
    docs/kit.py CRATE --wasm64          proves it for wasm64

What is proved is kept in out/incremental of the crate, or where --incremental says. JOBS says by how many jobs it is proved.
"""
import argparse
import os
import shutil
import subprocess
import sys
from pathlib import Path

sys.dont_write_bytecode = True
from crate_list import CRATES, TOP, crates, libraries, made_of

SOURCES = ("src", "specs", "proofs")


def folder_of(crate):
    return TOP / "crates" / crate


def kit():
    """Where the kit is."""
    return Path(shutil.which("rattle") or sys.exit("docs/kit.py: there is no rattle")).resolve().parent.parent


def below(crate):
    """The crates of the tree that a crate stands on, and the folders of what is built of them."""
    return {name: folder_of(name) / "out/rlib" for name in made_of(crate) if name != crate}


def is_built(library, folder):
    """Whether the library is there, and newer than its sources."""
    if not (folder / f"{library}.rlib/format").is_file():
        return False
    files = [path for part in SOURCES for path in (folder_of(library) / part).rglob("*") if path.is_file()]
    return max(path.stat().st_mtime for path in [CRATES, *files]) < folder.stat().st_mtime


def are_built(crate):
    """Whether all libraries below a crate are."""
    return all(is_built(library, folder) for library, folder in below(crate).items())


def words(crate):
    """The words for a command on a crate: its libraries, those of the tree and those of the kit, and the logic."""
    ours, kits = below(crate), kit() / "rlibs"
    passed = {name: ours.get(name, kits) / f"{name}.rlib" for name in ["std", *libraries()[crate]]}
    externs = [word for name, path in passed.items() for word in ("--extern", f"{name}={path}")]
    paths = [word for folder in [kits, *ours.values()] for word in ("-L", f"dependency={folder}")]
    logic = ["--antt-project", kit() / "rattle/logic/antt-project.json", "--logic-built", kit() / "logic_built"]
    return ["--crate-name", crate, "src/lib.rt", *externs, *paths, *logic, "--links", f"{crate}=", "--crate-type", "staticlib"]


def rattle(command, crate, *more):
    """The status of a command on a crate, in its folder."""
    return subprocess.run(["rattle", command, *map(str, [*words(crate), *more])], cwd=folder_of(crate)).returncode


def rt_lib(crate, archive, flags):
    """The status of rt, which proves a crate and what it stands on, and leaves the archive in the crate's out/."""
    made = folder_of(crate) / f"out/lib{crate}.a"
    jobs = ["--jobs", os.environ["JOBS"]] if "JOBS" in os.environ else []
    status = subprocess.run(["rt", "lib", *jobs, *flags], cwd=folder_of(crate)).returncode
    if not status and archive != made:
        shutil.move(made, archive)
    return status


def main():
    parser = argparse.ArgumentParser(description=__doc__, formatter_class=argparse.RawDescriptionHelpFormatter)
    parser.add_argument("crate", metavar="CRATE", choices=crates())
    what = parser.add_mutually_exclusive_group(required=True)
    what.add_argument("--are-built", action="store_true")
    what.add_argument("--archive", metavar="FILE", type=lambda path: Path(path).resolve())
    what.add_argument("--wasm64", action="store_true")
    parser.add_argument("--cpu", metavar="CPU", help="compiles for this processor, and not for the usual one")
    parser.add_argument("--incremental", metavar="FOLDER", type=lambda path: Path(path).resolve())
    asked = parser.parse_args()
    if asked.are_built:
        return 0 if are_built(asked.crate) else 1
    flags = [f"--cpu={asked.cpu}"] if asked.cpu else []
    if asked.archive and not are_built(asked.crate):
        return rt_lib(asked.crate, asked.archive, flags)
    kept = asked.incremental or folder_of(asked.crate) / "out/incremental"
    kept.mkdir(parents=True, exist_ok=True)
    keeps = ["--incremental", kept, "--jobs", os.environ.get("JOBS", "1")]
    if asked.wasm64:
        return rattle("check", asked.crate, "--target", "wasm64-unknown-unknown", *keeps)
    how = ["--toolchain", kit() / "toolchain", "--backend", "llvm", *flags]
    return rattle("build", asked.crate, *how, *keeps, "-o", asked.archive)


if __name__ == "__main__":
    sys.exit(main())
