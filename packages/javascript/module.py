#!/usr/bin/env python3
"""Compiles the crate markdown_scanners_c, whose proof is kept in KEPT, as WebAssembly modules in FOLDER: fillaqut.wasm with a
32-bit memory, fillaqut64.wasm with a 64-bit one.

The kit compiles for WebAssembly what calls no C. The three functions of the heap, by which the crate asks for memory, are C's,
and here the host's. So the kit makes its LLVM code for the plainest x86-64, which has the sizes and the layouts of wasm64, and
hands it to a clang that keeps it; and the kit's own clang and linker make the module of it. The functions of the header are its
exports, and a section has the version.

The 32-bit module is made by wasm-opt (Debian's binaryen) of one with a 64-bit memory and no SIMD, which wasm-opt can't lower: its
sizes and layouts stay those of wasm64, and each address is cut to 32 bits where memory is read or written. Where both are made,
a section of it names the other one.
"""
import argparse
import os
import re
import subprocess
import sys
import tempfile
from importlib.machinery import SourceFileLoader
from importlib.util import module_from_spec, spec_from_loader
from pathlib import Path

sys.dont_write_bytecode = True
TOP = Path(__file__).resolve().parents[2]
sys.path.append(str(TOP / "docs"))
from kit import folder_of, kit, words

CRATE = "markdown_scanners_c"
LAYOUT = "e-m:e-p:64:64-p10:8:8-p20:8:8-i64:64-i128:128-n32:64-S128-ni:1:10:20"
TARGET = "wasm64-unknown-unknown"
NARROW, WIDE = "fillaqut.wasm", "fillaqut64.wasm"
FEATURES = ["-mbulk-memory", "-msign-ext"]
# What engines have that have 64-bit memories.
WIDE_FEATURES = [*FEATURES, "-msimd128"]
LOWERS = ["--enable-memory64", "--enable-bulk-memory", "--enable-sign-ext", "--memory64-lowering", "-O2"]
KEEPS = """#!/bin/sh
for word in "$@"; do case "$word" in *.bc) cp "$word" "{kept}" ;; esac; done
exec "{clang}" "$@"
"""


def stop(why):
    sys.exit(f"packages/javascript/module.py: {why}")


def loaded(name, path):
    """A program of Python as a module."""
    loader = SourceFileLoader(name, str(path))
    made = module_from_spec(spec_from_loader(name, loader))
    sys.modules[name] = made
    loader.exec_module(made)
    return made


def run(*words):
    done = subprocess.run([str(word) for word in words], stdout=subprocess.PIPE, stderr=subprocess.STDOUT, text=True)
    if done.returncode:
        stop(f"{words[0]} fails:\n{done.stdout}")
    return done.stdout


def keeping(toolchain, scratch):
    """A toolchain whose clang keeps the code that it is given, and where it keeps it."""
    other, kept = scratch / "toolchain", scratch / "module.bc"
    (other / "bin").mkdir(parents=True)
    for path in [path for path in toolchain.iterdir() if path.name != "bin"] + list((toolchain / "bin").iterdir()):
        (other / path.relative_to(toolchain)).symlink_to(path)
    (other / "bin/clang").unlink()
    (other / "bin/clang").write_text(KEEPS.format(kept=kept, clang=toolchain / "bin/clang"))
    (other / "bin/clang").chmod(0o755)
    return other, kept


def lowered(kept, scratch):
    """The crate as LLVM code."""
    toolchain = kit() / "toolchain"
    other, code = keeping(toolchain, scratch)
    os.chdir(folder_of(CRATE))
    how = ["--cpu=x86-64", "--toolchain", other, "--backend", "llvm", "--incremental", kept, "-o", scratch / "archive.a"]
    run("rattle", "build", *words(CRATE), *how)
    if not code.is_file():
        stop("the kit has given its clang no LLVM code")
    return code, toolchain


def retargeted(code):
    """The text of LLVM code, for wasm64. Of x86-64 it may have nothing but the names of the processor and its stack probes."""
    code, layouts = re.subn(r"^target datalayout = .*$", f'target datalayout = "{LAYOUT}"', code, flags=re.M)
    code, triples = re.subn(r"^target triple = .*$", f'target triple = "{TARGET}"', code, flags=re.M)
    code = re.sub(r' "(?:probe-stack|stack-probe-size|target-cpu)"="[^"]*"', "", code)
    if (layouts, triples) != (1, 1) or re.search(r"@llvm\.x86\.|\basm\b|x86_fp80", code):
        stop("the LLVM code is for x86-64 alone")
    return code


def functions():
    header = loaded("bindings", TOP / "packages/c/bindings").Header((TOP / "packages/c/include/fillaqut.h").read_text())
    return header.functions


def leb(number):
    """A number as WebAssembly writes it."""
    made = bytearray()
    while number > 127:
        made.append(number & 127 | 128)
        number >>= 7
    return bytes([*made, number])


def section(name, text):
    body = leb(len(name)) + name.encode() + text.encode()
    return b"\0" + leb(len(body)) + body


def version_section():
    return section("fillaqut", (TOP / "VERSION").read_text().strip())


def text_of(code, toolchain, scratch):
    """The LLVM code for wasm64, as a text."""
    text = scratch / "module.ll"
    run(toolchain / "bin/clang", "-S", "-emit-llvm", "-Xclang", "-disable-llvm-passes", "-x", "ir", code, "-o", text)
    text.write_text(retargeted(text.read_text()))
    return text


def linked(text, toolchain, scratch, features):
    """The bytes of a module with a 64-bit memory."""
    made, module = scratch / "module.o", scratch / "module.wasm"
    how = [f"--target={TARGET}", "-Werror", *features, "-Os", "-ffunction-sections", "-fdata-sections"]
    run(toolchain / "bin/clang", *how, "-x", "ir", text, "-c", "-o", made)
    (scratch / "imports").write_text("rattle_alloc\nrattle_realloc\nrattle_dealloc\n")
    words = ["-flavor", "wasm", "-mwasm64", "--no-entry", "--stack-first", "--gc-sections", "--strip-all", "--fatal-warnings"]
    words += [f"--allow-undefined-file={scratch / 'imports'}", *[f"--export={name}" for name in ("__heap_base", *functions())]]
    run(toolchain / "bin/ld.lld", *words, made, "-o", module)
    return module.read_bytes()


def narrowed(made, scratch):
    """The bytes of the module with a 32-bit memory that wasm-opt makes of this one."""
    before, after = scratch / "before.wasm", scratch / "after.wasm"
    before.write_bytes(made)
    run("wasm-opt", *LOWERS, before, "-o", after)
    return after.read_bytes()


def main(kept, folder, bits):
    with tempfile.TemporaryDirectory() as name:
        scratch = Path(name)
        code, toolchain = lowered(kept, scratch)
        text = text_of(code, toolchain, scratch)
        if "64" in bits:
            (folder / WIDE).write_bytes(linked(text, toolchain, scratch, WIDE_FEATURES) + version_section())
        if "32" in bits:
            beside = section("fillaqut64", WIDE) if "64" in bits else b""
            (folder / NARROW).write_bytes(narrowed(linked(text, toolchain, scratch, FEATURES), scratch) + version_section() + beside)


if __name__ == "__main__":
    parser = argparse.ArgumentParser(description=__doc__, formatter_class=argparse.RawDescriptionHelpFormatter)
    parser.add_argument("kept", metavar="KEPT", type=lambda path: Path(path).resolve())
    parser.add_argument("folder", metavar="FOLDER", type=lambda path: Path(path).resolve())
    parser.add_argument("bits", metavar="32|64", nargs="+", choices=["32", "64"])
    main(**vars(parser.parse_args()))
