"""Uses each part of a release as its reader would, in a folder where nothing of the tree is: each has to print the HTML of one line."""
import os
import platform
import re
import shutil
import subprocess
import sys
import tarfile
from pathlib import Path

ASKED = "*a* <b> [c](javascript:d)\n"
# By section 6.3 it is a link, whose scheme is not among those that are let through (docs/SAFE_HTML.md).
PRINTED = '<p><em>a</em> &lt;b&gt; <a href="" rel="nofollow noopener">c</a></p>\n'
WINE = "/usr/lib/wine/wine64"
# Prints what is not here to build the crate with.
MISSING = Path(__file__).resolve().parents[1] / "rust/missing"
# What makes and runs a program for each platform, as its archive is called; without a row it is not tried.
MACHINES = {
    "aarch64-linux": (["aarch64-linux-gnu-gcc"], ["qemu-aarch64", "-L", "/usr/aarch64-linux-gnu"]),
    "x86_64-linux-musl": (["musl-gcc", "-static"], []),
    "x86_64-windows": (["x86_64-w64-mingw32-gcc"], [WINE]),
}
CARGO = '[package]\nname = "user"\nversion = "0.0.0"\nedition = "2021"\n[dependencies]\nfillaqut = {{ path = "{}" }}\n'
RUST = """fn main() {
    let page = std::io::read_to_string(std::io::stdin()).unwrap();
    print!("{}", fillaqut::html(page.as_str(), Default::default()));
}
"""
NODE = 'import {{ load }} from "{}"; process.stdout.write((await load()).html(process.argv[1]))'


class NotTried(Exception):
    """Something that a part is used with is not there."""


def need(*tools):
    """Each of these is there."""
    if missing := [tool for tool in tools if not shutil.which(tool)]:
        raise NotTried(f"there is no {missing[0]}")


def run(words, cwd, **variables):
    """What a command prints, or why it fails. It knows no library that this machine has."""
    if isinstance(words[0], str):
        need(words[0])
    kept = {name: value for name, value in os.environ.items() if not name.startswith(("FILLAQUT", "PYTHONPATH", "PKG_CONFIG"))}
    kept |= {"PKG_CONFIG_LIBDIR": os.devnull, **variables}
    try:
        done = subprocess.run([str(word) for word in words], cwd=cwd, env=kept, input=ASKED, capture_output=True, text=True)
    except OSError as why:  # a program of the release that is not there, or can't be run
        return str(why)
    return done.stdout.replace("\r", "") if done.returncode == 0 else f"{' '.join(map(str, words))}: {done.stdout}{done.stderr}"


def unpacked(archive, scratch):
    """The one folder that an archive has at its top."""
    folder = scratch / archive.name.replace(".", "_")
    folder.mkdir()
    with tarfile.open(archive) as found:
        found.extraction_filter = getattr(tarfile, "data_filter", None)  # Python 3.11.2, of Debian 12, has none
        found.extractall(folder)
    return next(folder.iterdir())


def compiled(at, objects, compiler, runner):
    """The example of C, of this folder."""
    said = run([*compiler, "-Iinclude", "examples/html.c", *objects, "-o", "html.exe"], at)
    if said:
        return said
    wine = {"WINEDEBUG": "-all", "WINEPREFIX": str(at / "wine")}
    said = run([*runner, at / "html.exe"], at, **wine)
    if runner == [WINE]:
        run([Path(WINE).with_name("wineserver"), "-k"], at, **wine)  # else it writes in the folder still
    return said


def one_file(archive, scratch):
    at = unpacked(archive, scratch)
    return compiled(at, ["fillaqut.c"], ["cc", "-std=c99", "-O1"], [])


def for_platform(archive, scratch):
    at = unpacked(archive, scratch)
    machines = [machine for name, machine in MACHINES.items() if archive.name.endswith(f"-{name}.tar.gz")]
    if not machines:
        raise NotTried("nothing here runs it")
    return compiled(at, ["lib/libfillaqut.a"], *machines[0])


def packed(archive, scratch):
    return run([unpacked(archive, scratch) / "bin/fillaqut", "html"], scratch)


def installed(package, scratch):
    """The HTML by the Python package, which pip has installed in a folder."""
    if package.suffix != ".whl":
        need("cc")  # which makes the library
    elif not re.search(rf"-manylinux_\d+_\d+_{platform.machine()}\.whl$", package.name):
        raise NotTried("nothing here runs it")
    site = scratch / f"site-{package.name}"
    words = ["install", "-q", "--root-user-action", "ignore", "--no-index", "--no-deps", "--no-build-isolation", "--target", site, package]
    said = run([sys.executable, "-m", "pip", *words], scratch)
    words = "import fillaqut, sys; print(fillaqut.html(sys.stdin.read()), end='')"
    return said or run([sys.executable, "-c", words], scratch, PYTHONPATH=str(site), PYTHONDONTWRITEBYTECODE="1")


def crate(archive, scratch):
    """A program that depends on the crate, which makes the library of the file of C that it has."""
    need("cc", "ar")
    if missing := subprocess.run([MISSING], capture_output=True, text=True, check=True).stdout.strip():
        raise NotTried(f"there is no {missing}")
    user = scratch / "user"
    (user / "src").mkdir(parents=True)
    (user / "Cargo.toml").write_text(CARGO.format(unpacked(archive, scratch)))
    (user / "src/main.rs").write_text(RUST)
    return run(["cargo", "run", "-q", "--offline"], user, CARGO_TARGET_DIR=str(scratch / "target"))


def loaded(archive, scratch):
    """The HTML by a JavaScript package or a page, which node loads."""
    return run(["node", "--input-type=module", "-e", NODE.format(unpacked(archive, scratch) / "fillaqut.mjs"), ASKED], scratch)


def uses(folder, scratch):
    """Each file that is used, with how."""
    rooms = {path: scratch / str(at) for at, path in enumerate(sorted(folder.iterdir()))}
    for path, room in rooms.items():
        room.mkdir()
        name = path.name
        if name.endswith("-x86_64-linux.tar.gz"):
            yield name, lambda path=path, room=room: packed(path, room)
        elif name.endswith("-c.tar.gz"):
            yield name, lambda path=path, room=room: one_file(path, room)
        elif name.endswith((".tgz", "-page.tar.gz")):
            yield name, lambda path=path, room=room: loaded(path, room)
        elif name.endswith(".whl"):
            yield name, lambda path=path, room=room: installed(path, room)
        elif name.endswith(".crate"):
            yield name, lambda path=path, room=room: crate(path, room)
        elif name.removesuffix(".tar.gz").rsplit("-", 1)[-1].count(".") == 2:
            yield name, lambda path=path, room=room: installed(path, room)
        elif name.endswith(".tar.gz"):
            yield name, lambda path=path, room=room: for_platform(path, room)


def faults(folder, scratch):
    """The files that can't be used, with what they print; what is used, or is not tried, is printed."""
    used = 0
    for name, use in uses(folder, scratch):
        try:
            said = use()
        except NotTried as why:
            print(f"packages/release/check: {name} is NOT TRIED, as {why}")
            continue
        if said != PRINTED:
            yield f"{name}: it prints {said!r}"
            continue
        print(f"{name}: used")
        used += 1
    if not used:
        yield "nothing was used"
