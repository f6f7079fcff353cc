"""What a release gives out: each part is made in a folder by the scripts of its package, and packed so that the same files have the same bytes."""
import os
import re
import shutil
import subprocess
import sys
import tempfile
from pathlib import Path

sys.dont_write_bytecode = True
import archives
import components
import spdx

NAME = "fillaqut"
TARGETS = "packages/platforms/targets.tsv"
# Files of the tree that libraries, programs and packages are made of, beside the sources of crates.
SOURCES = (
    "crates.txt",
    "LICENSE",
    "VERSION",
    "packages/c/include",
    "packages/c/package",
    "packages/c/examples",
    "packages/javascript",
    "packages/platforms",
    "packages/program/completions",
    "packages/program/man",
    "packages/python",
    "packages/rust",
)


class Failed(Exception):
    """A part could not be made."""


def run(*words, cwd, quiet=False, **variables):
    """Runs a command, and returns what it printed; its errors are shown, unless it is quiet and ends well."""
    shown = subprocess.PIPE if quiet else None
    done = subprocess.run([str(word) for word in words], cwd=cwd, env={**os.environ, **variables}, stdout=subprocess.PIPE, stderr=shown, text=True)
    if done.returncode:
        raise Failed(f"{' '.join(map(str, words))} ends with status {done.returncode}\n{done.stdout}{done.stderr or ''}")
    return done.stdout


def git(tree, *words):
    return run("git", "-C", tree, *words, cwd=tree).strip()


def other_targets(tree):
    """The triples of other platforms, as the table of targets has them after the kit's own."""
    rows = [line.split("\t")[0] for line in (tree / TARGETS).read_text().splitlines() if not line.startswith("#")]
    if len(rows) < 2:
        raise Failed(f"{TARGETS} names no other target")
    return rows[1:]


class Making:
    """One making: the tree, the folder that it fills, the version and the time of the commit."""

    def __init__(self, tree, folder, time, made_files):
        self.tree, self.folder, self.time, self.made_files = tree, folder, time, made_files
        self.version = (tree / "VERSION").read_text().strip()
        self.named = f"{NAME}-{self.version}"

    def run(self, *words, cwd=None, **variables):
        return run(*words, cwd=cwd or self.tree, SOURCE_DATE_EPOCH=str(self.time), **variables)

    def pack(self, kind, files):
        """Packs files of the tree, or bytes, below a folder of the archive's name."""
        name = f"{self.named}-{kind}"
        archives.pack({f"{name}/{path}": content for path, content in files.items()}, self.folder / f"{name}.tar.gz", self.time)

    def c_files(self):
        """What is packed with each library for C."""
        headers = {f"include/{path.name}": path for path in sorted((self.tree / "packages/c/include").glob("*.h"))}
        return {**headers, "examples/html.c": self.tree / "packages/c/examples/html.c", "LICENSE": self.tree / "LICENSE"}

    def packed(self):
        """What packages/c/dist packs: libraries and programs, with the packages for those who have no kit."""
        self.run("packages/javascript/build", "--64")
        if not (self.tree / "packages/javascript/types").is_dir():
            raise Failed("the JavaScript package has no types, as there is no tsc")
        self.run("packages/c/dist", self.folder)

    def source(self):
        """The library as one file of C."""
        self.run("packages/c/build", "--source")
        said = "# The library as one file\n\nFor a 64-bit machine with the lowest byte first:\n\n"
        said += "```sh\ncc -O2 -c fillaqut.c\ncc -Iinclude examples/html.c fillaqut.o -o html\n```\n"
        self.pack("c", {**self.c_files(), "fillaqut.c": self.tree / "out/source/fillaqut.c", "README.md": said.encode()})

    def platforms(self):
        """What packages/c/dist packs for other platforms."""
        for triple in other_targets(self.tree):
            self.run("packages/c/dist", "--target", triple, self.folder)

    def python(self):
        """The wheels, for each platform, and the source package."""
        library = self.tree / f"out/libfillaqut.so.{self.version.split('.')[0]}"
        self.built("wheel", FILLAQUT_LIBRARY=str(library), FILLAQUT_TARGET="")
        for triple in other_targets(self.tree):
            self.built("wheel", FILLAQUT_LIBRARY="", FILLAQUT_TARGET=triple)
        self.built("sdist")
        archives.repack(self.folder / f"{self.named}.tar.gz", self.time)

    def built(self, kind, **variables):
        """A wheel or a source package, as the backend builds it."""
        words = f"import fillaqut_build, sys; fillaqut_build.build_{kind}(sys.argv[1])"
        where = {"PYTHONPATH": str(self.tree / "packages/python/backend"), "PYTHONDONTWRITEBYTECODE": "1"}
        self.run("python3", "-c", words, self.folder, **where, **variables)

    def rust(self):
        """The crate, as cargo packs it, with the file of C that it makes the library of."""
        with tempfile.TemporaryDirectory() as scratch:
            words = ["cargo", "package", "-q", "--offline", "--no-verify", "--allow-dirty", "--target-dir", scratch]
            # In a copy, so that neither a folder beside it nor git says anything of where it is.
            shutil.copytree(self.tree / "packages/rust", Path(scratch) / "rust", ignore=shutil.ignore_patterns("target", "Cargo.lock"))
            (Path(scratch) / "rust/source").mkdir()
            for end in "ch":
                shutil.copy(self.tree / f"out/source/{NAME}.{end}", Path(scratch) / "rust/source")
            self.run(*words, cwd=Path(scratch) / "rust")
            shutil.copy(Path(scratch) / f"package/{self.named}.crate", self.folder)

    def javascript(self):
        """The package, as npm packs it. It is built for what packages/c/dist packs."""
        with tempfile.TemporaryDirectory() as scratch:
            words = ["npm", "pack", "--silent", "--offline", "--no-update-notifier", "--pack-destination", self.folder]
            self.run(*words, cwd=self.tree / "packages/javascript", npm_config_cache=scratch)

    def page(self):
        """The page with all that it loads, for a static server."""
        package = self.tree / "packages/javascript"
        names = ["index.html", "fillaqut.mjs", "LICENSE", *[path.name for path in package.glob("*.wasm")]]
        files = {name: package / name for name in names}
        for folder in ("lib", "page"):
            files |= archives.below(package / folder, folder)
        self.pack("page", files)

    def notices(self):
        """The licences of all that is compiled into libraries and programs."""
        (self.folder / f"{self.named}-licences.txt").write_text(components.notices())

    def sources(self):
        """The files of the tree that the release is made of, with their bytes."""
        folders = [*SOURCES, *[f"crates/{name}/src" for name in components.ours()]]
        left = re.compile(r"/(?:test|totals|missing)$|/tests/(?!\w+\.rs$)|\.png$")
        names = [name for name in self.made_files if name.startswith(tuple(folders)) and not left.search(name)]
        return {name: (self.tree / name).read_bytes() for name in names}

    def lists(self):
        """The list of what the release is made of, and the checksums of all files."""
        given = {path.name: path.read_bytes() for path in sorted(self.folder.iterdir())}
        found = spdx.document(self.version, self.time, given, self.sources(), components.components(), components.kit_version())
        (self.folder / f"{self.named}.spdx.json").write_text(spdx.written(found))
        names = sorted(path.name for path in self.folder.iterdir())
        sums = [f"{spdx.checksums((self.folder / name).read_bytes())[1]['checksumValue']}  {name}\n" for name in names]
        (self.folder / "SHA256SUMS").write_text("".join(sums))

    def all(self, say):
        """Makes all parts, each after a line that says so."""
        for part in (self.packed, self.source, self.platforms, self.python, self.rust, self.javascript, self.page, self.notices, self.lists):
            say(part.__doc__.split(".")[0])
            part()
