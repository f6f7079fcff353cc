"""For which system a wheel says that it is. What other systems answer stands here in the place of what this one does."""
import contextlib
import json
import os
import sys
import tomllib
import unittest
from pathlib import Path
from types import SimpleNamespace
from unittest import mock

sys.path.append(str(Path(__file__).resolve().parents[1] / "backend"))
import fillaqut_build as backend

PACKAGES = Path(__file__).resolve().parents[2]
MUSL = "musl libc (x86_64)\nVersion 1.2.3\nDynamic Program Loader\n"


@contextlib.contextmanager
def on(system, machine, name, confstr=None, loader=None):
    """A system: its name for Python, its machine, and the name of both; what confstr answers, and what the loader of musl prints, or how they fail."""
    answers = {"confstr": mock.Mock(side_effect=[confstr]), "environ": {"FILLAQUT_TARGET": ""}}
    with contextlib.ExitStack() as stack:
        enter = stack.enter_context
        enter(mock.patch.object(sys, "platform", system))
        enter(mock.patch.object(backend.platform, "machine", lambda: machine))
        enter(mock.patch.object(backend.sysconfig, "get_platform", lambda: name))
        enter(mock.patch.object(backend.subprocess, "run", mock.Mock(side_effect=[loader])))
        enter(mock.patch.multiple(os, create=True, **answers))
        yield


class Registries(unittest.TestCase):
    def test_packages_say_the_same(self):
        """What PyPI, crates.io and npm show of each package. That of JavaScript has a keyword of its own."""
        python = backend.project()
        rust = tomllib.loads((PACKAGES / "rust/Cargo.toml").read_text())["package"]
        javascript = json.loads((PACKAGES / "javascript/package.json").read_text())
        for field in ("name", "version", "description", "license"):
            self.assertEqual({python[field], rust[field], javascript[field]}, {python[field]}, field)
        self.assertEqual([python["authors"], rust["authors"]], [[{"name": javascript["author"]}], [javascript["author"]]])
        self.assertEqual(python["keywords"] + ["wasm"], javascript["keywords"])
        self.assertEqual(python["keywords"], rust["keywords"])


class Tags(unittest.TestCase):
    def tag(self, expected, *system, made=b"", extended=b"", is_made_here=False, **more):
        with on(*system, **more):
            self.assertEqual(backend.system_tag(made, {"a": extended}, is_made_here), expected)

    def test_glibc(self):
        linux, glibc = ("linux", "x86_64", "linux-x86_64"), {"confstr": "glibc 2.36", "loader": SimpleNamespace(stderr=MUSL)}
        self.tag("manylinux_2_17_x86_64", *linux, **glibc)
        self.tag("manylinux_2_17_x86_64", *linux, made=b"\0GLIBC_2.2.5\0", **glibc)
        self.tag("manylinux_2_34_x86_64", *linux, made=b"\0GLIBC_2.14\0", extended=b"\0GLIBC_2.34\0GLIBC_2.4\0", **glibc)
        self.tag("linux_x86_64", *linux, is_made_here=True, **glibc)

    def test_musl(self):
        linux = ("linux", "x86_64", "linux-x86_64")
        for confstr in (ValueError("unrecognized configuration name"), OSError("invalid argument"), None):
            self.tag("musllinux_1_2_x86_64", *linux, confstr=confstr, loader=SimpleNamespace(stderr=MUSL))
            self.tag("linux_x86_64", *linux, confstr=confstr, loader=SimpleNamespace(stderr="usage\n"))
            self.tag("linux_x86_64", *linux, confstr=confstr, loader=FileNotFoundError("no loader"))
        self.tag("linux_x86_64", *linux, is_made_here=True, confstr=ValueError("unrecognized"))

    def test_macos_and_windows(self):
        for is_made_here in (False, True):
            for name, machine, expected in (
                ("macosx-10.9-universal2", "arm64", "macosx_11_0_arm64"),
                ("macosx-13.0-universal2", "arm64", "macosx_13_0_arm64"),
                ("macosx-10.9-universal2", "x86_64", "macosx_10_9_x86_64"),
                ("macosx-12.6-x86_64", "x86_64", "macosx_12_6_x86_64"),
            ):
                self.tag(expected, "darwin", machine, name, is_made_here=is_made_here)
            self.tag("win_amd64", "win32", "AMD64", "win-amd64", is_made_here=is_made_here)

    def test_targets(self):
        """Those of the table, whatever is here."""
        for triple, expected in (("x86_64-linux-musl", "musllinux_1_1_x86_64"), ("arm64-apple-macosx11", "macosx_11_0_arm64")):
            with mock.patch.dict(os.environ, FILLAQUT_TARGET=triple):
                self.assertEqual(backend.system_tag(b"", {}, False), expected)
        with mock.patch.dict(os.environ, FILLAQUT_TARGET="none"):
            self.assertRaises(SystemExit, backend.system_tag, b"", {}, False)


if __name__ == "__main__":
    unittest.main()
