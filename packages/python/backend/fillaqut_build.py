"""Builds the wheel and the source package, by Python's own library alone (3.11 or later). The wheel holds the shared library:
the one that FILLAQUT_LIBRARY names, else that of the tree, which packages/c/build makes, else the one that
pkg-config knows, and else one that a C compiler, `cc` or the one that CC names, makes of the file of C that the source package has. It holds
the extension, which calls that library, where that compiler and Python's headers are there; without it the package calls by ctypes.

FILLAQUT_TARGET names another target, of packages/platforms/targets.tsv in the tree, whose library packages/c/build --target makes: the wheel is
for that one, and calls by ctypes."""
import base64
import hashlib
import io
import os
import platform
import re
import shlex
import subprocess
import sys
import sysconfig
import tarfile
import tempfile
import tomllib
import zipfile
from pathlib import Path

HERE = Path(__file__).resolve().parent.parent
TOP = HERE.parent.parent
PACKAGE = "fillaqut"
EXTENSION = "_fast.abi3.so"
LATEST = (1980, 1, 1, 0, 0, 0)  # of all files, so that the same files make the same wheel
# What the shared library is called, by words of systems and of triples; elsewhere as on Linux.
NAMES = {"win32": "fillaqut.dll", "windows": "fillaqut.dll", "darwin": "libfillaqut.0.dylib", "apple": "libfillaqut.0.dylib"}
# How a C compiler makes it, and the extension on macOS.
SHARED = {"win32": ["-shared", "-s"], "darwin": ["-dynamiclib", "-Wl,-install_name,@rpath/libfillaqut.0.dylib"]}
EXTENDED = {"darwin": ["-bundle", "-undefined", "dynamic_lookup"]}


def project():
    return tomllib.loads((HERE / "pyproject.toml").read_text())["project"]


def named():
    return f"{PACKAGE}-{project()['version']}"


def licence():
    return next(path for path in (HERE / "LICENSE", TOP / "LICENSE") if path.is_file()).read_text()


def metadata():
    about = project()
    lines = ["Metadata-Version: 2.4", f"Name: {about['name']}", f"Version: {about['version']}", f"Summary: {about['description']}"]
    lines += [f"Requires-Python: {about['requires-python']}", f"License-Expression: {about['license']}", "License-File: LICENSE"]
    lines += [f"Author: {', '.join(author['name'] for author in about['authors'])}", f"Keywords: {','.join(about['keywords'])}"]
    lines += [*[f"Classifier: {classifier}" for classifier in about["classifiers"]], "Description-Content-Type: text/markdown", ""]
    return "\n".join([*lines, (HERE / about["readme"]).read_text()])


def target():
    """The triple of another target than this machine, or nothing."""
    return os.environ.get("FILLAQUT_TARGET", "")


def library_name():
    system = target() or sys.platform
    return next((name for word, name in NAMES.items() if word in system), "libfillaqut.so.0")


def known_library():
    """Where the shared library is, or nothing."""
    named, name = os.environ.get("FILLAQUT_LIBRARY", ""), library_name()
    if named or target():
        path = Path(named or TOP / "out" / target() / name)
        return path if path.is_file() else fail(f"there is no {path}: run packages/c/build, or name another one in FILLAQUT_LIBRARY")
    known = [TOP / "out" / name] if (sys.platform, platform.machine()) == ("linux", "x86_64") else []
    try:
        words = ["pkg-config", "--variable=libdir", PACKAGE]
        known += [Path(subprocess.run(words, capture_output=True, text=True, check=True).stdout.strip()) / name]
    except (OSError, subprocess.CalledProcessError):
        pass
    return next((path for path in known if path.is_file()), None)


def fail(why):
    raise SystemExit(why)


def source():
    """The file of C that the library is made of, and its header: those of the source package, or of the tree. Or nothing."""
    folders = (HERE / "source", TOP / "out/source")
    return next(([folder / f"{PACKAGE}.{end}" for end in "ch"] for folder in folders if (folder / f"{PACKAGE}.c").is_file()), [])


def compiler():
    return shlex.split(os.environ.get("CC", "cc"))


def made_library():
    """The bytes of the shared library as the C compiler makes it."""
    if not source():
        fail(f"there is no {library_name()}: run packages/c/build, or name one in FILLAQUT_LIBRARY")
    flags = ["-std=c99", "-O2", *SHARED.get(sys.platform, ["-fPIC", "-shared", "-s", f"-Wl,-soname,{library_name()}"])]
    with tempfile.TemporaryDirectory() as scratch:
        words = [*compiler(), *flags, source()[0], "-o", Path(scratch, library_name())]
        try:
            subprocess.run(words, capture_output=True, text=True, check=True)
        except (OSError, subprocess.CalledProcessError) as why:
            fail(f"the library is not made of {source()[0]}: name a C compiler in CC: {why}\n{getattr(why, 'stderr', '')}")
        return Path(scratch, library_name()).read_bytes()


def library():
    """The bytes of the shared library, and whether it was made here."""
    known = known_library()
    return (known.read_bytes(), False) if known else (made_library(), True)


def extension_sources():
    """The files of which the extension is made. In the tree the header is that of the C functions."""
    known = [HERE / "extension/fillaqut.h", TOP / "packages/c/include/fillaqut.h"]
    files = [*sorted((HERE / "extension").glob("*.[ch]")), *[path for path in known if path.is_file()][:1]]
    return {path.name: path.read_bytes() for path in files}


def extension():
    """The extension in the package, or nothing where it can't be built. It is for each CPython from 3.11 on but those without
    a lock of the interpreter."""
    if target() or sys.platform == "win32" or sys.implementation.name != "cpython" or sysconfig.get_config_var("Py_GIL_DISABLED"):
        return {}
    how = EXTENDED.get(sys.platform, ["-shared", "-s", "-Wl,--build-id=none"])
    flags = ["-O2", "-fPIC", *how, f"-I{sysconfig.get_path('include')}"]
    with tempfile.TemporaryDirectory() as scratch:
        for name, content in extension_sources().items():
            (Path(scratch) / name).write_bytes(content)
        try:
            words = [*compiler(), *flags, "fast.c", "-o", EXTENSION]
            subprocess.run(words, cwd=scratch, capture_output=True, text=True, check=True)
        except (OSError, subprocess.CalledProcessError) as why:
            print(f"the extension is not built, and the package calls by ctypes: {why}\n{getattr(why, 'stderr', '')}", file=sys.stderr)
            return {}
        return {f"{PACKAGE}/{EXTENSION}": (Path(scratch) / EXTENSION).read_bytes()}


def has_glibc():
    """Whether glibc is the C library of this Python. That of Alpine, musl, knows no such name."""
    try:
        return (os.confstr("CS_GNU_LIBC_VERSION") or "").startswith("glibc")
    except (OSError, ValueError):
        return False


def musl_version():
    """The version of musl, as 1_2, which its loader prints; or nothing."""
    try:
        said = subprocess.run([f"/lib/ld-musl-{platform.machine()}.so.1"], capture_output=True, text=True).stderr
    except OSError:
        return ""
    return "_".join(next(iter(re.findall(r"^Version (\d+)\.(\d+)", said, re.M)), ()))


def machine_tag():
    """Of this machine. A Python for several, universal2, has a library for one here; the first macOS for ARM is 11."""
    system = sysconfig.get_platform()
    if found := re.fullmatch(r"macosx-(\d+)\.(\d+)-universal2", system):
        version = max((int(found[1]), int(found[2])), (11, 0) if platform.machine() == "arm64" else (0, 0))
        system = f"macosx-{version[0]}.{version[1]}-{platform.machine()}"
    return re.sub("[-.]", "_", system)


def system_tag(made, extended, is_made_here):
    """Of the system that these files ask for. Of glibc that is the highest version that they name, of musl the one that is here; what is made here
    is for this machine."""
    if target():
        rows = [line.split("\t") for line in (TOP / "packages/platforms/targets.tsv").read_text().splitlines()]
        return next((row[2] for row in rows if row[0] == target() and row[2]), None) or fail(f"there is no wheel for {target()}")
    if is_made_here or sys.platform != "linux":
        return machine_tag()
    if has_glibc():
        versions = [int(number) for number in re.findall(rb"GLIBC_2\.(\d+)", b"".join([made, *extended.values()]))]
        return f"manylinux_2_{max([17, *versions])}_{platform.machine()}"
    version = musl_version()
    return f"musllinux_{version}_{platform.machine()}" if version else machine_tag()


def tag(*how):
    return f"{'cp311-abi3' if how[1] else 'py3-none'}-{system_tag(*how)}"


def sources():
    files = sorted((HERE / PACKAGE).iterdir())
    return {f"{path.parent.name}/{path.name}": path.read_bytes() for path in files if path.suffix in (".py", ".pyi") or path.name == "py.typed"}


def record(files, name):
    """The rows of RECORD."""
    sums = {path: base64.urlsafe_b64encode(hashlib.sha256(content).digest()).rstrip(b"=").decode() for path, content in files.items()}
    return "".join(f"{path},sha256={sums[path]},{len(content)}\n" for path, content in files.items()) + f"{name},,\n"


def write_wheel(folder, tag, files, pure):
    """Writes the wheel of these files and what is said about them, and answers its name."""
    about = f"{named()}.dist-info"
    wheel = f"Wheel-Version: 1.0\nGenerator: {__name__}\nRoot-Is-Purelib: {str(pure).lower()}\nTag: {tag}\n"
    files = {**files, f"{about}/licenses/LICENSE": licence().encode()}
    files |= {f"{about}/METADATA": metadata().encode(), f"{about}/WHEEL": wheel.encode()}
    files[f"{about}/RECORD"] = record(files, f"{about}/RECORD").encode()
    name = f"{named()}-{tag}.whl"
    with zipfile.ZipFile(Path(folder) / name, "w", zipfile.ZIP_DEFLATED) as out:
        for path, content in files.items():
            entry = zipfile.ZipInfo(path, LATEST)
            entry.external_attr, entry.compress_type = 0o100644 << 16, zipfile.ZIP_DEFLATED
            out.writestr(entry, content)
    return name


def build_wheel(wheel_directory, config_settings=None, metadata_directory=None):
    (made, is_made_here), extended = library(), extension()
    files = {**sources(), **extended, f"{PACKAGE}/{library_name()}": made}
    return write_wheel(wheel_directory, tag(made, extended, is_made_here), files, False)


def build_editable(wheel_directory, config_settings=None, metadata_directory=None):
    """A wheel that names this folder, for `pip install -e`. The library is found where the package finds it in its tree, and called
    by ctypes."""
    return write_wheel(wheel_directory, "py3-none-any", {f"{PACKAGE}.pth": f"{HERE}\n".encode()}, True)


def build_sdist(sdist_directory, config_settings=None):
    """With the file of C that the library is made of, where whoever builds a wheel of it has none."""
    if not source():
        fail("there is no file of C: run packages/c/build --source")
    files = {**sources(), "PKG-INFO": metadata().encode(), "LICENSE": licence().encode()}
    for path in ("pyproject.toml", "README.md", "backend/fillaqut_build.py"):
        files[path] = (HERE / path).read_bytes()
    files |= {f"extension/{name}": content for name, content in extension_sources().items()}
    files |= {f"source/{path.name}": path.read_bytes() for path in source()}
    name = f"{named()}.tar.gz"
    with tarfile.open(Path(sdist_directory) / name, "w:gz", format=tarfile.PAX_FORMAT) as out:
        for path, content in files.items():
            entry = tarfile.TarInfo(f"{named()}/{path}")
            entry.size = len(content)
            out.addfile(entry, io.BytesIO(content))
    return name
