"""Archives that have the same bytes for the same files, and what is wrong with one that may not."""
import gzip
import io
import tarfile
import zipfile
from pathlib import Path

SUFFIXES = (".tar.gz", ".tgz", ".crate", ".whl")


def is_archive(name):
    return name.endswith(SUFFIXES)


def compressed(content):
    """As gzip has it, without a time and a name."""
    return gzip.compress(content, 9, mtime=0)


def in_order(names):
    """The names folder by folder, as tar sorts them."""
    return sorted(names, key=lambda name: name.split("/"))


def pack(files, archive, time):
    """Writes an archive of these files, by the names that they have in it: sorted, without an owner, all of one time. A file is bytes, or the
    path of one, of which it is kept whether it can be run."""
    made = io.BytesIO()
    with tarfile.open(fileobj=made, mode="w", format=tarfile.USTAR_FORMAT) as out:
        for name in in_order(files):
            content, runs = files[name], False
            if isinstance(content, Path):
                content, runs = content.read_bytes(), content.stat().st_mode & 0o100
            entry = tarfile.TarInfo(name)
            entry.size, entry.mtime, entry.mode = len(content), time, 0o755 if runs else 0o644
            out.addfile(entry, io.BytesIO(content))
    archive.write_bytes(compressed(made.getvalue()))


def repack(archive, time):
    """Packs the files of an archive anew."""
    with tarfile.open(archive) as found:
        files = {entry.name: found.extractfile(entry).read() for entry in found.getmembers() if entry.isfile()}
    pack(files, archive, time)


def below(folder, top):
    """The files below a folder, by their names below another one."""
    return {f"{top}/{path.relative_to(folder)}": path for path in sorted(folder.rglob("*")) if path.is_file()}


def contents(content, name):
    """The files of an archive with their bytes, those of archives in it too."""
    if name.endswith(".whl"):
        found = zipfile.ZipFile(io.BytesIO(content))
        inside = {entry: found.read(entry) for entry in found.namelist() if not entry.endswith("/")}
    else:
        found = tarfile.open(fileobj=io.BytesIO(content))
        inside = {entry.name: found.extractfile(entry).read() for entry in found.getmembers() if entry.isfile()}
    for entry, text in inside.items():
        yield entry, text
        if is_archive(entry):
            yield from ((f"{entry}: {other}", text) for other, text in contents(text, entry))


def entry_faults(entry, time):
    """What says who packed it, and when."""
    if entry.uid or entry.gid or entry.uname not in ("", "root") or entry.gname not in ("", "root"):
        yield f"{entry.name} has an owner"
    if entry.mtime > time:
        yield f"{entry.name} is younger than the commit"
    if entry.name.startswith("/") or ".." in entry.name.split("/"):
        yield f"{entry.name} leads out of the archive"


def faults(archive, time, paths):
    """What differs from one making to another, or from one machine: owners, times after the commit's, and one of these paths in a file."""
    content, inside = archive.read_bytes(), 0
    if not archive.name.endswith(".whl"):
        if any(content[4:8]):
            yield "it has the time at which it was compressed"
        names = [entry.name.rstrip("/") for entry in tarfile.open(fileobj=io.BytesIO(content))]
        if archive.name.endswith(".tar.gz") and names != in_order(names):
            yield "its files are not sorted"
        for entry in tarfile.open(fileobj=io.BytesIO(content)):
            yield from entry_faults(entry, time)
    for name, text in contents(content, archive.name):
        inside += 1
        yield from (f"{name} has the path {path}" for path in paths if str(path).encode() in text)
    if not inside:
        yield "it is empty"
