"""One run of a built program under refuse.c, what became of it, and which builds are run."""
import os
import resource
import signal
import socket
import subprocess
import sys
import tempfile
from pathlib import Path

TOP = Path(__file__).resolve().parents[2]
sys.path.append(str(TOP / "docs"))
from crate_list import crates, made_of, sources

SECONDS = 60
# How the file of a build is called: as LLVM makes it, and as Rattle's own compiler does.
ENDS = ("", ".by-rattle")


class Run:
    """What a program wrote, its status, and what refuse.c reported of it: None where it reported nothing, as after a signal."""

    def __init__(self, out, err, status, report):
        self.out, self.err, self.status = out, err, status
        numbers = [line.split() for line in report.splitlines()]
        self.counts = {name: int(number) for name, number in numbers} or None

    def count(self, name):
        """The count of this name, or -1 where refuse.c reported nothing."""
        return self.counts[name] if self.counts else -1

    def same_as(self, other):
        return (self.out, self.err, self.status) == (other.out, other.err, other.status)

    def __str__(self):
        out = f"{self.out[:120]!r}.. of {len(self.out)} bytes" if len(self.out) > 120 else repr(self.out)
        return f"status {self.status}, output {out}, errors {self.err[:120]!r}, {self.counts}"


class Scan:
    """Words and input of a run of a program, and what it prints and answers with ample memory."""

    def __init__(self, name, words, given, out, status=0, err=b""):
        self.name, self.words, self.given = name, words.split(), given
        self.out, self.status, self.err = out, status, err

    def is_answered(self, run):
        return run.same_as(self)

    def no_memory(self):
        """What is said on standard error where memory is refused."""
        return b"out of memory\n"

    def no_words(self):
        """And where it is refused to the words of the command line."""
        return [b"out of memory\n", b"read fault\n"]

    def read_fault(self, number):
        """What is said where a read fails with this number."""
        return b"read fault\n"

    def write_fault(self, number):
        """What is said where a write fails with this number, or takes no byte, at 0."""
        return b"write fault\n"

    def is_front(self, out):
        """Whether so much of the output may be there where input or memory is refused: nothing."""
        return not out

    def is_written(self, out, writes, size):
        """Whether so many writes of so many bytes make this output."""
        return out == self.out[: writes * size]


def asked_of(named):
    """What is asked of refuse.c, as words of an environment."""
    return {f"FAULTS_{name.upper()}": str(value) for name, value in named.items()}


def prepared(closed, memory):
    """What the started process does before it becomes the program."""

    def prepare():
        if memory:
            resource.setrlimit(resource.RLIMIT_AS, (memory, memory))
        for file in closed:
            os.close(file)

    return prepare if closed or memory else None


class Loaded:
    """A program that is loaded once with its words and its input, and run as often as it is asked to, each time from its start."""

    def __init__(self, program, words, given):
        self.key = words, given
        self.files = [os.fdopen(os.memfd_create(name), "r+b", buffering=0) for name in ("given", "out", "err", "report")]
        self.socket, theirs = socket.socketpair(socket.AF_UNIX, socket.SOCK_SEQPACKET)
        self.socket.settimeout(SECONDS)
        given_to, out, err, report = self.files
        given_to.write(given)
        env = program.env | asked_of({"serve": theirs.fileno(), "tell": report.fileno()})
        how = {"stdin": given_to, "stdout": out, "stderr": err, "env": env, "pass_fds": [theirs.fileno(), report.fileno()]}
        self.process = subprocess.Popen([str(program.path), *words], start_new_session=True, **how)
        theirs.close()

    def run(self, asked):
        self.socket.send("\t".join(["", *map("=".join, asked_of(asked).items())]).encode() or b"\t")
        late = b""
        try:
            status = os.waitstatus_to_exitcode(int.from_bytes(self.socket.recv(4), sys.byteorder))
        except TimeoutError:
            status, late = -signal.SIGKILL, b"(it had not ended after %d seconds)" % SECONDS
            os.killpg(self.process.pid, signal.SIGKILL)
        out, err, report = (os.pread(file.fileno(), os.fstat(file.fileno()).st_size, 0) for file in self.files[1:])
        return Run(out, err + late, status, report.decode())

    def close(self):
        self.socket.close()
        self.process.wait()
        for file in self.files:
            file.close()


class Program:
    """A built program, or a command of it, run with the library of refuse.c preloaded."""

    def __init__(self, path, library, command=""):
        self.path, self.name = path, f"{path.name} {command}".strip()
        self.first = [command] if command else []
        self.env = {"LD_PRELOAD": str(library)}
        self.loaded = None

    def run(self, words, given=b"", **how):
        """Runs it. What is asked of refuse.c is named without FAULTS_, in lower case; the bytes given are its input. Where descriptors
        are closed or others, or memory is limited, it is loaded anew."""
        words = [*self.first, *words]
        if how.keys() & {"closed", "memory", "stdin", "stdout"}:
            return self.run_anew(words, given, **how)
        if not self.loaded or self.loaded.key != (words, given) or self.loaded.process.poll() is not None:
            self.unload()
            self.loaded = Loaded(self, words, given)
        return self.loaded.run(how)

    def unload(self):
        if self.loaded:
            self.loaded.close()
        self.loaded = None

    def run_anew(self, words, given, closed=(), memory=None, stdin=None, stdout=subprocess.PIPE, **asked):
        with tempfile.TemporaryFile() as file, tempfile.TemporaryFile() as report:
            file.write(given)
            file.seek(0)
            how = {"stdin": file if stdin is None else stdin, "stdout": stdout, "stderr": subprocess.PIPE}
            how |= {"env": self.env | asked_of({**asked, "tell": report.fileno()})}
            how |= {"pass_fds": [report.fileno()], "preexec_fn": prepared(closed, memory)}
            started = subprocess.Popen([str(self.path), *words], **how)
            try:
                out, err = started.communicate(timeout=SECONDS)
            except subprocess.TimeoutExpired:
                started.kill()
                out, err = started.communicate()
                err += b"(it had not ended after %d seconds)" % SECONDS
            report.seek(0)
            return Run(out or b"", err, started.returncode, report.read().decode())


class Tally:
    """How many checks were as they must be, and how many not."""

    def __init__(self):
        self.passed = self.failed = 0

    def check(self, name, well, run="", why=""):
        if well:
            self.passed += 1
            return
        self.failed += 1
        print(f"FAILED: {name}{f': {why}' if why else ''}{f': {run}' if run else ''}", flush=True)

    def add(self, other):
        self.passed, self.failed = self.passed + other.passed, self.failed + other.failed


def sources_of(program):
    """The sources of the program's crate and of each crate below it, as crates.txt has them."""
    if program not in crates():
        raise SystemExit(f"faults: crates.txt has no line of {program}")
    for crate in made_of(program):
        if not sources(crate):
            raise SystemExit(f"faults: {crate} has no sources, and {program} is made of it")
        yield from sources(crate)


def files_of(crate):
    return [TOP / "crates" / crate / "out" / f"{crate}{end}" for end in ENDS]


def why_missing(crate):
    """Why a build of the crate's program can't be run, or None: it isn't there, or is older than what it is made of."""
    newest = max(sources_of(crate), key=lambda path: path.stat().st_mtime)
    for path in files_of(crate):
        if not path.is_file():
            return f"{path} is not there"
        if path.stat().st_mtime < newest.stat().st_mtime:
            return f"{path} is older than its source {newest.relative_to(TOP)}"
    return None


def build(crate, words):
    """Proves the crate's program and builds it, by Rattle's own compiler and by LLVM."""
    print(f"proving and building {crate}", flush=True)
    by_llvm, by_rattle = files_of(crate)
    how = {"cwd": TOP / "crates" / crate, "stdin": subprocess.DEVNULL, "stdout": subprocess.PIPE, "stderr": subprocess.STDOUT}
    for flags in (["--backend", "rattle"], ["--backend", "llvm"]):
        ran = subprocess.run(["rt", "run", *flags, "--", *words], **how)
        if ran.returncode or not by_llvm.is_file():
            raise SystemExit(f"{ran.stdout.decode(errors='replace')}\nfaults: {crate} was not built")
        if "rattle" in flags:
            by_llvm.replace(by_rattle)
