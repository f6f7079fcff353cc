"""What the programs that print something of each page have in common: their words, what they say of a fault, and what becomes of
their output then."""
import errno
import sys

from program_runs import TOP, Scan

sys.path.append(str(TOP / "tests/rows"))
from rows import stored_run

# What is said of a fault, by its number; of any other, that it is an error of input or output.
REASONS = {
    errno.EINTR: b"Interrupted system call",
    errno.EAGAIN: b"Resource temporarily unavailable",
    errno.EACCES: b"Permission denied",
    errno.EISDIR: b"Is a directory",
    errno.ENOSPC: b"No space left on device",
    errno.EDQUOT: b"Disk quota exceeded",
    errno.EFBIG: b"File too large",
    errno.EROFS: b"Read-only file system",
    errno.EBUSY: b"Device or resource busy",
    errno.ETXTBSY: b"Text file busy",
    errno.EEXIST: b"File exists",
    errno.EXDEV: b"Invalid cross-device link",
    errno.EMFILE: b"Too many open files",
}

# So many containers in each other take more memory than the first request gives room.
DEEP = 40

# Words that are answered, and as many that are not.
KNOWN, OTHER = ["--help"], ["--hepl"]


def reason(number):
    return REASONS.get(number, b"Input/output error")


class Page(Scan):
    """A page of which something is printed. A class for each command says its name."""

    program, command = b"fillaqut", ""

    def no_memory(self):
        return b"%s: out of memory\n" % self.program

    def no_words(self):
        return [self.no_memory()]

    def read_fault(self, number):
        return b"%s: standard input: %s\n" % (self.program, reason(number))

    def write_fault(self, number):
        """Nothing where nobody reads the output."""
        return b"" if number == errno.EPIPE else b"%s: write error: %s\n" % (self.program, reason(number))

    def is_written(self, out, writes, size):
        """The last write of a part takes fewer bytes."""
        return self.out.startswith(out) and len(out) <= writes * size


def usage_of(usage):
    """What is said of an option that is not known, where this is the usage."""
    return b"%s: unknown option --hepl\n%s" % (Page.program, usage)


def complaints_of(usage):
    """What is printed on standard error: by which words, under what, with which status, and in which writes."""
    program = Page.program
    return [
        ("other words", OTHER, {}, 2, [program, *usage_of(usage).removeprefix(program).partition(b"--hepl")]),
        ("a read fault", [], {"read_fail": 1}, 3, [program, b": ", b"standard input", b": Input/output error\n"]),
    ]


def unread_of(kind):
    """Words of the program whose answer wants no input."""
    shown = (TOP / f"crates/fillaqut/help/{kind.command}.txt").read_bytes()
    return [kind("help", "--help", b"", shown), kind("version", "--version", b"", b"%s " % kind.program + (TOP / "VERSION").read_bytes())]


def not_text_of(program, offset):
    """What is said of standard input that is not UTF-8, where so many bytes stand before the first that is wrong."""
    return b"%s: standard input: not UTF-8: wrong byte at offset %d\n" % (program, offset)


def named_of(kind, a_paragraph, under=lambda name, shown: shown, notes=lambda name: b""):
    """Words that name files, and what is then printed, said on standard error, and answered; with what is printed of `a`, how that
    of a page is printed under its name, and what is said of it. After a file that it can't read the program goes on."""
    folder = TOP / "crates/fillaqut/runs" / kind.command
    run, file = stored_run(folder), str(folder / "stdin")
    words, shown, said = run.words.split(), under(file, run.printed), notes(file)
    return [
        ("a file", [*words, file], shown, said, 0),
        ("a file between the input and itself", [*words, file, "-", "--", file], shown + a_paragraph + shown, said + said, 0),
        ("no such file", [*words, file, "none", file], shown + shown, b"%s%s: none: No such file or directory\n" % (said, kind.program) + said, 3),
        ("a folder", [*words, "/", file], shown, b"%s: /: Is a directory\n" % kind.program + said, 3),
    ]
