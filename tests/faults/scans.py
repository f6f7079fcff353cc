"""Runs of cmark_scan and fillaqut blocks with memory, reads and writes refused: each has the output of the ample run, or status
3 and a word on why. What they are run on stands in inputs.py and pages.py, and is called `inputs` here."""
import errno
import os
import signal
import tempfile
from pathlib import Path

from page_program import reason

# How many bytes a read of a long input gives.
PAGE = 512
# How many reads and writes a run on a long input makes at least.
MANY = 100
HALF_GIBIBYTE = 1 << 29
TOO_MANY = 10_000
FAILING_READS = (errno.EIO, errno.EINTR, errno.EAGAIN)
FAILING_STEPS = (errno.EIO, errno.ENOSPC)
FAILING_WRITES = (errno.EPIPE, errno.ENOSPC, errno.EBADF, errno.EIO, 0)


def in_turn(program, scan, what, how, is_well, tally, **more):
    """Lets the first, second, .. of something fail, until a run makes fewer of it, which is as with nothing refused.
    Answers how many failed."""
    word, counted = how
    for n in range(1, TOO_MANY):
        run = program.run(scan.words, scan.given, **{word: n}, **more)
        if run.count(counted) < (1 if counted == "refused" else n):
            tally.check(f"{program.name} {scan.name}, {what}: fewer than {n}", run.counts and scan.is_answered(run), run)
            return n - 1
        tally.check(f"{program.name} {scan.name}, {what} {n}", is_well(run, n), run)
    tally.check(f"{program.name} {scan.name}, {what}: there is no end", False)
    return 0


def is_ended(run, word):
    return (run.out, run.err, run.status) == (b"", word, 3)


def is_stopped(scan, run, word):
    """Ended by a fault of the reader or of memory, with so much of the output as there may be then."""
    return (run.err, run.status) == (word, 3) and scan.is_front(run.out)


def refused_memory(program, scan, tally):
    ample = program.run(scan.words, scan.given)
    tally.check(f"{program.name} {scan.name}, with ample memory", scan.is_answered(ample) and ample.counts, ample)

    def is_well(run, n):
        says = scan.no_words() if n <= ample.count("at_first_read") else [scan.no_memory()]
        is_refused = any(is_stopped(scan, run, word) for word in says)
        return (is_refused or scan.is_answered(run)) and run.count("live") == ample.count("live")

    for how in ("refuse", "refuse_from"):
        refused = in_turn(program, scan, how, (how, "refused"), is_well, tally)
        tally.check(f"{program.name} {scan.name}, {how}: requests that were refused", refused > 0)


def for_words(run):
    """The requests for the words of the command line alone, of a run that makes others behind its first read."""
    return run.count("at_first_read" if run.count("reads") else "requests")


def other_words(program, inputs, tally):
    """Status 2 without a read, and with no request but those for the words themselves."""
    known = for_words(program.run(inputs.KNOWN))
    run = program.run(inputs.OTHER, b"x", read_fail=1)
    well = (run.out, run.err, run.status) == (b"", inputs.USAGE, 2) and run.counts and run.count("reads") == 0
    tally.check(f"{program.name}, other words", well and run.count("requests") == known, run)
    run = program.run(inputs.OTHER, b"x", refuse_from=known + 1)
    well = (run.out, run.err, run.status) == (b"", inputs.USAGE, 2)
    tally.check(f"{program.name}, other words without memory", well and run.counts, run)


def failing_reads(program, scan, least, tally, **more):
    """Each read fails in turn."""
    for number in FAILING_READS:
        what, word = f"read with {errno.errorcode[number]}", scan.read_fault(number)
        is_well = lambda run, _: is_stopped(scan, run, word)
        failed = in_turn(program, scan, what, ("read_fail", "reads"), is_well, tally, errno=number, **more)
        tally.check(f"{program.name} {scan.name}, {what}: reads that failed", failed >= least, why=f"{failed}")


def short_reads(program, scan, least, tally, **more):
    """Each read is short in turn."""
    is_well = lambda run, _: run.counts and scan.is_answered(run)
    short = in_turn(program, scan, "short read", ("read_short", "reads"), is_well, tally, **more)
    tally.check(f"{program.name} {scan.name}, reads that were short", short >= least, why=f"{short}")


def reads_of(program, scan, sizes, tally):
    """All reads are short."""
    for size in sizes:
        run = program.run(scan.words, scan.given, read_size=size)
        tally.check(f"{program.name} {scan.name}, reads of {size} bytes", run.counts and scan.is_answered(run), run)


def failing_writes(program, scan, size, numbers, tally):
    """Writes take so many bytes, and each fails in turn, is interrupted, or takes one byte. An interrupted write is made
    again."""
    writes = -(-len(scan.out) // size)
    rows = [(f"write with errno {number}", "write_fail", {"errno": number}) for number in numbers]
    rows += [("interrupted write", "write_fail", {"errno": errno.EINTR}), ("short write", "write_short", {})]
    for what, word, more in rows:
        is_fault = what.startswith("write")
        said = scan.write_fault(more.get("errno"))
        is_ended_at = lambda run, n: (run.err, run.status) == (said, 3) and scan.is_written(run.out, n - 1, size)
        is_well = lambda run, n: is_ended_at(run, n) if is_fault else scan.is_answered(run)
        made = in_turn(program, scan, what, (word, "writes"), is_well, tally, write_size=size, **more)
        tally.check(f"{program.name} {scan.name}, {what}: writes", made >= writes, why=f"{made} of {writes}")


def writes_of(program, scan, sizes, tally):
    for size in sizes:
        run = program.run(scan.words, scan.given, write_size=size)
        tally.check(f"{program.name} {scan.name}, writes of {size} bytes", run.counts and scan.is_answered(run), run)


def failing_errors(program, inputs, tally):
    """What becomes of the words on standard error changes no status."""
    for name, words, asked, status, parts in inputs.COMPLAINTS:
        run = program.run(words, error_fail=1, errno=errno.EIO, **asked)
        well = (run.out, run.err, run.status) == (b"", b"".join(parts[1:]), status) and run.count("errors") == len(parts)
        tally.check(f"{program.name}, {name} that can't be printed", well, run)
        run = program.run(words, closed=[2], errno=errno.EIO, **asked)
        tally.check(f"{program.name}, {name} with no standard error", (run.out, run.status) == (b"", status), run)


def real_faults(program, scan, tally):
    """Descriptors that the system itself refuses."""
    run = program.run(scan.words, closed=[0])
    tally.check(f"{program.name} {scan.name}, input closed", is_ended(run, scan.read_fault(errno.EBADF)), run)
    folder = os.open("/", os.O_RDONLY)
    run = program.run(scan.words, stdin=folder)
    os.close(folder)
    tally.check(f"{program.name} {scan.name}, a folder as input", is_ended(run, scan.read_fault(errno.EISDIR)), run)
    run = program.run(scan.words, scan.given, closed=[1])
    tally.check(f"{program.name} {scan.name}, output closed", is_ended(run, scan.write_fault(errno.EBADF)), run)
    with open("/dev/full", "wb") as full:
        run = program.run(scan.words, scan.given, stdout=full)
    tally.check(f"{program.name} {scan.name}, a full device as output", is_ended(run, scan.write_fault(errno.ENOSPC)), run)
    unread, pipe = os.pipe()
    os.close(unread)
    run = program.run(scan.words, scan.given, stdout=pipe)
    os.close(pipe)
    tally.check(f"{program.name} {scan.name}, a pipe that nobody reads", is_ended(run, scan.write_fault(errno.EPIPE)), run)


def endless_input(program, inputs, scan, tally):
    if most := getattr(inputs, "READS", None):
        run = program.run(scan.words, endless=1)
        well = is_ended(run, scan.read_fault(0)) and run.count("reads") == most
        tally.check(f"{program.name} {scan.name}, endless input a byte a read", well, run)
    run = program.run(scan.words, endless=4096, memory=HALF_GIBIBYTE)
    well = is_ended(run, scan.no_memory()) and run.count("reads") > 0
    tally.check(f"{program.name} {scan.name}, endless input in half a gibibyte", well, run)


def in_small_memory(program, scan, size, tally):
    run = program.run(scan.words, scan.given, memory=size)
    tally.check(f"{program.name} {scan.name}, in {size} bytes of memory", run.counts and scan.is_answered(run), run)


def without_input(program, scan, tally):
    """Words whose answer wants no input: nothing is read, and beside the words themselves nothing asks for memory."""
    run = program.run(scan.words, closed=[0])
    tally.check(f"{program.name} {scan.name}, no input", scan.is_answered(run) and run.count("reads") == 0, run)
    run = program.run(scan.words, refuse_from=run.count("requests") + 1)
    tally.check(f"{program.name} {scan.name}, without memory", scan.is_answered(run), run)
    writes_of(program, scan, (1, 7), tally)
    failing_writes(program, scan, 7, FAILING_WRITES, tally)


def named_files(program, inputs, tally):
    """Files that the words name, and `-`, with a page of one paragraph as input."""
    for name, words, out, err, status in inputs.NAMED:
        run = program.run(words, b"a")
        tally.check(f"{program.name}, {name}", (run.out, run.err, run.status) == (out, err, status), run)


def cut_page(program, scan, tally):
    """A page in two parts, cut at each place."""
    for size in range(1, len(scan.given)):
        run = program.run(scan.words, scan.given, read_first=size)
        tally.check(f"{program.name} {scan.name}, cut after {size} bytes", run.counts and scan.is_answered(run), run)


def broken_page(program, scan, tally):
    """A page whose first read gives all that is given, and whose second fails: as input, and as a file. And a file that can't be opened,
    after one that is printed."""
    second = 2 if scan.given else 1
    run = program.run(scan.words, scan.given, read_fail=second, errno=errno.EIO)
    tally.check(f"{program.name} {scan.name}", (run.out, run.err, run.status) == (scan.out, scan.read_fault(errno.EIO), 3), run)
    with tempfile.NamedTemporaryFile() as file:
        file.write(scan.given)
        file.flush()
        fault = b"%s: %s: %%s\n" % (scan.program, os.fsencode(file.name))
        run = program.run([file.name], file_fail=second, errno=errno.EIO)
        well = (run.out, run.err, run.status) == (scan.out, fault % reason(errno.EIO), 3)
        tally.check(f"{program.name} {scan.name}, in a file", well, run)
        whole = program.run([file.name])
        for number in (errno.EACCES, errno.EMFILE):
            run = program.run([file.name, file.name], open_fail=2, errno=number)
            well = (run.out, run.err, run.status) == (whole.out, fault % reason(number), 3) and whole.status == 0
            tally.check(f"{program.name} {scan.name}, before a file that is not opened: {errno.errorcode[number]}", well, run)


class Replaced:
    """A file alone in its folder, and what becomes of it by --write."""

    def __init__(self, program, case, scratch):
        self.program = program
        self.name, self.before, self.after, notes, self.status = case
        self.file = Path(scratch) / "page.md"
        self.notes = notes.replace(b"%s", os.fsencode(self.file))

    def run(self, **asked):
        self.file.write_bytes(self.before)
        self.file.chmod(0o640)
        return self.program.run(["--write", str(self.file)], **asked)

    def holds(self, held):
        """The file holds this, has its permissions, and stands alone."""
        is_alone = [path.name for path in self.file.parent.iterdir()] == [self.file.name]
        return is_alone and self.file.read_bytes() == held and self.file.stat().st_mode & 0o777 == 0o640

    def is_done(self, run):
        return (run.out, run.err, run.status) == (b"", self.notes, self.status) and self.holds(self.after)

    def is_refused(self, run, number):
        said = b"fillaqut: %s: not replaced: %s\n" % (os.fsencode(self.file), reason(number))
        return (run.out, run.err, run.status) == (b"", self.notes + said, 3) and self.holds(self.before)

    def copies(self):
        """What the files hold that are beside it, by their names."""
        return {path.name: path.read_bytes() for path in self.file.parent.iterdir() if path != self.file}

    def is_left_with_a_copy(self, run, number):
        said = b"fillaqut: %s: written in part; what it held is in a file beside it: %s\n"
        said %= (os.fsencode(self.file), reason(number))
        return (run.out, run.err, run.status) == (b"", self.notes + said, 3) and self.copies() == {".page.md.0.old": self.before}

    def is_whole(self):
        """The text that it held, or that it gets, is whole: in the file, or in the copy."""
        held, copies = self.file.read_bytes(), self.copies()
        return held in (self.before, self.after) or copies == {".page.md.0.old": self.before}

    def clear(self):
        for name in self.copies():
            (self.file.parent / name).unlink()

    def is_without_memory(self, run):
        """Refused before or after it is said what is left as it is."""
        return run.out == b"" and run.status == 3 and run.err.startswith((self.notes, b"fillaqut: ")) and self.holds(self.before)


def failing_steps(program, case, number, tally):
    """Each step that replaces a file fails in turn; then the file stands as it was. An interrupted one but the last is made again."""
    with tempfile.TemporaryDirectory() as scratch:
        replaced = Replaced(program, case, scratch)
        for n in range(1, TOO_MANY):
            run = replaced.run(step_fail=n, errno=number, write_size=5)
            what = f"{program.name} {replaced.name}, step {n} with {errno.errorcode[number]}"
            if run.count("steps") < n:
                tally.check(f"{what}: fewer", run.counts and replaced.is_done(run), run)
                break
            is_again = number == errno.EINTR and replaced.is_done(run)
            tally.check(what, is_again or replaced.is_refused(run, number), run)
        least = 0 if replaced.before == replaced.after else 7 + len(replaced.before) // 5 + len(replaced.after) // 5
        tally.check(f"{program.name} {replaced.name}, steps that failed", n > least, why=f"{n} of {least}")


def cut_off(program, case, tally):
    """All steps that replace a file fail from each on, or the program is killed at it: what the file held stays whole, in it or in a copy."""
    with tempfile.TemporaryDirectory() as scratch:
        replaced = Replaced(program, case, scratch)
        for n in range(1, replaced.run(write_size=5).count("steps") + 1):
            run = replaced.run(step_from=n, errno=errno.ENOSPC, write_size=5)
            well = replaced.is_refused(run, errno.ENOSPC) or replaced.is_left_with_a_copy(run, errno.ENOSPC)
            tally.check(f"{program.name} {replaced.name}, steps from {n} on", well, run)
            replaced.clear()
            run = replaced.run(step_kill=n, write_size=5)
            tally.check(f"{program.name} {replaced.name}, killed at step {n}", run.status == -signal.SIGKILL and replaced.is_whole(), run)
            replaced.clear()


def changed_meanwhile(program, case, tally):
    """The file gets one more byte when its copy is made; then it stands with that."""
    with tempfile.TemporaryDirectory() as scratch:
        replaced = Replaced(program, case, scratch)
        run = replaced.run(change=replaced.file)
        said = b"fillaqut: %s: not replaced: it has changed since it was read\n" % os.fsencode(replaced.file)
        stands = run.err == replaced.notes + said and run.status == 3 and replaced.holds(replaced.before + b"\n")
        well = replaced.is_done(run) if replaced.before == replaced.after else stands
        tally.check(f"{program.name} {replaced.name}, changed meanwhile", well, run)


def replaced_without_memory(program, case, tally):
    """Each request for memory is refused in turn; then the file stands as it was."""
    with tempfile.TemporaryDirectory() as scratch:
        replaced = Replaced(program, case, scratch)
        for how in ("refuse", "refuse_from"):
            for n in range(1, TOO_MANY):
                run = replaced.run(**{how: n})
                if run.count("refused") < 1:
                    tally.check(f"{program.name} {replaced.name}, replaced, {how}: fewer than {n}", run.counts and replaced.is_done(run), run)
                    break
                well = replaced.is_done(run) or replaced.is_without_memory(run)
                tally.check(f"{program.name} {replaced.name}, replaced, {how} {n}", well and run.count("live") == 0, run)
            tally.check(f"{program.name} {replaced.name}, replaced, {how}: requests that were refused", n > 1)


def run_scans(program, inputs, tally):
    for scan in inputs.SMALL + inputs.large():
        refused_memory(program, scan, tally)
    for scan in inputs.UNREAD:
        without_input(program, scan, tally)
    for scan in inputs.SMALL:
        failing_reads(program, scan, 1, tally)
        short_reads(program, scan, 1, tally)
        reads_of(program, scan, (1, 7, 4095), tally)
        writes_of(program, scan, (1, 7), tally)
        failing_writes(program, scan, 1, FAILING_WRITES, tally)
    for scan in inputs.long():
        failing_reads(program, scan, MANY, tally, read_size=PAGE)
        short_reads(program, scan, MANY, tally, read_size=PAGE)
        failing_writes(program, scan, len(scan.out) // MANY, (errno.ENOSPC, 0), tally)
    for scan in getattr(inputs, "passing", list)():
        in_small_memory(program, scan, inputs.SMALL_MEMORY, tally)
    for scan in inputs.large():
        reads_of(program, scan, (4095,), tally)
        writes_of(program, scan, (4095,), tally)
    other_words(program, inputs, tally)
    failing_errors(program, inputs, tally)
    named_files(program, inputs, tally)
    for scan in getattr(inputs, "CUT", []):
        cut_page(program, scan, tally)
        reads_of(program, scan, (1,), tally)
    for scan in getattr(inputs, "BROKEN", []):
        broken_page(program, scan, tally)
    for case in getattr(inputs, "REPLACED", []):
        for number in (*FAILING_STEPS, errno.EINTR):
            failing_steps(program, case, number, tally)
        cut_off(program, case, tally)
        changed_meanwhile(program, case, tally)
        replaced_without_memory(program, case, tally)
    for scan in inputs.PLAIN:
        real_faults(program, scan, tally)
        endless_input(program, inputs, scan, tally)
