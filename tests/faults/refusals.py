"""The cases of tests_refusals: each request refused in turn, alone or with all that follow it.

The file `cases` names them, and says how many calls of each must be seen refused.
"""

READY = b"ready\n"
TOO_MANY = 10_000


class Case:
    """A case, what it prints with ample memory, and how many of its calls must be seen refused; None where no call of it
    asks for memory."""

    def __init__(self, name, wanted, calls):
        self.name, self.wanted, self.calls = name, wanted, calls


def sections(text):
    """What the stored run has for each case, by its name."""
    parts = text.split(b"case ")[1:]
    return {part.split(b"\n")[0].decode(): b"case " + part for part in parts}


def cases_of(top):
    """The cases, which the file `cases` and the stored run must both have, in one order."""
    rows = [line.split() for line in (top / "tests/faults/cases").read_text().splitlines() if not line.startswith("#")]
    stored = sections((top / "crates/tests_refusals/stdout").read_bytes())
    named = [name for name, _ in rows]
    if named != list(stored) or not named:
        missing = sorted(set(named) ^ set(stored)) or named
        raise SystemExit(f"faults: the file cases and the stored run of tests_refusals don't name the same cases: {' '.join(missing)}")
    return [Case(name, stored[name], None if calls == "none" else int(calls)) for name, calls in rows]


def without_refusals(out):
    """The output without the lines that report a refusal, and which calls these are. Such a line stands after `ready`,
    and has the state that was printed before it."""
    kept, calls, lines = [], [], out.splitlines(keepends=True)
    for at, line in enumerate(lines):
        before_it = lines[at - 2 : at] if at > 1 else []
        before = before_it[0].removeprefix(b"before ") if before_it else b""
        if before_it and before_it[1] == READY and before_it[0] != before and line == b"refused " + before:
            calls.append(kept.count(READY))
        else:
            kept.append(line)
    return b"".join(kept), calls


def calls_refused(run, ample, are_all_refused):
    """The calls that were refused, in a run that is as it must be: with the ample answer, or with that after a refusal, or
    ended by a refusal of what a case is made of. None in a third outcome."""
    out, calls = without_refusals(run.out)
    if run.err or len(calls) > 1 or run.counts is None or run.counts["live"] != ample.counts["live"]:
        return None
    if run.status == 0 and out == ample.out and not (are_all_refused and calls):
        return calls
    whole_lines = run.out == b"" or run.out.endswith(b"\n")
    if run.status != 3 or not whole_lines or not ample.out.startswith(out) or run.out.endswith(READY):
        return None
    # where all is refused, so is the second call; and else a refused call has its answer after it
    ends_in_refusal = out.endswith(READY)
    return calls if bool(calls) == ends_in_refusal and are_all_refused >= bool(calls) else None


def refused_in_turn(program, case, how, ample, tally):
    """Refuses the first, second, .. request until a run makes fewer. Answers which calls were refused."""
    seen = set()
    for n in range(1, TOO_MANY):
        run = program.run([case.name], **{how: n})
        calls = calls_refused(run, ample, how == "refuse_from")
        tally.check(f"{program.name} {case.name}, {how} {n}", calls is not None, run)
        if run.count("refused") < 1:
            tally.check(f"{program.name} {case.name}, with nothing refused at {n}", run.counts and run.same_as(ample), run)
            return seen
        seen.update(calls or [])
    tally.check(f"{program.name} {case.name}, {how}: there is no end", False)
    return seen


def run_case(program, case, tally):
    ample = program.run([case.name])
    well = (ample.out, ample.err, ample.status) == (case.wanted, b"", 0)
    tally.check(f"{program.name} {case.name}, with ample memory", well, ample)
    tally.check(f"{program.name} {case.name}, what refuse.c reported", ample.counts is not None, ample)
    if not ample.counts:
        return
    turns = [refused_in_turn(program, case, how, ample, tally) for how in ("refuse", "refuse_from")]
    seen = set().union(*turns)
    tally.check(f"{program.name} {case.name}, calls that were refused", len(seen) == (case.calls or 0), why=f"{len(seen)}")
    if case.calls is None:
        without_memory(program, case, ample, tally)
    if case.name.endswith("_900"):
        ask_once(program, case, ample, tally)


def without_memory(program, case, ample, tally):
    """Nothing is asked for after `ready`, and all may be refused from there on."""
    ready = ample.counts["at_ready"]
    tally.check(f"{program.name} {case.name}, requests after `ready`", ample.counts["requests"] == ready, ample)
    run = program.run([case.name], refuse_from=ready + 1)
    tally.check(f"{program.name} {case.name}, all refused after `ready`", run.counts and run.same_as(ample), run)


def ask_once(program, case, ample, tally):
    """A call that measures its text first asks for memory once, for its 900 bytes: the first request refused, it is refused;
    the second refused, there is none."""
    ready = ample.counts["at_ready"]
    once = ample.counts["requests"] == ready + 1 and ample.counts["last_size"] == 900
    tally.check(f"{program.name} {case.name}, requests of the call", once, ample)
    first, second = (program.run([case.name], refuse=ready + n) for n in (1, 2))
    well = calls_refused(first, ample, False) == [1]
    tally.check(f"{program.name} {case.name}, its first request refused", well, first)
    well = second.same_as(ample) and second.count("refused") == 0
    tally.check(f"{program.name} {case.name}, its second request refused", well, second)


def run_cases(program, cases, tally):
    """Runs each case, and once the program without a name: it has these cases and no others."""
    run = program.run([])
    whole = (b"".join(case.wanted for case in cases), b"", 0)
    tally.check(f"{program.name}, all cases", (run.out, run.err, run.status) == whole, run)
    for case in cases:
        run_case(program, case, tally)
