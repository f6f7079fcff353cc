"""What bench/run and bench/growth share: builds the calls and the program that runs them, has it measure, and prints tables.

What stands beside our calls is named by a variable of the program's environment: REFERENCE, THROUGH_C or DEFAULT.
"""
import glob
import math
import os
import shutil
import subprocess
import sys

HERE = os.path.dirname(os.path.realpath(__file__))
BENCH = f"{HERE}/../crates/bench_calls"
C = f"{HERE}/../packages/c"
CALLGRIND = "/usr/include/valgrind/callgrind.h"
# what may stand beside our calls: the variable that names its library, the side of the driver, the name in the table
SIDES = {
    "REFERENCE": ("reference", "pulldown-cmark"),
    "THROUGH_C": ("c", "through C"),
    "DEFAULT": ("default", "default"),
}
# rows whose ratio is below this are counted, and times whose ratio is below that are marked
LEAST = {"real": 1, "hostile": 0.9}
SLOW = 0.7


def stop(why):
    sys.exit(f"{os.path.relpath(sys.argv[0])}: {why}")


def run(words, log, **more):
    """Runs a command; its output is shown where it fails."""
    with open(log, "w") as out:
        if subprocess.run(words, stdout=out, stderr=subprocess.STDOUT, **more).returncode:
            stop(f"{words[0]} failed:\n" + "".join(open(log, errors="replace").readlines()[-40:]))


def kit_c():
    """The folder of the kit's own C, which calls malloc, realloc and free."""
    kit = subprocess.run(["rt", "doc"], capture_output=True, text=True, check=True).stdout.strip()
    return f"{os.path.dirname(kit)}/c"


def build_calls(scratch, cpu=None, crate=BENCH):
    """Proves and builds the calls; the folder of their archive. What is left in the tree is as built by default."""
    prove = [f"{HERE}/../docs/kit.py", os.path.basename(crate), "--archive"]
    if cpu:
        run([*prove, f"{scratch}/libbench_calls.a", f"--cpu={cpu}"], f"{scratch}/kit.log")
    run([*prove, f"{crate}/out/libbench_calls.a"], f"{scratch}/kit.log")
    return scratch if cpu else f"{crate}/out"


def build(scratch, cpu=None, with_ours=True, crate=BENCH):
    """Builds the calls of the crate, and the program that runs them; or that program for others alone."""
    shared = ["gcc", "-O2", "-shared", "-fPIC", "-o", f"{scratch}/count_allocations.so"]
    run([*shared, f"{HERE}/driver/count_allocations.c"], f"{scratch}/gcc.log")
    counts = ["-DWITH_CALLGRIND"] if has_callgrind() else []
    run(["gcc", "-O2", "-c", *counts, "-o", f"{scratch}/requests.o", f"{HERE}/driver/requests.c"], f"{scratch}/gcc.log")
    links = ["-C", f"link-arg={scratch}/requests.o", "-C", "link-arg=-rdynamic"]
    if with_ours:
        links += ["-L", f"native={build_calls(scratch, cpu, crate)}", "-l", "static:+whole-archive=bench_calls"]
        links += ["-L", f"native={kit_c()}", "-l", "static=libc_c"]
    program = ["rustc", "--edition", "2024", "-O", "-o", f"{scratch}/side_by_side", f"{HERE}/driver/main.rs"]
    run([*program, *links], f"{scratch}/rustc.log")


def build_default(scratch):
    """Our calls as built by default, as a library that calls its own functions."""
    made = f"{scratch}/libdefault.so"
    whole = ["-Wl,--whole-archive", f"{BENCH}/out/libbench_calls.a", "-Wl,--no-whole-archive"]
    run(["gcc", "-shared", "-Wl,-Bsymbolic", "-o", made, *whole, f"{kit_c()}/liblibc_c.a"], f"{scratch}/gcc.log")
    return made


def build_through_c(scratch):
    """The C functions in the same loops: a library over the archive that `packages/c/build` makes."""
    run([f"{C}/build"], f"{scratch}/c.log")
    sources = [f"{HERE}/driver/through_c.c", f"{HERE}/../out/libfillaqut.a"]
    made = f"{scratch}/libthrough_c.so"
    run(["gcc", "-std=c99", "-O2", "-shared", "-fPIC", f"-I{C}/include", "-o", made, *sources], f"{scratch}/gcc.log")
    return made


def has_callgrind():
    return os.path.exists(CALLGRIND) and shutil.which("valgrind")


def sides(scratch, mode, inputs, calls, env):
    """{(input, call): (places, {side: answer})}, as the program prints them."""
    words = [f"{scratch}/side_by_side", mode, *inputs, *calls]
    done = subprocess.run(words, env={**os.environ, **env}, stdout=subprocess.PIPE, text=True)
    if done.returncode:
        stop(f"{' '.join(words)} ended with {done.returncode}")
    lines = [line.split("\t") for line in done.stdout.splitlines()]
    return {(line[0], line[1]): (int(line[2]), dict(pair.split("=") for pair in line[3:] if pair)) for line in lines}


def instructions(scratch, inputs, calls, env, lane=""):
    """{(input, call): {side: instructions of a round}}: what no round costs is taken off."""
    out = f"{scratch}/callgrind{lane}"
    for path in glob.glob(f"{out}.*"):
        os.remove(path)
    program = [f"{scratch}/side_by_side", "callgrind", *inputs, *calls]
    words = ["valgrind", "-q", "--tool=callgrind", f"--callgrind-out-file={out}", *program]
    run(words, f"{scratch}/valgrind{lane}.log", env={**os.environ, **env})
    totals = {}
    for path in glob.glob(f"{out}.*"):
        part = total = None
        for line in open(path, errors="replace"):
            if line.startswith("desc: Trigger: Client Request: "):
                part = line.split(": ", 3)[3].rstrip("\n")
            elif line.startswith("totals:"):
                total = int(line.split()[1])
        if part and total is not None:
            what, call, _, side, rounds = part.rsplit("|", 4)
            totals.setdefault((what, call), {}).setdefault(side, {})[int(rounds)] = total
    def cost(by_rounds):
        return (by_rounds[max(by_rounds)] - by_rounds[0]) / max(by_rounds)

    return {key: {side: max(cost(item), 1) for side, item in by_side.items()} for key, by_side in totals.items()}


def number(value):
    """With two digits at least."""
    if value is None:
        return "–"
    if value <= 0:
        return "0"
    return f"{value:.{0 if value >= 100 else 2 if value >= 0.1 else 1 - math.floor(math.log10(value))}f}"


def table(head, rows):
    lines = [head, ["---", "---"] + ["---:"] * (len(head) - 2), *rows]
    return "\n".join(f"| {' | '.join(cell.replace('|', '&#124;') for cell in line)} |" for line in lines)


def titles():
    """What each benchmark calls, as the program knows it."""
    text = open(f"{HERE}/driver/inputs.rs", encoding="utf-8").read()
    lines = text.split("CALLS: &[(&str, &str)] = &[")[1].split("];")[0].splitlines()
    return dict(line.strip(' (),"').split('", "') for line in lines if line.strip())


def growth(cost, key, side):
    """How often a cost doubles where the input does."""
    small = cost.get((key[0].replace("(x2)", "(x1)"), key[1]), {})
    if not key[0].endswith("(x2)") or side not in small:
        return None
    return max(math.log2(cost[key][side] / small[side]), 0)


def row(key, title, places, measured, others):
    """A line of the table, and its ratios: of instructions, or of times where these were not counted."""
    cost, times, heap = measured
    def per_call(by_key, side):
        return float(by_key[key][side]) / max(places, 1) if side in by_key.get(key, {}) else None

    def ratios(by_key):
        ours = per_call(by_key, "ours")
        return [other / ours if other and ours else None for other in (per_call(by_key, side) for side in others)]

    cells = [title, key[0].replace(" (x2)", ", twice"), str(places)]
    for side in ["ours", *others]:
        cells += [number(per_call(times, side)), number(per_call(cost, side)), heap[key].get(side, "–")]
        cells += [number(growth(cost, key, side))] if "(x" in key[0] else []
    for by_cost, by_time in zip(ratios(cost), ratios(times)):
        cells += [number(by_cost), f"**{number(by_time)}**" if is_slow(by_time) else number(by_time)]
    return ratios(cost or times), ratios(times), cells


def is_slow(by_time):
    """Whether a ratio of times is so low that no noise explains it."""
    return by_time is not None and by_time < SLOW


def counted(rows, others, least):
    """A line for each side: how many rows are below 1, or below 0.9 for made texts; and how many are slow."""
    for index, name in enumerate(others.values()):
        ratios = [row[0][index] for row in rows if row[0][index] is not None]
        below = sum(ratio < least for ratio in ratios)
        slow = sum(is_slow(row[1][index]) for row in rows)
        yield f"Beside {name}: {below} of {len(ratios)} rows below {least:.2f}; {slow} below {SLOW:.2f} by time."


def report(scratch, inputs, calls, env):
    names = titles()
    cost = instructions(scratch, inputs, calls, env) if has_callgrind() else {}
    answers = sides(scratch, "check", inputs, calls, env)
    others = dict(SIDES[name] for name in SIDES if name in env)
    wanted = [key for key in answers if not key[0].endswith("(x1)") and ("c" not in others or "c" in answers[key][1])]
    missing = sorted(set(calls) - {call for _, call in wanted}) or ([] if wanted else ["any call"])
    if missing:
        stop(f"there is nothing to measure of {' '.join(missing)}")
    def pick(mode, **more):
        return {key: item for key, (_, item) in sides(scratch, mode, inputs, calls, {**env, **more}).items()}

    measured = cost, pick("time"), pick("allocations", LD_PRELOAD=f"{scratch}/count_allocations.so")
    columns = ["ns", "instructions", "allocations + growths"] + (["growth"] if inputs[0] == "hostile" else [])
    head = ["call", "input", "places"] + columns
    head += [f"{name}: {column}" for name in others.values() for column in columns]
    ratios = ["ratio", "ratio of times"]
    head += ratios if len(others) == 1 else [f"{name}: {ratio}" for name in others.values() for ratio in ratios]
    rows = [row(key, names[key[1]], answers[key][0], measured, others) for key in wanted]
    rows.sort(key=lambda row: [ratio if ratio is not None else math.inf for ratio in row[0]])
    print(table(head, [cells for _, _, cells in rows]))
    differ = [f"{call} on {what}" for (what, call), (_, sums) in answers.items() if len(set(sums.values())) > 1]
    if others and not any(len(sums) > 1 for _, sums in answers.values()):
        stop("no answer was compared")
    if others:
        print("", *counted(rows, others, LEAST[inputs[0]]), f"Answers differ: {', '.join(differ) or 'nowhere'}.", sep="\n")
