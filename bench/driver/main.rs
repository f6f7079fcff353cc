//! Runs the same calls of two builds side by side, on the same inputs and in the same loops; `bench/run` builds and
//! starts it.
//!
//! `side_by_side MODE real FILE [CALL..]`, `side_by_side MODE hostile [CALL..]` or `side_by_side MODE growth BYTES
//! [CALL..]`, where MODE is `check`, `time`, `allocations` or `callgrind`. A side is a set of C functions
//! `SIDE_CALL(text, its length, places, how many, rounds)`, each of which answers the sum of its answers. Those of
//! `ours` are linked in, where there are any; those of `reference`, of `c` and of `default`, which is ours as built by
//! default, are in the shared libraries that the variables REFERENCE, THROUGH_C and DEFAULT name, where they are set.
//! What a side lacks is left out.
//!
//! `growth` takes the hostile texts at about that many bytes, but for those that the variable LEFT_OUT names, as
//! `CALL|NAME|SIDE`, each in a line; it prints the bytes of a text in the place of how many places it has.
use std::ffi::{CStr, CString, c_char, c_int, c_ulong, c_void};
use std::hint::black_box;
use std::time::Instant;

mod entities;
mod inputs;
use inputs::Input;

type Function = unsafe extern "C" fn(*const u8, usize, *const usize, usize, usize) -> u64;

unsafe extern "C" {
    fn dlopen(path: *const c_char, how: c_int) -> *mut c_void;
    fn dlsym(library: *mut c_void, name: *const c_char) -> *mut c_void;
    fn dlerror() -> *const c_char;
    fn zero_instructions();
    fn dump_instructions(name: *const c_char);
    fn allocations() -> c_ulong;
    fn growths() -> c_ulong;
}

const RTLD_NOW: c_int = 2;
/// Times are the best of so many tries, each of at least so many seconds.
const TRIES: usize = 7;
const LEAST_SECONDS: f64 = 0.002;
/// From so many bytes on, one round is enough to count.
const LONG: usize = 5_000_000;

/// A build of the calls: this program itself, where no library is given.
struct Side {
    name: &'static str,
    /// What the names of its functions begin with.
    prefix: &'static str,
    library: *mut c_void,
}

impl Side {
    fn all() -> Vec<Side> {
        let mut all = vec![Side { name: "ours", prefix: "ours", library: std::ptr::null_mut() }];
        let others = [("REFERENCE", "reference", "reference"), ("THROUGH_C", "c", "c"), ("DEFAULT", "default", "ours")];
        for (variable, name, prefix) in others {
            if let Some(path) = std::env::var(variable).ok().filter(|path| !path.is_empty()) {
                let path = CString::new(path).expect("a path without a NUL");
                let library = unsafe { dlopen(path.as_ptr(), RTLD_NOW) };
                assert!(!library.is_null(), "{}", unsafe { CStr::from_ptr(dlerror()) }.to_string_lossy());
                all.push(Side { name, prefix, library });
            }
        }
        all
    }

    fn function(&self, call: &str, is_made: bool) -> Option<Function> {
        if self.name == "reference" && entities::names(call).is_some() {
            return Some(entities::by_halves);
        }
        // what C knows are all of HTML's entities; on hostile texts that changes no answer
        let call = match call {
            "entity" | "unescape" | "unescape_table" if self.name == "c" && is_made => &format!("{call}_html"),
            _ => call,
        };
        let name = CString::new(format!("{}_{call}", self.prefix)).expect("a name without a NUL");
        let found = unsafe { dlsym(self.library, name.as_ptr()) };
        (!found.is_null()).then(|| unsafe { std::mem::transmute::<*mut c_void, Function>(found) })
    }
}

fn run(function: Function, input: &Input, rounds: usize) -> u64 {
    let (text, at) = (&input.text, &input.at);
    black_box(unsafe { function(text.as_ptr(), text.len(), at.as_ptr(), at.len(), rounds) })
}

/// Seconds of one round of each side, which take turns; what no round costs is taken off.
fn seconds(functions: &[Function], input: &Input) -> Vec<f64> {
    let timed = |function, rounds| {
        let start = Instant::now();
        run(function, input, rounds);
        start.elapsed().as_secs_f64()
    };
    let enough = |function| {
        let doubled = std::iter::successors(Some(1), |rounds| Some(rounds * 2));
        doubled.take(20).find(|rounds| timed(function, *rounds) >= LEAST_SECONDS).unwrap_or(1 << 20)
    };
    let rounds: Vec<usize> = functions.iter().map(|function| enough(*function)).collect();
    let mut best = vec![[f64::MAX; 2]; functions.len()];
    for _ in 0..TRIES {
        for ((function, rounds), best) in functions.iter().zip(&rounds).zip(&mut best) {
            *best = [best[0].min(timed(*function, 0)), best[1].min(timed(*function, *rounds))];
        }
    }
    best.iter().zip(&rounds).map(|([none, all], rounds)| (all - none).max(0.0) / *rounds as f64).collect()
}

/// Allocations and growths of one round.
fn requests(function: Function, input: &Input) -> [u64; 2] {
    let counted = |rounds| {
        let before = unsafe { [allocations(), growths()] };
        run(function, input, rounds);
        let after = unsafe { [allocations(), growths()] };
        [after[0] - before[0], after[1] - before[1]]
    };
    let (none, one) = (counted(0), counted(1));
    [one[0] - none[0], one[1] - none[1]]
}

/// How many rounds callgrind counts: more where much is made before the first, which costs a little more or less each
/// time; fewer where a text alone is long enough.
fn counted_rounds(call: &str, is_long: bool) -> usize {
    match call {
        _ if is_long => 1,
        "label_eq" => 200,
        "label_hash" => 20,
        "clone_lent" | "clone_inlined" | "clone_boxed" | "tree_walk" => 10,
        _ => 1,
    }
}

/// Two dumps for callgrind, of no round and of some; their names tell what was run.
fn dump(function: Function, input: &Input, name: &str, counted: usize) {
    run(function, input, 0);
    for rounds in [0, counted] {
        let part = CString::new(format!("{name}|{rounds}")).expect("a name without a NUL");
        unsafe { zero_instructions() };
        run(function, input, rounds);
        unsafe { dump_instructions(part.as_ptr()) };
    }
}

/// The sum of the answers; of hashes none, as a hash may be any number.
fn sum_of(function: Function, call: &str, input: &Input) -> u64 {
    if call == "label_hash" { 0 } else { run(function, input, 1) }
}

/// Prints a line for a call on an input: both names, how many places or bytes, and one answer per side.
fn report(mode: &str, what: &str, call: &str, input: &Input, sides: &[&Side], places: usize) {
    let is_made = !matches!(what, "real" | "names");
    let found = sides.iter().filter_map(|side| Some((side.name, side.function(call, is_made)?)));
    let (names, functions): (Vec<&str>, Vec<Function>) = found.unzip();
    let answers: Vec<String> = match mode {
        "check" => functions.iter().map(|it| sum_of(*it, call, input).to_string()).collect(),
        "time" => seconds(&functions, input).iter().map(|it| format!("{:.1}", it * 1e9)).collect(),
        "allocations" => functions.iter().map(|it| requests(*it, input).map(|it| it.to_string()).join("+")).collect(),
        "callgrind" => {
            let counted = counted_rounds(call, input.text.len() >= LONG);
            for (name, function) in names.iter().zip(&functions) {
                dump(*function, input, &format!("{what}|{call}|{places}|{name}"), counted);
            }
            vec![]
        }
        _ => panic!("no such mode: {mode}"),
    };
    let answers: Vec<String> = names.iter().zip(answers).map(|(name, answer)| format!("{name}={answer}")).collect();
    println!("{what}\t{call}\t{places}\t{}", answers.join("\t"));
}

fn main() {
    let words: Vec<String> = std::env::args().collect();
    let (mode, what) = (words[1].as_str(), words[2].as_str());
    let only = &words[if what == "hostile" { 3 } else { 4 }..];
    let is_wanted = |call: &str| only.is_empty() || only.iter().any(|word| word == call);
    let all = Side::all();
    let sides: Vec<&Side> = all.iter().collect();
    // what is done once for a process, such as asking which processor this is, is done here
    let text = b"[a]: <b> \\& &amp; <!-- c --><?d?><![CDATA[e]]>\n---\nf: g\n---\n| - |\n".to_vec();
    let small = Input { at: (0..text.len()).collect(), text };
    for (call, _) in inputs::CALLS.iter().filter(|(call, _)| is_wanted(call)) {
        for function in sides.iter().filter_map(|side| side.function(call, true)) {
            run(function, &small, 1);
        }
    }
    match what {
        "real" => {
            let text = std::fs::read(&words[3]).expect("the text");
            for (call, _) in inputs::CALLS.iter().filter(|(call, _)| is_wanted(call)) {
                if let Some(input) = entities::names(call) {
                    report(mode, "names", call, &input, &sides, input.at.len());
                } else if let Some(input) = inputs::real(call, &text) {
                    report(mode, "real", call, &input, &sides, input.at.len());
                }
            }
        }
        "hostile" => {
            for hostile in inputs::hostile().iter().filter(|hostile| is_wanted(hostile.call)) {
                for size in [1, 2] {
                    let input = hostile.input(size);
                    report(mode, &format!("{} (x{size})", hostile.name), hostile.call, &input, &sides, input.at.len());
                }
            }
        }
        "growth" => {
            let bytes = words[3].parse().expect("a number of bytes");
            let left_out = std::env::var("LEFT_OUT").unwrap_or_default();
            for hostile in inputs::hostile().iter().filter(|hostile| is_wanted(hostile.call)) {
                let is_wanted = |side: &Side| {
                    let name = format!("{}|{}|{}", hostile.call, hostile.name, side.name);
                    !left_out.lines().any(|line| line == name)
                };
                let sides: Vec<&Side> = sides.iter().copied().filter(|side| is_wanted(side)).collect();
                if !sides.is_empty() {
                    let input = hostile.of_length(bytes);
                    report(mode, hostile.name, hostile.call, &input, &sides, input.text.len());
                }
            }
        }
        _ => panic!("no such inputs: {what}"),
    }
}
