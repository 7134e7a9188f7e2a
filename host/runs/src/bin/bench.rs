//! Times the same scripts on the original and on the library, turn by turn, and prints nanoseconds a call with their ratios: of the
//! public calls, which check the shape of all words first, and of the unchecked calls, which are the same without the check.

use imbolaverk::Store;
use imbolaverk_runs::generate::solving;
use imbolaverk_runs::original::{run, takes};
use imbolaverk_runs::script::Call;
use std::collections::BTreeMap;
use std::hint::black_box;
use std::time::Instant;

const USAGE: &str = "\
usage: bench [TURNS [REPEATS]]

Times the original, which host/original.sh builds, and the library, TURNS times each (7 if left out) over REPEATS runs of a script (40),
and prints the medians.

  --help, -h  this text
  --version   the version";

/// The unchecked calls, of `libunchecked.a`: nothing tests their precondition, a store of sound shape, so they are for this program alone.
mod unchecked {
    extern "C" {
        pub fn unchecked_sound(s: *const u32, n: usize) -> u32;
        pub fn unchecked_register(
            s: *mut u32,
            n: usize,
            parent: u32,
            kind: u32,
            requirement: u32,
            condition: u32,
            clause: u32,
        ) -> u32;
        pub fn unchecked_assign(s: *mut u32, n: usize, variable: u32, value: u32, level: u32, clause: u32, out: *mut u32) -> u32;
        pub fn unchecked_undo_last(s: *mut u32, n: usize, out: *mut u32) -> u32;
        pub fn unchecked_undo_until(s: *mut u32, n: usize, level: u32) -> u32;
        pub fn unchecked_next(s: *mut u32, n: usize, out: *mut u32) -> u32;
        pub fn unchecked_sync(s: *mut u32, n: usize, out: *mut u32) -> u32;
        pub fn unchecked_propose(s: *mut u32, n: usize, out: *mut u32) -> u32;
    }
}

/// The kinds of calls that are printed.
const KINDS: [&str; 7] = ["assign", "undo_last", "undo_until", "next", "sync", "propose", "register"];

/// How often the shape check is timed.
const CHECKS: u32 = 10_000;

/// Nanoseconds a call, by kind.
type Times = BTreeMap<String, f64>;

fn main() {
    let asked = imbolaverk_runs::numbers(USAGE, 2);
    let turns = asked.first().copied().unwrap_or(7);
    let repeats = asked.get(1).copied().unwrap_or(40);
    for (clauses, standard) in [(64, true), (512, true), (512, false)] {
        let lines: Vec<String> =
            solving(clauses, standard).into_iter().filter(|line| takes(&line.answer)).map(|line| line.call).collect();
        let calls: Vec<Call> = lines.iter().map(|line| Call::read(line).expect("a call")).collect();
        let text = lines.join("\n") + "\n";
        let (mut original, mut public, mut unchecked, mut checks) = (vec![], vec![], vec![], vec![]);
        for _ in 0..turns {
            original.push(original_times(&text, repeats));
            public.push(library_times(&calls, repeats, call_public));
            unchecked.push(library_times(&calls, repeats, call_unchecked));
            checks.push(check_time(&calls));
        }
        let mode = if standard { "standard" } else { "the other" };
        println!("{clauses} clauses, {mode} mode, {} calls a run; the shape check alone: {:.0} ns", calls.len(), median(checks));
        print_kinds(&original, &public, &unchecked);
    }
}

/// A line a kind, and one for a sync with its proposal.
fn print_kinds(original: &[Times], public: &[Times], unchecked: &[Times]) {
    println!("  {:12} {:>11} {:>10} {:>7} {:>10} {:>7}", "call", "original ns", "public ns", "ratio", "unchecked ns", "ratio");
    let line = |name: &str, kinds: &[&str]| {
        let sum = |turns: &[Times]| -> f64 {
            kinds.iter().map(|kind| median(turns.iter().filter_map(|times| times.get(*kind).copied()).collect())).sum()
        };
        let (theirs, ours, within) = (sum(original), sum(public), sum(unchecked));
        println!("  {name:12} {theirs:11.1} {ours:10.1} {:7.2} {within:10.1} {:7.2}", ours / theirs, within / theirs);
    };
    for kind in KINDS {
        line(kind, &[kind]);
    }
    line("sync+propose", &["sync", "propose"]);
}

fn median(mut all: Vec<f64>) -> f64 {
    all.sort_by(f64::total_cmp);
    all.get(all.len() / 2).copied().unwrap_or(f64::NAN)
}

/// The original's own timing of a script, by kind of call.
fn original_times(text: &str, repeats: u64) -> Times {
    let said = run(&["bench", &repeats.to_string()], text)
        .unwrap_or_else(|error| panic!("the original does not run ({error}); host/original.sh builds it"));
    said.lines()
        .filter_map(|line| {
            let words: Vec<&str> = line.split_whitespace().collect();
            match words[..] {
                [kind, _, "calls", ns, "ns"] => Some((named(kind).to_string(), ns.parse().ok()?)),
                _ => None,
            }
        })
        .collect()
}

/// Our word for a kind of call in the original's list.
fn named(kind: &str) -> &str {
    match kind {
        "undolast" => "undo_last",
        "undountil" => "undo_until",
        other => other,
    }
}

/// The same timing of the library: each call between two looks at the clock, less what the looks cost.
fn library_times(calls: &[Call], repeats: u64, make: impl Fn(&Call, &mut Store)) -> Times {
    let cost = (0..1000).map(|_| Instant::now().elapsed().as_nanos()).min().unwrap_or(0);
    let mut store = Store::new();
    let mut sums: BTreeMap<&str, (u128, u64)> = BTreeMap::new();
    for turn in 0..2 * repeats {
        for call in calls {
            let began = Instant::now();
            make(call, &mut store);
            let took = began.elapsed().as_nanos().saturating_sub(cost);
            if turn >= repeats {
                let sum = sums.entry(call.kind()).or_default();
                *sum = (sum.0 + took, sum.1 + 1);
            }
        }
    }
    sums.into_iter().map(|(kind, (sum, count))| (kind.to_string(), sum as f64 / count as f64)).collect()
}

/// The shape check of the store that the calls leave.
fn check_time(calls: &[Call]) -> f64 {
    let mut store = Store::new();
    calls.iter().for_each(|call| call_public(call, &mut store));
    let words = store.words();
    let began = Instant::now();
    for _ in 0..CHECKS {
        black_box(unsafe { unchecked::unchecked_sound(words.as_ptr(), words.len()) });
    }
    began.elapsed().as_nanos() as f64 / f64::from(CHECKS)
}

/// The public call, without the words of its answer.
fn call_public(call: &Call, store: &mut Store) {
    match call {
        Call::Sync => drop(black_box(store.sync())),
        Call::Propose => drop(black_box(store.propose())),
        Call::Assign { variable, value, level, clause } => drop(black_box(store.assign(*variable, *value, *level, *clause))),
        Call::UndoLast => drop(black_box(store.undo_last())),
        Call::UndoUntil(level) => drop(black_box(store.undo_until(*level))),
        Call::Next => drop(black_box(store.next_unpropagated())),
        Call::Register { parent, requirement, condition, clause } => {
            let _ = black_box(store.register(*parent, *requirement, *condition, *clause));
        }
        other => drop(black_box(other.answer(store))),
    }
}

/// The unchecked call, where there is one. Public calls alone made the store, and unchecked ones keep it sound.
fn call_unchecked(call: &Call, store: &mut Store) {
    let mut out = [0; 7];
    let o = out.as_mut_ptr();
    let words = store.words_mut();
    let (s, n) = (words.as_mut_ptr(), words.len());
    let number = unsafe {
        match *call {
            Call::Sync => unchecked::unchecked_sync(s, n, o),
            Call::Propose => unchecked::unchecked_propose(s, n, o),
            Call::Assign { variable, value, level, clause } => {
                unchecked::unchecked_assign(s, n, variable, value as u32, level, clause, o)
            }
            Call::UndoLast => unchecked::unchecked_undo_last(s, n, o),
            Call::UndoUntil(level) => unchecked::unchecked_undo_until(s, n, level),
            Call::Next => unchecked::unchecked_next(s, n, o),
            Call::Register { parent, requirement, condition, clause } => {
                let (kind, id) = requirement.words();
                unchecked::unchecked_register(s, n, parent, kind, id, condition.word(), clause)
            }
            _ => return call_public(call, store),
        }
    };
    black_box((number, out));
}
