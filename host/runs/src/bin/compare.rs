//! Runs random and all short scripts through the library and through the original, and compares every answer.

use imbolaverk::Store;
use imbolaverk_runs::generate::{script, Line, PROFILES};
use imbolaverk_runs::original::{agrees, run, takes};
use imbolaverk_runs::script::Call;
use std::collections::BTreeMap;
use std::time::Instant;

const USAGE: &str = "\
usage: compare [CALLS]

Makes about CALLS random calls (10000000 if left out), and all short scripts, on the library and on the original, which host/original.sh
builds, and compares every answer. Stops at the first difference, with the smallest script that shows it.

  --help, -h  this text
  --version   the version";

/// Calls sent to the original in one go.
const BATCH: usize = 200_000;

/// From so many calls on a run must have met what it is for.
const ENOUGH: u64 = 400_000;

#[derive(Default)]
struct Tally {
    scripts: u64,
    calls: u64,
    compared: u64,
    answers: BTreeMap<String, u64>,
}

fn main() {
    let wanted = imbolaverk_runs::numbers(USAGE, 1).first().copied().unwrap_or(10_000_000);
    let began = Instant::now();
    let mut tally = Tally::default();
    short_scripts(wanted / 10, &mut tally);
    println!("all short scripts: {} scripts, {} calls, no difference", tally.scripts, tally.calls);
    let mut seed = 0;
    while tally.calls < wanted {
        for (name, profile) in PROFILES {
            let mut batch = vec![];
            let mut size = 0;
            while size < BATCH / 4 {
                let made = script(profile, seed);
                size += made.len();
                batch.push(made);
                seed += 1;
            }
            check(name, &batch, &mut tally);
        }
        println!(
            "{} scripts, {} calls, {} compared, {:.0} s",
            tally.scripts,
            tally.calls,
            tally.compared,
            began.elapsed().as_secs_f64()
        );
    }
    for (answer, count) in &tally.answers {
        println!("  {answer}: {count}");
    }
    if wanted >= ENOUGH {
        tally.must_tell();
    }
    println!(
        "no difference in {} calls ({} of them compared, the rest refused) over {} scripts",
        tally.calls, tally.compared, tally.scripts
    );
}

impl Tally {
    /// Stops a run that has compared too little to say anything.
    fn must_tell(&self) {
        assert!(2 * self.compared > self.calls, "only {} of {} calls were compared", self.compared, self.calls);
        for answer in ["choose", "nothing", "refused 8"] {
            assert!(self.answers.contains_key(answer), "the answer \"{answer}\" never came");
        }
    }
}

/// Every script of a few calls over two clauses that share a requirement and a condition.
fn short_scripts(calls: u64, tally: &mut Tally) {
    let world = [
        "fresh",
        "vs 0 0",
        "vs 1 1",
        "cand s 0 1 2",
        "cand s 1 2 3",
        "disj 0 3 0",
        "hot 1",
        "register 0 s 0 - 10",
        "register 1 s 1 0 11",
    ];
    let moves = [
        "assign 0 1 1 0",
        "assign 1 1 2 0",
        "assign 2 0 2 0",
        "assign 3 0 3 0",
        "undo_last",
        "undo_until 1",
        "sync",
        "propose",
        "activity 1 1073741824",
        "register 0 s 1 - 12",
    ];
    let mut length = 1;
    let mut total = 0;
    let mut batch: Vec<Vec<Line>> = vec![];
    while total < calls && length < 8 {
        for number in 0..(moves.len() as u64).pow(length) {
            let mut store = Store::new();
            let mut lines = vec![];
            let mut rest = number;
            let chosen = (0..length).map(|_| {
                let one = moves[(rest % moves.len() as u64) as usize];
                rest /= moves.len() as u64;
                one
            });
            for call in world.into_iter().chain(chosen).chain(["sync", "propose"]) {
                let answer = Call::read(call).expect("a call").answer(&mut store);
                lines.push(Line { call: call.to_string(), answer });
            }
            total += lines.len() as u64;
            batch.push(lines);
            if batch.len() >= BATCH / 16 {
                check("short", &batch, tally);
                batch.clear();
            }
            if total >= calls {
                break;
            }
        }
        length += 1;
    }
    check("short", &batch, tally);
}

/// Runs the batch through the original, and compares.
fn check(profile: &str, batch: &[Vec<Line>], tally: &mut Tally) {
    let mut text = String::new();
    let mut sent: Vec<(usize, &Line)> = vec![];
    for (i, lines) in batch.iter().enumerate() {
        tally.scripts += 1;
        for line in lines {
            tally.calls += 1;
            let words: Vec<&str> = line.answer.split(' ').collect();
            let kind = if words[0] == "refused" { format!("refused {}", words[1]) } else { words[0].to_string() };
            *tally.answers.entry(kind).or_default() += 1;
            if takes(&line.answer) {
                text.push_str(&line.call);
                text.push('\n');
                sent.push((i, line));
            }
        }
    }
    let said = run(&[], &text).unwrap_or_else(|error| panic!("the original does not run ({error}); host/original.sh builds it"));
    let mut answers = said.lines();
    for (i, line) in &sent {
        tally.compared += 1;
        let original = answers.next().unwrap_or("(no answer)");
        if !agrees(&line.answer, original) {
            println!("DIFFERENCE, profile {profile}: {} | library {} | original {original}", line.call, line.answer);
            shrunk(batch[*i].iter().map(|line| line.call.clone()).collect());
            std::process::exit(1);
        }
    }
    assert!(answers.next().is_none(), "the original gave more answers than it got calls");
}

/// Whether a script still shows a difference.
fn differs(calls: &[String]) -> bool {
    let mut store = Store::new();
    let mut text = String::from("fresh\n");
    let mut wanted = vec!["ok".to_string()];
    for call in calls {
        let answer = Call::read(call).map_or("bad".to_string(), |made| made.answer(&mut store));
        if takes(&answer) && answer != "bad" {
            text.push_str(call);
            text.push('\n');
            wanted.push(answer);
        }
    }
    let said = run(&[], &text).expect("the original runs");
    let answers: Vec<&str> = said.lines().collect();
    answers.len() != wanted.len() || wanted.iter().zip(answers).any(|(library, original)| !agrees(library, original))
}

/// Takes calls away as long as the difference stays, and prints what is left.
fn shrunk(mut calls: Vec<String>) {
    let mut part = calls.len() / 2;
    while part > 0 {
        let mut from = 0;
        while from < calls.len() {
            let mut fewer = calls.clone();
            fewer.drain(from..(from + part).min(calls.len()));
            if differs(&fewer) {
                calls = fewer;
            } else {
                from += part;
            }
        }
        part /= 2;
    }
    println!("smallest script:");
    for call in calls {
        println!("  {call}");
    }
}
