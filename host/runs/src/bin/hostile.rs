//! Calls every entry point on any bytes: random words, damaged stores, short slices, wild arguments, NULL for empty lists. Each call
//! must answer, and a refusal other than 8 must leave every word and every lent output as it was.

use imbolaverk::raw::{self, Decision};
use imbolaverk::Store;
use imbolaverk_runs::generate::{script, Dice, PROFILES};
use imbolaverk_runs::script::Call;
use std::sync::atomic::{AtomicU64, Ordering};
use std::time::{Duration, Instant};

const USAGE: &str = "\
usage: hostile [CALLS]

Makes CALLS calls (10000000 if left out) with any arguments on any words. Stops where a call gives no answer for 30 seconds, or a refusal
changes something.

  --help, -h  this text
  --version   the version";

static MADE: AtomicU64 = AtomicU64::new(0);

/// How many empty lists were lent as NULL.
static NULLS: AtomicU64 = AtomicU64::new(0);

/// Words behind the lent slice, which no call may touch.
const GUARD: usize = 64;

/// From so many calls on every answer must have come.
const ENOUGH: u64 = 400_000;

fn main() {
    let wanted = imbolaverk_runs::numbers(USAGE, 1).first().copied().unwrap_or(10_000_000);
    let mut dice = Dice::new(20);
    let mut answers = [0u64; 13];
    let mut words = vec![0u32; Store::size() + GUARD];
    let mut length = Store::size();
    let mut lists = Lists::new();
    let stores = reached(&mut dice);
    std::thread::spawn(watch);
    let began = Instant::now();
    let step = (wanted / 10).max(1);
    for call in 0..wanted {
        if call % 50 == 0 {
            length = fill(&mut dice, &mut words, &stores);
        } else if dice.often(1) {
            damage(&mut dice, &mut words);
        }
        let number = attempt(&mut dice, &mut words, length, &mut lists);
        answers[number as usize] += 1;
        MADE.store(call + 1, Ordering::Relaxed);
        if (call + 1) % step == 0 {
            println!("{} calls, {:.0} s", call + 1, began.elapsed().as_secs_f64());
        }
    }
    for (number, count) in answers.iter().enumerate() {
        println!("  answer {number}: {count}");
    }
    let nulls = NULLS.load(Ordering::Relaxed);
    if wanted >= ENOUGH {
        assert!(answers.iter().all(|&count| count > 0), "an answer from 0 to 12 never came: {answers:?}");
        assert!(nulls > 0, "no empty list was lent as NULL");
    }
    println!("{wanted} calls, each answered; no refusal changed a word, no call touched a word beyond its store");
    println!("an empty list was lent as NULL {nulls} times");
}

/// Stops the run if a call does not answer.
fn watch() {
    let mut last = 0;
    loop {
        std::thread::sleep(Duration::from_secs(30));
        let now = MADE.load(Ordering::Relaxed);
        if now == last {
            eprintln!("no answer for 30 s after {now} calls");
            std::process::abort();
        }
        last = now;
    }
}

/// Some stores that calls reach.
fn reached(dice: &mut Dice) -> Vec<Store> {
    (0..400)
        .map(|_| {
            let (_, profile) = dice.pick(&PROFILES);
            let lines = script(profile, dice.roll());
            let part = dice.below(lines.len() as u32 + 1) as usize;
            let mut store = Store::new();
            for line in &lines[..part] {
                if let Some(call) = Call::read(&line.call) {
                    call.answer(&mut store);
                }
            }
            store
        })
        .collect()
}

/// New words for the next calls; answers how many of them are lent.
fn fill(dice: &mut Dice, words: &mut [u32], stores: &[Store]) -> usize {
    let size = Store::size();
    match dice.below(20) {
        0 => words.iter_mut().for_each(|word| *word = dice.roll() as u32),
        1 => words.iter_mut().for_each(|word| *word = dice.below(3)),
        2 => words.fill(dice.pick(&[0, 1, u32::MAX, 0x8000_0000])),
        _ => {
            let i = dice.below(stores.len() as u32) as usize;
            words[..size].copy_from_slice(stores[i].words());
            if dice.often(40) {
                damage(dice, words);
            }
        }
    }
    match dice.below(16) {
        0 if dice.often(50) => 0,
        0 => dice.below(size as u32) as usize,
        1 => size - 1,
        2 => size + GUARD / 2,
        _ => size,
    }
}

/// A few words become others.
fn damage(dice: &mut Dice, words: &mut [u32]) {
    for _ in 0..1 + dice.below(3) {
        let i = dice.below(words.len() as u32) as usize;
        words[i] = match dice.below(4) {
            0 => dice.roll() as u32,
            1 => words[i].wrapping_add(1),
            2 => words[i].wrapping_sub(1),
            _ => dice.below(600),
        };
    }
}

/// The lists that calls are lent.
struct Lists {
    a: Vec<u32>,
    b: Vec<u32>,
    c: Vec<u32>,
    d: Vec<u32>,
    trail: Vec<Decision>,
    out: [u32; 7],
    before: Vec<u32>,
}

impl Lists {
    fn new() -> Lists {
        Lists { a: vec![], b: vec![], c: vec![], d: vec![], trail: vec![], out: [0; 7], before: vec![] }
    }

    fn fill(&mut self, dice: &mut Dice) {
        let same = dice.below(12);
        for list in [&mut self.a, &mut self.b, &mut self.c] {
            let length = if dice.often(70) { same } else { dice.below(70) };
            list.clear();
            list.extend((0..length).map(|_| small(dice)));
        }
        let length = match dice.below(10) {
            0 => 0,
            1 => dice.below(1200),
            _ => dice.below(80),
        };
        self.d.clear();
        self.d.extend((0..length).map(|_| small(dice)));
        if length == 0 && dice.often(50) {
            // So that the lengths add up to no cells.
            [&mut self.a, &mut self.b, &mut self.c].into_iter().for_each(|list| list.fill(0));
        }
        let length = if dice.often(10) { 0 } else { dice.below(600) };
        self.trail.clear();
        self.trail.resize(length as usize, Decision { variable: 7, value: 7, clause: 7 });
        self.out.iter_mut().for_each(|word| *word = dice.roll() as u32);
    }
}

/// A number that is often in range.
fn small(dice: &mut Dice) -> u32 {
    match dice.below(10) {
        0 => dice.roll() as u32,
        1 => 500 + dice.below(20),
        2..=4 => dice.below(130),
        _ => dice.below(6),
    }
}

/// A number of a few kinds, now and then another.
fn few(x: u32) -> u32 {
    if x < 100 {
        x % 3
    } else {
        x
    }
}

/// One call with any arguments, and what must hold of it.
fn attempt(dice: &mut Dice, words: &mut [u32], length: usize, lists: &mut Lists) -> u32 {
    let kind = dice.below(25);
    lists.fill(dice);
    if kind == 23 {
        lists.a.iter_mut().for_each(|word| *word = few(*word));
    }
    lists.before.clear();
    lists.before.extend_from_slice(words);
    let (a, b, c, d, trail, out) =
        (lists.a.clone(), lists.b.clone(), lists.c.clone(), lists.d.clone(), lists.trail.clone(), lists.out);
    let (number, reads) = made(kind, dice, words, length, lists);
    assert!(number <= 12, "call {kind} answered {number}");
    let lent_same = lists.a == a && lists.b == b && lists.c == c && lists.d == d && lists.trail == trail;
    if number == 8 {
        assert!(kind == 21, "call {kind} answered 8");
        assert!(lent_same && [0, 1, 2, 4, 5].iter().all(|&i| lists.out[i] == out[i]), "8 changed an output");
    } else if number != 0 {
        assert!(words == lists.before.as_slice(), "call {kind} answered {number} and changed a word");
        assert!(lent_same && lists.out == out, "call {kind} answered {number} and changed an output");
    }
    if reads {
        assert!(words == lists.before.as_slice(), "call {kind} reads and changed a word");
    }
    let beyond = length.min(Store::size());
    assert!(words[beyond..] == lists.before[beyond..], "call {kind} changed a word beyond the store");
    if length < Store::size() {
        assert!(number == 1, "call {kind} answered {number} on a short slice");
    }
    number
}

/// The pointer that a list is lent by; an empty one's is NULL if so wanted.
fn lent<T>(null: bool, list: &mut [T]) -> *mut T {
    if null && list.is_empty() {
        NULLS.fetch_add(1, Ordering::Relaxed);
        return std::ptr::null_mut();
    }
    list.as_mut_ptr()
}

/// Makes the call; answers its number, and whether it only reads the store.
fn made(kind: u32, dice: &mut Dice, words: &mut [u32], n: usize, lists: &mut Lists) -> (u32, bool) {
    let null = dice.often(50);
    let s = lent(null, &mut words[..n]);
    let mut any = || small(dice);
    let (p, q, r, t, u) = (any(), any(), any(), any(), any());
    let (a, b, c, d) = (&mut lists.a, &mut lists.b, &mut lists.c, &mut lists.d);
    let out = lists.out.as_mut_ptr();
    unsafe {
        match kind {
            0 if p < 3 => (raw::imb_fresh(s, n), false),
            0 | 1 => (raw::imb_load_version_set(s, n, p, q), false),
            2 => (raw::imb_load_union(s, n, p, lent(null, a), a.len()), false),
            3 => (raw::imb_load_candidates(s, n, few(p), q, lent(null, a), a.len(), lent(null, d), d.len()), false),
            4 => (raw::imb_load_disjunction(s, n, p, lent(null, a), a.len(), lent(null, b), b.len()), false),
            5 => (raw::imb_load_condition(s, n, p, few(q), r, t), false),
            6 => (raw::imb_register(s, n, p, few(q), r, if t < 5 { u32::MAX } else { t }, u), false),
            7 => (raw::imb_mark_hot(s, n, p), false),
            8 => (raw::imb_set_activity(s, n, p, f32::from_bits(dice.roll() as u32)), false),
            9 => (raw::imb_set_mode(s, n, few(p)), false),
            10 | 11 => (raw::imb_assign(s, n, p, few(q), r, t, out), false),
            12 => (raw::imb_undo_last(s, n, out), false),
            13 => (raw::imb_undo_until(s, n, p), false),
            14 => (raw::imb_next_unpropagated(s, n, out), false),
            15 => (raw::imb_value_of(s, n, p, out), true),
            16 => (raw::imb_clause_of(s, n, p, out), true),
            17 => (raw::imb_trail_length(s, n, out), true),
            18 => (raw::imb_copy_trail(s, n, lent(null, &mut lists.trail), lists.trail.len(), out), true),
            19 => (raw::imb_copy_candidates(s, n, few(p), q, lent(null, a), a.len(), lent(null, d), d.len(), out), true),
            20 => (raw::imb_sync(s, n, out), false),
            21 => (raw::imb_propose(s, n, out), false),
            22 => (raw::imb_rewrite(s, n, p, lent(null, a), a.len(), lent(null, d), d.len(), out), true),
            23 => {
                let number = raw::imb_disjunct_holds(
                    s,
                    n,
                    lent(null, a),
                    a.len(),
                    lent(null, b),
                    b.len(),
                    lent(null, c),
                    c.len(),
                    lent(null, d),
                    d.len(),
                    out,
                );
                (number, true)
            }
            _ if p < 100 => (raw::imb_settings(s, n, out), true),
            _ => (raw::imb_name(s, n, q, out), true),
        }
    }
}
