//! Random scripts. A script is made by running the library along, so that it can lean towards calls that do something.

use crate::script::Call;
use imbolaverk::Store;

/// A small generator of random numbers (splitmix64).
#[derive(Clone)]
pub struct Dice(u64);

impl Dice {
    /// The generator of a seed.
    pub fn new(seed: u64) -> Dice {
        Dice(seed.wrapping_mul(0x9e37_79b9_7f4a_7c15) ^ 0x5851_f42d_4c95_7f2d)
    }

    /// Any number.
    pub fn roll(&mut self) -> u64 {
        self.0 = self.0.wrapping_add(0x9e37_79b9_7f4a_7c15);
        let mut z = self.0;
        z = (z ^ (z >> 30)).wrapping_mul(0xbf58_476d_1ce4_e5b9);
        z = (z ^ (z >> 27)).wrapping_mul(0x94d0_49bb_1331_11eb);
        z ^ (z >> 31)
    }

    /// A number below n.
    pub fn below(&mut self, n: u32) -> u32 {
        (self.roll() % u64::from(n.max(1))) as u32
    }

    /// True so many times of a hundred.
    pub fn often(&mut self, percent: u32) -> bool {
        self.below(100) < percent
    }

    /// One of a list that is not empty.
    pub fn pick<T: Clone>(&mut self, of: &[T]) -> T {
        of[self.below(of.len() as u32) as usize].clone()
    }
}

/// A call with the library's answer.
#[derive(Clone, Debug)]
pub struct Line {
    /// The call, as a script says it.
    pub call: String,
    /// What the library answered.
    pub answer: String,
}

/// How large a script's world is; `longest` is the length of its longest candidate list.
#[derive(Clone, Copy, Debug)]
struct Size {
    variables: u32,
    names: u32,
    sets: u32,
    unions: u32,
    disjunctions: u32,
    longest: u32,
    clauses: u32,
    calls: u32,
}

/// What a script is about.
#[derive(Clone, Copy, Debug, PartialEq, Eq)]
pub enum Profile {
    /// A few variables, everything touches everything.
    Dense,
    /// Unions, conditions and both modes, in a world of some size.
    Rich,
    /// Proposals are accepted, and taken back where they end in a dead clause.
    Settling,
    /// The trail alone.
    Trail,
    /// Condition trees and their terms.
    Conditions,
    /// Up to the limits.
    Wide,
    /// Wrong arguments among right ones.
    Wrong,
}

/// Every profile with its name.
pub const PROFILES: [(&str, Profile); 7] = [
    ("dense", Profile::Dense),
    ("rich", Profile::Rich),
    ("settling", Profile::Settling),
    ("trail", Profile::Trail),
    ("conditions", Profile::Conditions),
    ("wide", Profile::Wide),
    ("wrong", Profile::Wrong),
];

/// Activities that show: equal ones, neighbours, the smallest and the largest.
const ACTIVITIES: [u32; 12] =
    [0, 0, 0x3f80_0000, 0x3f80_0000, 0x4000_0000, 0x3f00_0000, 0x40a0_0000, 1, 2, 0x7f7f_ffff, 0x007f_ffff, 0x0080_0000];

struct Script {
    dice: Dice,
    store: Store,
    size: Size,
    lines: Vec<Line>,
    requirements: Vec<String>,
    registered: Vec<String>,
}

/// The script of a profile and a seed.
pub fn script(profile: Profile, seed: u64) -> Vec<Line> {
    let mut dice = Dice::new(seed);
    let size = size_of(profile, &mut dice);
    let mut s = Script::new(dice, size);
    match profile {
        Profile::Trail => s.trail(),
        Profile::Conditions => s.conditions(),
        Profile::Settling => s.settling(),
        Profile::Wrong => s.mixed(20),
        _ => s.mixed(0),
    }
    s.lines
}

/// A run like a solver's, for timing: what is proposed is decided, now and then forbidden, and taken back where a clause is dead.
pub fn solving(clauses: u32, standard: bool) -> Vec<Line> {
    let sets = (clauses / 2).min(256);
    let size = Size { variables: 512, names: 128, sets, unions: 0, disjunctions: 64, longest: 4, clauses, calls: 400 };
    let mut s = Script::new(Dice::new(7), size);
    s.solving_tables();
    if !standard {
        s.say("mode 0");
    }
    s.solving_clauses();
    s.solving_calls();
    s.lines
}

fn size_of(profile: Profile, dice: &mut Dice) -> Size {
    match profile {
        Profile::Dense | Profile::Wrong => Size {
            variables: 4 + dice.below(8),
            names: 4,
            sets: 5,
            unions: 2,
            disjunctions: 3,
            longest: 4,
            clauses: 10,
            calls: 120,
        },
        Profile::Wide => {
            Size { variables: 512, names: 128, sets: 256, unions: 64, disjunctions: 128, longest: 7, clauses: 520, calls: 900 }
        }
        _ => Size { variables: 30, names: 12, sets: 16, unions: 5, disjunctions: 8, longest: 6, clauses: 40, calls: 250 },
    }
}

impl Script {
    /// A script that has only made its store fresh.
    fn new(dice: Dice, size: Size) -> Script {
        let mut s = Script { dice, store: Store::new(), size, lines: vec![], requirements: vec![], registered: vec![] };
        s.say("fresh");
        s
    }

    /// Makes a call and keeps it with its answer.
    fn say(&mut self, call: impl Into<String>) -> String {
        let call = call.into();
        let answer = match Call::read(&call) {
            Some(made) => made.answer(&mut self.store),
            None => "bad".to_string(),
        };
        self.lines.push(Line { call, answer: answer.clone() });
        answer
    }

    fn variable(&mut self) -> u32 {
        self.dice.below(self.size.variables)
    }

    /// Fewer than n words of a kind, each after a blank.
    fn words(&mut self, n: u32, word: impl Fn(&mut Self) -> String) -> String {
        (0..self.dice.below(n)).map(|_| format!(" {}", word(self))).collect()
    }

    fn cells(&mut self) -> String {
        self.words(self.size.longest + 1, |s| s.variable().to_string())
    }

    /// A requirement whose candidates are loaded, as a script says it.
    fn requirement(&mut self) -> Option<String> {
        (!self.requirements.is_empty()).then(|| self.dice.pick(&self.requirements))
    }

    /// A disjunction so many times of a hundred, else no condition.
    fn condition(&mut self, percent: u32) -> String {
        if self.dice.often(percent) {
            self.dice.below(self.size.disjunctions).to_string()
        } else {
            "-".to_string()
        }
    }

    fn load_candidates(&mut self, requirement: String, cells: &str) {
        if self.say(format!("cand {requirement}{cells}")) == "ok" {
            self.requirements.push(requirement);
        }
    }

    fn tables(&mut self) {
        let size = self.size;
        for set in 0..size.sets {
            let name = self.dice.below(size.names);
            self.say(format!("vs {set} {name}"));
        }
        for set in 0..size.sets {
            let cells = self.cells();
            self.load_candidates(format!("s {set}"), &cells);
        }
        for union in 0..size.unions {
            let mut members: Vec<u32> = vec![];
            for _ in 0..self.dice.below(6) {
                let set = self.dice.below(size.sets);
                if !members.contains(&set) {
                    members.push(set);
                }
            }
            let said: String = members.iter().map(|set| format!(" {set}")).collect();
            self.say(format!("union {union}{said}"));
            let lists: Vec<String> = members.iter().map(|_| self.cells()).collect();
            let cells = if lists.is_empty() { " none".to_string() } else { lists.join(" ;") };
            self.load_candidates(format!("u {union}"), &cells);
        }
        for disjunction in 0..size.disjunctions {
            let literals = self.words(4, |s| format!("{} {}", s.variable(), s.dice.below(2)));
            self.say(format!("disj {disjunction}{literals}"));
        }
    }

    fn register(&mut self) {
        let Some(requirement) = self.requirement() else { return };
        if !self.registered.is_empty() && self.dice.often(8) {
            let again = self.dice.pick(&self.registered);
            self.say(again);
            return;
        }
        let parent = if self.dice.often(45) { 0 } else { self.variable() };
        let condition = self.condition(35);
        let clause = 100 + 3 * self.registered.len() as u32;
        let call = format!("register {parent} {requirement} {condition} {clause}");
        self.registered.push(call.clone());
        self.say(call);
    }

    /// A level near the last entry's.
    fn level(&mut self) -> u32 {
        let last = match self.store.trail() {
            Ok(trail) => trail.last().and_then(|d| self.store.value_of(d.variable).ok().flatten()).map_or(1, |held| held.1),
            Err(_) => 1,
        };
        let step = self.dice.pick(&[0i64, 0, 1, 1, 1, -1, 2]);
        (i64::from(last) + step).max(1) as u32
    }

    fn assign(&mut self) {
        let mut variable = self.variable();
        for _ in 0..4 {
            if matches!(self.store.value_of(variable), Ok(None)) || self.dice.often(10) {
                break;
            }
            variable = self.variable();
        }
        let value = if variable == 0 { u32::from(!self.dice.often(10)) } else { u32::from(self.dice.often(45)) };
        let level = self.level();
        let clause = self.dice.below(1000);
        self.say(format!("assign {variable} {value} {level} {clause}"));
    }

    fn undo(&mut self) {
        if self.dice.often(60) {
            self.say("undo_last");
        } else if self.dice.often(90) {
            let level = self.level().saturating_sub(self.dice.below(3)).max(1);
            self.say(format!("undo_until {level}"));
        } else {
            self.say("undo_until 0");
        }
    }

    fn tune(&mut self) {
        let name = self.dice.below(self.size.names);
        match self.dice.below(4) {
            0 => drop(self.say(format!("hot {name}"))),
            1 => {
                let mode = self.dice.below(2);
                self.say(format!("mode {mode}"));
            }
            _ => {
                if self.dice.often(60) {
                    self.say(format!("hot {name}"));
                }
                let bits = self.dice.pick(&ACTIVITIES);
                self.say(format!("activity {name} {bits}"));
            }
        }
    }

    fn look(&mut self) {
        let variable = self.variable();
        let call = match self.dice.below(8) {
            0 => format!("clause_of {variable}"),
            1 => format!("value_of {variable}"),
            2 => format!("level_of {variable}"),
            3 => "trail".to_string(),
            4 | 5 => "next".to_string(),
            6 => self.conjuncts(),
            _ => self.requirement().map_or("next".to_string(), |requirement| format!("lookup {requirement}")),
        };
        self.say(call);
    }

    fn conjuncts(&mut self) -> String {
        let mut said = vec![];
        for _ in 0..self.dice.below(4) {
            let kind = self.dice.below(2);
            let cells = self.cells();
            said.push(format!("{kind}{cells}"));
        }
        format!("holds {}", said.join(" ; ")).trim_end().to_string()
    }

    fn ask(&mut self) {
        if self.dice.often(85) {
            self.say("sync");
        }
        if self.dice.often(80) {
            self.say("propose");
        }
    }

    /// Every kind of call; so many of a hundred are wrong.
    fn mixed(&mut self, wrong: u32) {
        self.tables();
        self.say("assign 0 1 1 0");
        let first = self.dice.below(self.size.clauses + 1);
        for _ in 0..first {
            self.register();
        }
        for _ in 0..self.size.calls {
            if self.dice.often(wrong) {
                self.wrong();
                continue;
            }
            match self.dice.below(100) {
                0..=24 => self.assign(),
                25..=39 => self.undo(),
                40..=49 => self.tune(),
                50..=57 => self.look(),
                58..=63 => self.register(),
                _ => self.ask(),
            }
        }
    }

    /// A number that is likely to be wrong.
    fn wild(&mut self) -> u32 {
        let near = self.dice.below(6);
        match self.dice.below(6) {
            0 => self.dice.roll() as u32,
            1 => u32::MAX - near,
            2 => 0x7fff_fffe + near,
            3 => 510 + near,
            4 => 126 + near,
            _ => near,
        }
    }

    fn wrong(&mut self) {
        let (a, b, c) = (self.wild(), self.wild(), self.wild());
        // The original cannot hold the largest id, so clause ids stay below it.
        let clause = self.dice.below(u32::MAX);
        let bit = self.dice.below(2);
        let call = match self.dice.below(14) {
            0 => format!("vs {a} {b}"),
            1 => format!("union {a} {b} {c}"),
            2 => format!("cand s {a} {b}"),
            3 => format!("cand u {a} {b} ; {c}"),
            4 => format!("disj {a} {b} {bit}"),
            5 => format!("node {a} and {b} {c}"),
            6 => format!("register {a} s {b} {c} {clause}"),
            7 => format!("hot {a}"),
            8 => format!("activity {a} {b}"),
            9 => format!("assign {a} {bit} {b} {clause}"),
            10 => format!("undo_until {a}"),
            11 => format!("dnf {a}"),
            12 => format!("lookup u {a}"),
            _ => format!("trail {}", a % 600),
        };
        self.say(call);
    }

    /// Syncs and asks: the variable proposed and its clause, if one is.
    fn chosen(&mut self) -> Option<(String, String)> {
        self.say("sync");
        let said = self.say("propose");
        match said.split(' ').collect::<Vec<_>>()[..] {
            ["choose", variable, _, clause, ..] => Some((variable.to_string(), clause.to_string())),
            _ => None,
        }
    }

    /// Takes back to some lower level, and tells the level to go on with.
    fn go_back(&mut self, level: u32) -> u32 {
        let next = (level - self.dice.below(level)).max(2);
        self.say(format!("undo_until {}", next - 1));
        next
    }

    /// Accepts what is proposed; takes back where nothing is left to choose.
    fn settling(&mut self) {
        self.tables();
        if self.dice.often(50) {
            self.say("mode 0");
        }
        for _ in 0..self.size.clauses {
            self.register();
        }
        self.say("assign 0 1 1 0");
        let mut level = 2;
        for _ in 0..self.size.calls {
            match self.chosen() {
                Some((variable, clause)) if self.dice.often(80) => {
                    let value = u32::from(self.dice.often(75));
                    self.say(format!("assign {variable} {value} {level} {clause}"));
                    level += 1;
                }
                Some(_) => self.tune(),
                None => {
                    level = self.go_back(level);
                    self.assign();
                }
            }
            if self.dice.often(10) {
                self.look();
            }
        }
    }

    fn trail(&mut self) {
        for _ in 0..self.size.calls {
            match self.dice.below(10) {
                0..=3 => self.assign(),
                4..=5 => self.undo(),
                6 => drop(self.say("next")),
                7 => drop(self.say("sync")),
                _ => self.look(),
            }
        }
    }

    /// Trees that grow from leaves; terms are asked of every node.
    fn conditions(&mut self) {
        for set in 0..self.size.sets {
            self.say(format!("vs {set} {}", set % 8));
        }
        for node in 0..40u32 {
            let call = if node < 2 || self.dice.often(30) {
                format!("node {node} leaf {} 0", self.dice.below(self.size.sets))
            } else {
                let kind = self.dice.pick(&["and", "or"]);
                format!("node {node} {kind} {} {}", self.dice.below(node), self.dice.below(node))
            };
            self.say(call);
            self.say(format!("dnf {node}"));
            if self.dice.often(20) {
                let held = self.conjuncts();
                self.say(held);
            }
        }
    }

    /// A variable that is not the root.
    fn other_variable(&mut self) -> u32 {
        1 + self.dice.below(self.size.variables - 1)
    }

    /// Four candidates a version set, disjunctions of one literal, and every fourth name hot with an activity.
    fn solving_tables(&mut self) {
        for set in 0..self.size.sets {
            self.say(format!("vs {set} {}", set % self.size.names));
            let cells: String = (0..self.size.longest).map(|_| format!(" {}", self.other_variable())).collect();
            self.say(format!("cand s {set}{cells}"));
        }
        for disjunction in 0..self.size.disjunctions {
            let call = format!("disj {disjunction} {} {}", self.other_variable(), self.dice.below(2));
            self.say(call);
        }
        for name in (0..self.size.names).step_by(4) {
            self.say(format!("hot {name}"));
            self.say(format!("activity {name} {}", f32::to_bits(1.0 + (name % 5) as f32)));
        }
    }

    fn solving_clauses(&mut self) {
        for clause in 0..self.size.clauses {
            let parent = if self.dice.often(20) { 0 } else { self.other_variable() };
            let condition = self.condition(10);
            let set = self.dice.below(self.size.sets);
            self.say(format!("register {parent} s {set} {condition} {}", 1000 + clause));
        }
    }

    fn solving_calls(&mut self) {
        self.say("assign 0 1 1 0");
        let mut level = 2;
        for _ in 0..self.size.calls {
            if let Some((variable, clause)) = self.chosen() {
                let value = u32::from(self.dice.often(85));
                self.say(format!("assign {variable} {value} {level} {clause}"));
                level += 1;
                if self.dice.often(30) {
                    let call = format!("assign {} {} {level} 0", self.other_variable(), self.dice.below(2));
                    self.say(call);
                }
                self.say("next");
            } else {
                level = self.go_back(level);
            }
        }
        for _ in 0..self.size.calls / 4 {
            self.assign();
            self.say("undo_last");
        }
    }
}
