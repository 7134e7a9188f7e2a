//! Safe calls over Imbolaverk's decision queue.
//!
//! The library proves, for each call, its whole answer and the whole store that it leaves. This wrapper adds names: a [`Store`], a
//! [`Refusal`] for each number, a [`Proposal`].
//!
//! ```
//! use imbolaverk::{Condition, Requirement, Store};
//!
//! let mut store = Store::new();
//! store.load_version_set(0, 0)?;
//! store.load_candidates(Requirement::Single(0), &[&[1, 2, 3]])?;
//! store.register(0, Requirement::Single(0), Condition::None, 10)?;
//! store.assign(0, true, 1, 0)?;
//! assert_eq!(store.sync()?, 1);
//!
//! let first = store.propose()?.proposal.expect("a clause is open");
//! assert_eq!((first.candidate, first.clause, first.count), (1, 10, 3));
//!
//! // She tries the candidate and takes it back: the same proposal returns.
//! store.assign(1, true, 2, 0)?;
//! store.sync()?;
//! store.undo_last()?;
//! store.sync()?;
//! assert_eq!(store.propose()?.proposal, Some(first));
//! # Ok::<(), imbolaverk::Refusal>(())
//! ```

#![warn(missing_docs)]

pub mod raw;

use std::fmt;
use std::mem::discriminant;

/// How many variables there are: 0 to 511, of which 0 is the root.
pub const VARIABLES: usize = 512;
/// The most clauses that are registered.
pub const CLAUSES: usize = 512;
/// How many names there are.
pub const NAMES: usize = 128;
/// The most version sets.
pub const VERSION_SETS: usize = 256;
/// The most unions.
pub const UNIONS: usize = 64;
/// The most version sets that a union has, and so the most candidate lists of a requirement.
pub const UNION_MEMBERS: usize = 8;
/// All candidate lists together have no more cells.
pub const CANDIDATE_CELLS: usize = 2048;
/// The most disjunctions.
pub const DISJUNCTIONS: usize = 128;
/// All disjunctions together have no more literals.
pub const LITERALS: usize = 1024;
/// The most nodes of condition trees.
pub const CONDITION_NODES: usize = 128;
/// The conditions of all clauses together have no more literals.
pub const CLAUSE_LITERALS: usize = 1024;
/// All clauses together have no more distinct names, each clause counted for itself.
pub const CLAUSE_NAMES: usize = 1024;
/// The most terms of a rewritten condition.
pub const TERMS: usize = 64;
/// The most version sets that a term has.
pub const TERM_VERSION_SETS: usize = 16;
/// All terms of a rewritten condition together have no more version sets.
pub const TERM_CELLS: usize = TERMS * TERM_VERSION_SETS;
/// The most entries that a trail has.
pub const TRAIL_ENTRIES: usize = 512;
/// The highest level; the lowest of an assignment is 1.
pub const LAST_LEVEL: u32 = 2_147_483_647;

/// Why a call was refused. But for a dead clause, a refused call has changed nothing.
#[derive(Clone, Copy, Debug, PartialEq, Eq)]
#[non_exhaustive]
pub enum Refusal {
    /// 1: the words are too few, or not of sound shape.
    BadStore,
    /// 2: an id or a range is out of range or names something that is not loaded, or a value, sign, mode or kind is unknown.
    BadId,
    /// 3: a size or a lent list would be exceeded.
    NoRoom,
    /// 4: an assignment's level is 0, or a level is above 2,147,483,647.
    BadLevel,
    /// 5: the variable holds the other value.
    OtherValue,
    /// 6: undo has no entry to stop at.
    NoStop,
    /// 7: the store is not synced.
    Unsynced,
    /// 8: the walk reached a clause that has no candidate left.
    DeadClause {
        /// The dead clause's id.
        clause: u32,
        /// How many clauses left the queue before it was met.
        dropped: u32,
    },
    /// 9: an activity is NaN, infinite or has its sign bit set.
    BadActivity,
    /// 10: standard mode would hold a cold name with an activity above zero.
    ColdActivity,
    /// 11: a table is malformed.
    Malformed,
    /// 12: a thing is loaded twice.
    LoadedTwice,
}

/// Each refusal with its number and its words, which are the header's.
const REFUSALS: [(u32, Refusal, &str); 12] = [
    (raw::BAD_STORE, Refusal::BadStore, "the store is too short or not of sound shape"),
    (raw::BAD_ID, Refusal::BadId, "an id is out of range or not loaded"),
    (raw::NO_ROOM, Refusal::NoRoom, "there is no room left"),
    (raw::BAD_LEVEL, Refusal::BadLevel, "the level is 0 or above 2,147,483,647"),
    (raw::OTHER_VALUE, Refusal::OtherValue, "the variable holds the other value"),
    (raw::NO_STOP, Refusal::NoStop, "undo has no entry to stop at"),
    (raw::UNSYNCED, Refusal::Unsynced, "the store is not synced"),
    (raw::DEAD_CLAUSE, Refusal::DeadClause { clause: 0, dropped: 0 }, "a clause has no candidate left"),
    (raw::BAD_ACTIVITY, Refusal::BadActivity, "the activity is not a finite number from zero on"),
    (raw::COLD_ACTIVITY, Refusal::ColdActivity, "standard mode would hold a cold name with an activity above zero"),
    (raw::MALFORMED, Refusal::Malformed, "the table is malformed"),
    (raw::LOADED_TWICE, Refusal::LoadedTwice, "it is loaded already"),
];

impl Refusal {
    fn row(self) -> (u32, Refusal, &'static str) {
        let same = |row: &&(u32, Refusal, &str)| discriminant(&row.1) == discriminant(&self);
        *REFUSALS.iter().find(same).expect("every refusal has a row")
    }

    /// The number that the C entry points answer.
    #[must_use]
    pub fn number(self) -> u32 {
        self.row().0
    }

    fn of(number: u32) -> Refusal {
        let row = REFUSALS.iter().find(|row| row.0 == number);
        row.unwrap_or_else(|| panic!("the library answered {number}, which is no refusal")).1
    }
}

impl fmt::Display for Refusal {
    fn fmt(&self, f: &mut fmt::Formatter<'_>) -> fmt::Result {
        match self {
            Refusal::DeadClause { clause, .. } => write!(f, "clause {clause} has no candidate left"),
            other => f.write_str(other.row().2),
        }
    }
}

impl std::error::Error for Refusal {}

/// A requirement: one version set, or a union of several.
#[derive(Clone, Copy, Debug, PartialEq, Eq, Hash)]
pub enum Requirement {
    /// A version set, by its id.
    Single(u32),
    /// A union, by its id.
    Union(u32),
}

impl Requirement {
    /// The kind and the id that the C entry points take for it.
    #[must_use]
    pub fn words(self) -> (u32, u32) {
        match self {
            Requirement::Single(id) => (raw::SINGLE, id),
            Requirement::Union(id) => (raw::UNION, id),
        }
    }
}

/// A clause's condition: none, or a loaded disjunction.
#[derive(Clone, Copy, Debug, PartialEq, Eq)]
pub enum Condition {
    /// The clause has no condition.
    None,
    /// A disjunction, by its id.
    Disjunction(u32),
}

impl Condition {
    /// The number that the C entry points take for it. The largest number means no condition, so as a disjunction's id it becomes
    /// another one that is out of range.
    #[must_use]
    pub fn word(self) -> u32 {
        match self {
            Condition::None => raw::NO_CONDITION,
            Condition::Disjunction(id) => id.min(raw::NO_CONDITION - 1),
        }
    }
}

/// A node of a condition tree.
#[derive(Clone, Copy, Debug, PartialEq, Eq)]
pub enum Node {
    /// Holds if a candidate of the version set is true.
    Leaf {
        /// The version set's id.
        version_set: u32,
    },
    /// Holds if both nodes do.
    And {
        /// A smaller node.
        left: u32,
        /// A smaller node.
        right: u32,
    },
    /// Holds if one of the nodes does.
    Or {
        /// A smaller node.
        left: u32,
        /// A smaller node.
        right: u32,
    },
}

/// A conjunct of a disjunct. Either kind holds if one of its candidates is true.
#[derive(Clone, Debug, PartialEq, Eq)]
pub enum Conjunct {
    /// The candidates that match a version set, where some of the name's do not.
    Solvables(Vec<u32>),
    /// All candidates of a name: every one matches, so the complement is empty.
    Empty(Vec<u32>),
}

/// Which clauses a proposal looks at behind the first that is open.
#[derive(Clone, Copy, Debug, PartialEq, Eq)]
pub enum Mode {
    /// Those of hot names alone.
    Standard,
    /// All.
    AllClauses,
}

impl Mode {
    /// The number that the C entry points take for it.
    #[must_use]
    pub fn word(self) -> u32 {
        match self {
            Mode::Standard => raw::STANDARD,
            Mode::AllClauses => raw::ALL_CLAUSES,
        }
    }
}

/// One entry of the trail.
#[derive(Clone, Copy, Debug, PartialEq, Eq)]
pub struct Decision {
    /// The variable that was assigned.
    pub variable: u32,
    /// Whether it was assigned true.
    pub value: bool,
    /// The clause that it was assigned for.
    pub clause: u32,
}

impl From<raw::Decision> for Decision {
    fn from(entry: raw::Decision) -> Decision {
        Decision { variable: entry.variable, value: entry.value == raw::TRUE, clause: entry.clause }
    }
}

/// "Settle this next."
#[derive(Clone, Copy, Debug, PartialEq)]
#[must_use]
pub struct Proposal {
    /// The variable to decide.
    pub candidate: u32,
    /// The parent of the clause that needs it.
    pub parent: u32,
    /// That clause's id.
    pub clause: u32,
    /// The activity of the name that the candidate was found under.
    pub activity: f32,
    /// How many candidates are undecided in the list that holds it.
    pub count: u32,
}

/// What a store says when it is asked for a proposal.
#[derive(Clone, Copy, Debug, PartialEq)]
#[must_use]
pub struct Asked {
    /// Nothing is left to settle if there is none.
    pub proposal: Option<Proposal>,
    /// How many clauses left the queue by this call.
    pub dropped: u32,
}

/// What an assignment did.
#[derive(Clone, Copy, Debug, PartialEq, Eq)]
pub enum Assigned {
    /// The trail has one entry more.
    New,
    /// The variable held the value already.
    Already,
}

/// What taking the last entry back answers.
#[derive(Clone, Copy, Debug, PartialEq, Eq)]
pub struct Popped {
    /// The entry that was taken back.
    pub decision: Decision,
    /// The level of the entry that is now the last.
    pub level: u32,
}

/// A whole store in words of its own.
#[derive(Clone, PartialEq, Eq)]
pub struct Store {
    words: Vec<u32>,
}

/// The words are too many to be read: how many there are, the trail and the mode, or why there are none.
impl fmt::Debug for Store {
    fn fmt(&self, f: &mut fmt::Formatter<'_>) -> fmt::Result {
        let mut told = f.debug_struct("Store");
        told.field("words", &self.words.len());
        match (self.trail_length(), self.mode()) {
            (Ok(entries), Ok(mode)) => told.field("trail_length", &entries).field("mode", &mode),
            (Err(refusal), _) | (_, Err(refusal)) => told.field("refused", &refusal),
        };
        told.finish_non_exhaustive()
    }
}

impl Default for Store {
    fn default() -> Self {
        Store::new()
    }
}

fn done(number: u32) -> Result<(), Refusal> {
    if number == raw::DONE {
        Ok(())
    } else {
        Err(Refusal::of(number))
    }
}

// Each `unsafe` below is one call of the library. It is sound because every pointer is valid for the length beside it (an output's for
// the words that the header names) and lives through the call, and no list that a call writes overlaps another: the words are the
// store's own, lent by `&mut self` where the call may change them, and the lists are the caller's borrows or made here. Nothing is
// asked of the words or the numbers, since every call answers on any of them.
impl Store {
    /// How many words a store needs.
    #[must_use]
    pub fn size() -> usize {
        unsafe { raw::imb_words() }
    }

    /// A fresh store: no tables, no clauses, an empty trail, standard mode.
    #[must_use]
    pub fn new() -> Store {
        let mut store = Store { words: vec![0; Store::size()] };
        store.make_fresh().expect("a store of this size can be made fresh");
        store
    }

    /// Any words as a store; every call but `make_fresh` refuses words of unsound shape. Words that are all zero are of sound shape: an
    /// empty store that is not in standard mode, as a fresh one is.
    #[must_use]
    pub fn from_words(words: Vec<u32>) -> Store {
        Store { words }
    }

    /// The words, for keeping a store or looking at it.
    #[must_use]
    pub fn words(&self) -> &[u32] {
        &self.words
    }

    /// The words, for changing them: whatever they then hold, every call answers.
    pub fn words_mut(&mut self) -> &mut [u32] {
        &mut self.words
    }

    fn lent(&mut self) -> (*mut u32, usize) {
        (self.words.as_mut_ptr(), self.words.len())
    }

    fn read(&self) -> (*const u32, usize) {
        (self.words.as_ptr(), self.words.len())
    }

    /// Makes the store fresh again, whatever it held.
    pub fn make_fresh(&mut self) -> Result<(), Refusal> {
        let (s, n) = self.lent();
        done(unsafe { raw::imb_fresh(s, n) })
    }

    /// Loads a version set, of a name.
    pub fn load_version_set(&mut self, version_set: u32, name: u32) -> Result<(), Refusal> {
        let (s, n) = self.lent();
        done(unsafe { raw::imb_load_version_set(s, n, version_set, name) })
    }

    /// Loads a union of loaded version sets.
    pub fn load_union(&mut self, union: u32, members: &[u32]) -> Result<(), Refusal> {
        let (s, n) = self.lent();
        done(unsafe { raw::imb_load_union(s, n, union, members.as_ptr(), members.len()) })
    }

    /// Loads a requirement's candidates, a list for each of its version sets.
    pub fn load_candidates(&mut self, requirement: Requirement, lists: &[&[u32]]) -> Result<(), Refusal> {
        let lengths: Vec<u32> = lists.iter().map(|list| list.len() as u32).collect();
        let cells = lists.concat();
        let (kind, id) = requirement.words();
        let (s, n) = self.lent();
        done(unsafe { raw::imb_load_candidates(s, n, kind, id, lengths.as_ptr(), lengths.len(), cells.as_ptr(), cells.len()) })
    }

    /// Loads a disjunction of literals, each a variable and whether it is negated.
    pub fn load_disjunction(&mut self, disjunction: u32, literals: &[(u32, bool)]) -> Result<(), Refusal> {
        let variables: Vec<u32> = literals.iter().map(|literal| literal.0).collect();
        let signs: Vec<u32> = literals.iter().map(|literal| if literal.1 { raw::NEGATED } else { raw::PLAIN }).collect();
        let (s, n) = self.lent();
        done(unsafe {
            raw::imb_load_disjunction(s, n, disjunction, variables.as_ptr(), variables.len(), signs.as_ptr(), signs.len())
        })
    }

    /// Loads a node of a condition tree; its children are smaller nodes.
    pub fn load_condition(&mut self, node: u32, content: Node) -> Result<(), Refusal> {
        let (kind, left, right) = match content {
            Node::Leaf { version_set } => (raw::LEAF, version_set, 0),
            Node::And { left, right } => (raw::AND, left, right),
            Node::Or { left, right } => (raw::OR, left, right),
        };
        let (s, n) = self.lent();
        done(unsafe { raw::imb_load_condition(s, n, node, kind, left, right) })
    }

    /// Registers a clause of a parent under an id. A clause may be registered again.
    pub fn register(&mut self, parent: u32, requirement: Requirement, condition: Condition, clause: u32) -> Result<(), Refusal> {
        let (kind, id) = requirement.words();
        let (s, n) = self.lent();
        done(unsafe { raw::imb_register(s, n, parent, kind, id, condition.word(), clause) })
    }

    /// Makes a name hot, for good.
    pub fn mark_hot(&mut self, name: u32) -> Result<(), Refusal> {
        let (s, n) = self.lent();
        done(unsafe { raw::imb_mark_hot(s, n, name) })
    }

    /// Gives a name an activity. In standard mode mark the name hot first: a cold one above zero is refused.
    pub fn set_activity(&mut self, name: u32, activity: f32) -> Result<(), Refusal> {
        let (s, n) = self.lent();
        done(unsafe { raw::imb_set_activity(s, n, name, activity) })
    }

    /// Sets the mode.
    pub fn set_mode(&mut self, mode: Mode) -> Result<(), Refusal> {
        let (s, n) = self.lent();
        done(unsafe { raw::imb_set_mode(s, n, mode.word()) })
    }

    /// Assigns a value to a variable at a level, for a clause.
    pub fn assign(&mut self, variable: u32, value: bool, level: u32, clause: u32) -> Result<Assigned, Refusal> {
        let mut out = [0];
        let (s, n) = self.lent();
        let value = if value { raw::TRUE } else { raw::FALSE };
        done(unsafe { raw::imb_assign(s, n, variable, value, level, clause, out.as_mut_ptr()) })?;
        Ok(if out[0] == raw::YES { Assigned::New } else { Assigned::Already })
    }

    /// Takes the last entry back; the only entry stays, and is refused.
    pub fn undo_last(&mut self) -> Result<Popped, Refusal> {
        let mut out = [0; 4];
        let (s, n) = self.lent();
        done(unsafe { raw::imb_undo_last(s, n, out.as_mut_ptr()) })?;
        let [variable, value, clause, level] = out;
        Ok(Popped { decision: raw::Decision { variable, value, clause }.into(), level })
    }

    /// Takes entries back while the last one's level is above `level`; 0 clears the trail.
    pub fn undo_until(&mut self, level: u32) -> Result<(), Refusal> {
        let (s, n) = self.lent();
        done(unsafe { raw::imb_undo_until(s, n, level) })
    }

    /// Hands out the next entry that was not propagated.
    pub fn next_unpropagated(&mut self) -> Result<Option<Decision>, Refusal> {
        let mut out = [0; 4];
        let (s, n) = self.lent();
        done(unsafe { raw::imb_next_unpropagated(s, n, out.as_mut_ptr()) })?;
        let [found, variable, value, clause] = out;
        Ok((found == raw::YES).then(|| raw::Decision { variable, value, clause }.into()))
    }

    /// A variable's value and level, if it has them.
    pub fn value_of(&self, variable: u32) -> Result<Option<(bool, u32)>, Refusal> {
        let mut out = [0; 2];
        let (s, n) = self.read();
        done(unsafe { raw::imb_value_of(s, n, variable, out.as_mut_ptr()) })?;
        Ok((out[0] != raw::UNDECIDED).then_some((out[0] == raw::TRUE, out[1])))
    }

    /// The clause of a variable's first entry, if it has one.
    pub fn clause_of(&self, variable: u32) -> Result<Option<u32>, Refusal> {
        let mut out = [0; 2];
        let (s, n) = self.read();
        done(unsafe { raw::imb_clause_of(s, n, variable, out.as_mut_ptr()) })?;
        Ok((out[0] == raw::YES).then_some(out[1]))
    }

    /// How many entries the trail has.
    pub fn trail_length(&self) -> Result<usize, Refusal> {
        let mut out = [0];
        let (s, n) = self.read();
        done(unsafe { raw::imb_trail_length(s, n, out.as_mut_ptr()) })?;
        Ok(out[0] as usize)
    }

    /// The whole trail, into a list of `room` decisions; a shorter one is refused. No answer needs more than [`TRAIL_ENTRIES`], so no
    /// more are lent.
    pub fn trail_in(&self, room: usize) -> Result<Vec<Decision>, Refusal> {
        let mut list = vec![raw::Decision::default(); room.min(TRAIL_ENTRIES)];
        let mut out = [0];
        let (s, n) = self.read();
        done(unsafe { raw::imb_copy_trail(s, n, list.as_mut_ptr(), list.len(), out.as_mut_ptr()) })?;
        Ok(list[..out[0] as usize].iter().map(|&entry| entry.into()).collect())
    }

    /// The whole trail.
    pub fn trail(&self) -> Result<Vec<Decision>, Refusal> {
        self.trail_in(TRAIL_ENTRIES)
    }

    /// A requirement's candidate lists, as they were loaded.
    pub fn candidates(&self, requirement: Requirement) -> Result<Vec<Vec<u32>>, Refusal> {
        let mut lengths = [0; UNION_MEMBERS];
        let mut cells = [0; CANDIDATE_CELLS];
        let mut out = [0; 2];
        let (kind, id) = requirement.words();
        let (s, n) = self.read();
        done(unsafe {
            let (lists, room) = (lengths.as_mut_ptr(), cells.as_mut_ptr());
            raw::imb_copy_candidates(s, n, kind, id, lists, lengths.len(), room, cells.len(), out.as_mut_ptr())
        })?;
        Ok(parted(&lengths[..out[0] as usize], &cells))
    }

    /// The terms of a rewritten condition, in a list of `terms` lengths and one of `cells` version sets. No answer needs more than
    /// [`TERMS`] and [`TERM_CELLS`], so no more are lent.
    pub fn rewrite_in(&self, node: u32, terms: usize, cells: usize) -> Result<Vec<Vec<u32>>, Refusal> {
        let mut lengths = vec![0; terms.min(TERMS)];
        let mut sets = vec![0; cells.min(TERM_CELLS)];
        let mut out = [0; 2];
        let (s, n) = self.read();
        done(unsafe {
            raw::imb_rewrite(s, n, node, lengths.as_mut_ptr(), lengths.len(), sets.as_mut_ptr(), sets.len(), out.as_mut_ptr())
        })?;
        Ok(parted(&lengths[..out[0] as usize], &sets))
    }

    /// The terms of a rewritten condition.
    pub fn rewrite(&self, node: u32) -> Result<Vec<Vec<u32>>, Refusal> {
        self.rewrite_in(node, TERMS, TERM_CELLS)
    }

    /// Whether a disjunct holds: each conjunct has a candidate that is true.
    pub fn disjunct_holds(&self, conjuncts: &[Conjunct]) -> Result<bool, Refusal> {
        let (mut kinds, mut starts, mut lengths, mut cells) = (vec![], vec![], vec![], vec![]);
        for conjunct in conjuncts {
            let (kind, own): (u32, &[u32]) = match conjunct {
                Conjunct::Solvables(own) => (raw::SOLVABLES, own),
                Conjunct::Empty(own) => (raw::EMPTY, own),
            };
            kinds.push(kind);
            starts.push(cells.len() as u32);
            lengths.push(own.len() as u32);
            cells.extend_from_slice(own);
        }
        let mut out = [0];
        let (s, n) = self.read();
        done(unsafe {
            raw::imb_disjunct_holds(
                s,
                n,
                kinds.as_ptr(),
                kinds.len(),
                starts.as_ptr(),
                starts.len(),
                lengths.as_ptr(),
                lengths.len(),
                cells.as_ptr(),
                cells.len(),
                out.as_mut_ptr(),
            )
        })?;
        Ok(out[0] == raw::YES)
    }

    /// Brings the queue up to date; answers the number of touches.
    pub fn sync(&mut self) -> Result<u32, Refusal> {
        let mut out = [0];
        let (s, n) = self.lent();
        done(unsafe { raw::imb_sync(s, n, out.as_mut_ptr()) })?;
        Ok(out[0])
    }

    /// Asks for the next proposal.
    pub fn propose(&mut self) -> Result<Asked, Refusal> {
        let mut out = [0; raw::PROPOSAL_WORDS as usize];
        let (s, n) = self.lent();
        let number = unsafe { raw::imb_propose(s, n, out.as_mut_ptr()) };
        let [found, candidate, parent, clause, activity, count, dropped] = out;
        if number == raw::DEAD_CLAUSE {
            return Err(Refusal::DeadClause { clause, dropped });
        }
        done(number)?;
        let proposal = Proposal { candidate, parent, clause, activity: f32::from_bits(activity), count };
        Ok(Asked { proposal: (found == raw::YES).then_some(proposal), dropped })
    }

    /// The mode.
    pub fn mode(&self) -> Result<Mode, Refusal> {
        let mut out = [0];
        let (s, n) = self.read();
        done(unsafe { raw::imb_settings(s, n, out.as_mut_ptr()) })?;
        Ok(if out[0] == raw::STANDARD { Mode::Standard } else { Mode::AllClauses })
    }

    /// A name's activity, and whether it is hot.
    pub fn name(&self, name: u32) -> Result<(f32, bool), Refusal> {
        let mut out = [0; 2];
        let (s, n) = self.read();
        done(unsafe { raw::imb_name(s, n, name, out.as_mut_ptr()) })?;
        Ok((f32::from_bits(out[0]), out[1] == raw::YES))
    }
}

fn parted(lengths: &[u32], cells: &[u32]) -> Vec<Vec<u32>> {
    let mut rest = cells;
    lengths
        .iter()
        .map(|&length| {
            let (part, behind) = rest.split_at(length as usize);
            rest = behind;
            part.to_vec()
        })
        .collect()
}

#[cfg(test)]
mod tests {
    use super::*;
    use std::collections::BTreeMap;
    use std::ptr;

    const HEADER: &str = include_str!("../../include/imbolaverk.h");

    /// A number as the header writes it.
    fn number(word: &str) -> Option<usize> {
        word.trim_start_matches("UINT32_C(").trim_end_matches(')').parse().ok()
    }

    /// The header's `#define IMB_.. number` lines.
    fn defined() -> BTreeMap<&'static str, usize> {
        let word = |line: &'static str, i| line.split_whitespace().nth(i);
        HEADER
            .lines()
            .filter_map(|line| Some((line.strip_prefix("#define ")?, number(word(line, 2)?)?)))
            .map(|(rest, size)| (word(rest, 0).expect("a name"), size))
            .collect()
    }

    /// The header's `IMB_.. = number` of its enums.
    fn enumerated() -> BTreeMap<&'static str, u32> {
        HEADER
            .match_indices("IMB_")
            .filter_map(|(at, _)| {
                let (name, rest) = HEADER[at..].split_once(" = ")?;
                let digits = rest.split(|c: char| !c.is_ascii_digit()).next()?;
                name.bytes().all(|byte| byte.is_ascii_uppercase() || byte == b'_').then_some((name, digits.parse().ok()?))
            })
            .collect()
    }

    /// The header's `case IMB_..: return "words";` of each answer.
    fn worded() -> BTreeMap<&'static str, &'static str> {
        let row = |line: &'static str| line.trim().strip_prefix("case ")?.strip_suffix("\";")?.split_once(": return \"");
        HEADER.lines().filter_map(row).collect()
    }

    #[test]
    fn the_header_has_the_same_sizes() {
        let sizes = [
            ("IMB_NO_CONDITION", raw::NO_CONDITION as usize),
            ("IMB_WORDS", Store::size()),
            ("IMB_VARIABLES", VARIABLES),
            ("IMB_CLAUSES", CLAUSES),
            ("IMB_NAMES", NAMES),
            ("IMB_VERSION_SETS", VERSION_SETS),
            ("IMB_UNIONS", UNIONS),
            ("IMB_UNION_MEMBERS", UNION_MEMBERS),
            ("IMB_CANDIDATE_CELLS", CANDIDATE_CELLS),
            ("IMB_DISJUNCTIONS", DISJUNCTIONS),
            ("IMB_LITERALS", LITERALS),
            ("IMB_CONDITION_NODES", CONDITION_NODES),
            ("IMB_CLAUSE_LITERALS", CLAUSE_LITERALS),
            ("IMB_CLAUSE_NAMES", CLAUSE_NAMES),
            ("IMB_TERMS", TERMS),
            ("IMB_TERM_VERSION_SETS", TERM_VERSION_SETS),
            ("IMB_TRAIL_ENTRIES", TRAIL_ENTRIES),
            ("IMB_LAST_LEVEL", LAST_LEVEL as usize),
        ];
        assert_eq!(defined(), BTreeMap::from(sizes));
    }

    #[test]
    fn the_header_has_the_same_numbers() {
        assert_eq!(raw::CODES.iter().copied().collect::<BTreeMap<_, _>>(), enumerated());
    }

    #[test]
    fn refusals_have_the_numbers_and_the_words_of_the_header() {
        let numbers = enumerated();
        let mut told: BTreeMap<u32, &str> = worded().into_iter().map(|(name, words)| (numbers[name], words)).collect();
        assert_eq!(told.remove(&raw::DONE), Some("done"));
        assert_eq!(told, REFUSALS.iter().map(|row| (row.0, row.2)).collect());
        for (number, refusal, words) in REFUSALS {
            assert_eq!((refusal.number(), Refusal::of(number)), (number, refusal));
            if number != raw::DEAD_CLAUSE {
                assert_eq!(refusal.to_string(), words);
            }
        }
        assert_eq!(Refusal::DeadClause { clause: 7, dropped: 0 }.to_string(), "clause 7 has no candidate left");
    }

    #[test]
    fn a_store_is_shown_in_a_line() -> Result<(), Refusal> {
        let mut store = Store::new();
        store.assign(7, true, 1, 0)?;
        assert_eq!(format!("{store:?}"), format!("Store {{ words: {}, trail_length: 1, mode: Standard, .. }}", Store::size()));
        assert_eq!(format!("{:?}", Store::from_words(vec![0; 4])), "Store { words: 4, refused: BadStore, .. }");
        Ok(())
    }

    #[test]
    fn zeros_are_an_empty_store_in_the_other_mode() -> Result<(), Refusal> {
        let mut zeros = Store::from_words(vec![0; Store::size()]);
        assert_eq!((zeros.mode()?, zeros.trail_length()?), (Mode::AllClauses, 0));
        assert_eq!(zeros.propose()?, Asked { proposal: None, dropped: 0 });
        zeros.make_fresh()?;
        assert_eq!(zeros.mode()?, Mode::Standard);
        assert_eq!(zeros, Store::new());
        Ok(())
    }

    #[test]
    fn settings_names_and_the_trail_are_told() -> Result<(), Refusal> {
        let mut store = Store::new();
        assert_eq!(store.mode()?, Mode::Standard);
        store.mark_hot(3)?;
        store.set_activity(3, 2.5)?;
        store.set_mode(Mode::AllClauses)?;
        store.assign(7, true, 1, 0)?;
        assert_eq!(store.mode()?, Mode::AllClauses);
        assert_eq!(store.name(3)?, (2.5, true));
        assert_eq!(store.name(4)?, (0.0, false));
        assert_eq!(store.name(128), Err(Refusal::BadId));
        assert_eq!(store.trail_length()?, 1);
        assert_eq!(store.trail()?, [Decision { variable: 7, value: true, clause: 0 }]);
        Ok(())
    }

    #[test]
    fn the_pointer_of_an_empty_list_may_be_null() -> Result<(), Refusal> {
        let (read, written, trail) = (ptr::null(), ptr::null_mut(), ptr::null_mut());
        let mut out = [9; 2];
        let o = out.as_mut_ptr();
        let mut store = Store::new();
        store.load_version_set(0, 0)?;
        store.load_condition(0, Node::Leaf { version_set: 0 })?;
        let (s, n) = store.lent();
        unsafe {
            assert_eq!(raw::imb_load_union(s, n, 0, read, 0), 0);
            assert_eq!(raw::imb_load_candidates(s, n, 1, 0, read, 0, read, 0), 0);
            assert_eq!(raw::imb_load_candidates(s, n, 0, 0, [0].as_ptr(), 1, read, 0), 0);
            assert_eq!(raw::imb_load_disjunction(s, n, 0, read, 0, read, 0), 0);
            assert_eq!(raw::imb_copy_candidates(s, n, 1, 0, written, 0, written, 0, o), 0);
            assert_eq!(raw::imb_copy_trail(s, n, trail, 0, o), 0);
            assert_eq!(raw::imb_rewrite(s, n, 0, written, 0, written, 0, o), 3);
            assert_eq!(raw::imb_disjunct_holds(s, n, read, 0, read, 0, read, 0, read, 0, o), 0);
            assert_eq!(raw::imb_fresh(written, 0), 1);
        }
        assert_eq!(out, [1, 0]);
        Ok(())
    }

    #[test]
    fn more_room_than_needed_changes_no_answer() -> Result<(), Refusal> {
        let mut store = Store::new();
        store.load_version_set(0, 0)?;
        store.load_condition(0, Node::Leaf { version_set: 0 })?;
        store.assign(0, true, 1, 0)?;
        assert_eq!(store.trail_in(usize::MAX), store.trail());
        assert_eq!(store.trail_in(0), Err(Refusal::NoRoom));
        assert_eq!(store.rewrite_in(0, usize::MAX, usize::MAX), Ok(vec![vec![0]]));
        assert_eq!(store.rewrite_in(0, 0, usize::MAX), Err(Refusal::NoRoom));
        Ok(())
    }
}
