//! The C entry points as they are, one declaration each; docs/ABI.md and include/imbolaverk.h describe them.
//!
//! A slice is a pointer and a length: rustc's own `extern "C"` would pass `&[u32]` in a way that goes wrong once registers run out.

/// One entry of the trail, as `imb_copy_trail` writes it.
#[repr(C)]
#[derive(Clone, Copy, Debug, Default, PartialEq, Eq)]
pub struct Decision {
    /// The variable that was assigned.
    pub variable: u32,
    /// Its value, [`FALSE`] or [`TRUE`].
    pub value: u32,
    /// The clause that it was assigned for.
    pub clause: u32,
}

/// Names numbers as the header does, and lists them for the test that holds them to it.
macro_rules! codes {
    ($($name:ident = $number:expr, $meaning:literal;)*) => {
        $(#[doc = $meaning] pub const $name: u32 = $number;)*
        #[cfg(test)]
        pub(crate) const CODES: &[(&str, u32)] = &[$((concat!("IMB_", stringify!($name)), $number)),*];
    };
}

codes! {
    DONE = 0, "What a call answers that was not refused.";
    BAD_STORE = 1, "The refusal of a store that is too short or not of sound shape.";
    BAD_ID = 2, "The refusal of an id that is out of range or not loaded.";
    NO_ROOM = 3, "The refusal where there is no room left.";
    BAD_LEVEL = 4, "The refusal of a level.";
    OTHER_VALUE = 5, "The refusal where the variable holds the other value.";
    NO_STOP = 6, "The refusal of an undo that has no entry to stop at.";
    UNSYNCED = 7, "The refusal of a store that is not synced.";
    DEAD_CLAUSE = 8, "The refusal where a clause has no candidate left.";
    BAD_ACTIVITY = 9, "The refusal of an activity.";
    COLD_ACTIVITY = 10, "The refusal where standard mode would hold a cold name with an activity above zero.";
    MALFORMED = 11, "The refusal of a malformed table.";
    LOADED_TWICE = 12, "The refusal of what is loaded already.";
    FALSE = 0, "A value.";
    TRUE = 1, "A value.";
    UNDECIDED = 2, "No value, an answer of `imb_value_of` alone.";
    PLAIN = 0, "A literal's sign.";
    NEGATED = 1, "A literal's sign.";
    SINGLE = 0, "The kind of a requirement: a version set.";
    UNION = 1, "The kind of a requirement: a union.";
    LEAF = 0, "The kind of a condition node.";
    AND = 1, "The kind of a condition node.";
    OR = 2, "The kind of a condition node.";
    SOLVABLES = 0, "The kind of a conjunct.";
    EMPTY = 1, "The kind of a conjunct.";
    ALL_CLAUSES = 0, "The mode in which every clause is looked at.";
    STANDARD = 1, "Standard mode.";
    PROPOSAL_FOUND = 0, "Where a proposal's word stands that says whether there is one.";
    PROPOSAL_CANDIDATE = 1, "Where a proposal's candidate stands.";
    PROPOSAL_PARENT = 2, "Where a proposal's parent stands.";
    PROPOSAL_CLAUSE = 3, "Where a proposal's clause stands, and the dead clause's id.";
    PROPOSAL_ACTIVITY = 4, "Where the bits of a proposal's activity stand.";
    PROPOSAL_COUNT = 5, "Where a proposal's count stands.";
    PROPOSAL_DROPPED = 6, "Where the number of dropped clauses stands.";
    PROPOSAL_WORDS = 7, "How many words a proposal has.";
}

/// What found, new, hot and holds are where it is so.
pub const YES: u32 = 1;

/// The condition of a clause that has none.
pub const NO_CONDITION: u32 = u32::MAX;

/// Declares calls on a store, `mut` where a call may change it and `const` where it cannot: each takes the store's words and their
/// number first, and answers 0 or the number of its refusal.
macro_rules! calls {
    ($($access:tt $call:ident($($parameter:ident: $kind:ty),*);)*) => {
        #[allow(missing_docs)]
        extern "C" {
            $(pub fn $call(s: *$access u32, n: usize, $($parameter: $kind),*) -> u32;)*
        }
    };
}

extern "C" {
    /// How many words a store needs.
    pub fn imb_words() -> usize;
}

calls! {
    mut imb_fresh();
    mut imb_load_version_set(version_set: u32, name: u32);
    mut imb_load_union(union: u32, members: *const u32, members_n: usize);
    mut imb_load_candidates(kind: u32, id: u32, lengths: *const u32, lengths_n: usize, cells: *const u32, cells_n: usize);
    mut imb_load_disjunction(disjunction: u32, variables: *const u32, variables_n: usize, signs: *const u32, signs_n: usize);
    mut imb_load_condition(node: u32, kind: u32, left: u32, right: u32);
    mut imb_register(parent: u32, kind: u32, requirement: u32, condition: u32, clause: u32);
    mut imb_mark_hot(name: u32);
    mut imb_set_activity(name: u32, activity: f32);
    mut imb_set_mode(mode: u32);
    mut imb_assign(variable: u32, value: u32, level: u32, clause: u32, out: *mut u32);
    mut imb_undo_last(out: *mut u32);
    mut imb_undo_until(level: u32);
    mut imb_next_unpropagated(out: *mut u32);
    const imb_value_of(variable: u32, out: *mut u32);
    const imb_clause_of(variable: u32, out: *mut u32);
    const imb_trail_length(out: *mut u32);
    const imb_copy_trail(list: *mut Decision, list_n: usize, out: *mut u32);
    const imb_copy_candidates(
        kind: u32, id: u32, lengths: *mut u32, lengths_n: usize, cells: *mut u32, cells_n: usize, out: *mut u32
    );
    const imb_rewrite(node: u32, lengths: *mut u32, lengths_n: usize, cells: *mut u32, cells_n: usize, out: *mut u32);
    const imb_disjunct_holds(
        kinds: *const u32, kinds_n: usize, starts: *const u32, starts_n: usize, lengths: *const u32, lengths_n: usize,
        cells: *const u32, cells_n: usize, out: *mut u32
    );
    mut imb_sync(out: *mut u32);
    mut imb_propose(out: *mut u32);
    const imb_settings(out: *mut u32);
    const imb_name(name: u32, out: *mut u32);
}
