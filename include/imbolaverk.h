/*
 * Imbolaverk: a decision queue over one lent slice of words.
 *
 * Link libimbolaverk.a (`host/library.sh` writes build/library/libimbolaverk.a for the machine at hand). The library allocates nothing and keeps
 * nothing between calls: all of its state is in the words that the caller lends. Of the C library it needs memcpy and memset.
 *
 * imb_fresh comes first. Nothing can tell a store that was never made fresh from one that was: words that are all zero, as those of a static
 * array are, are a store of sound shape, empty as a fresh one but in the other mode (IMB_ALL_CLAUSES), and every call takes them. Words
 * that hold anything else are nearly always refused by IMB_BAD_STORE.
 *
 * Every call takes the store first, as a pointer and its length in words; every other list is a pointer and a length too. An output
 * `out[N]` is a pointer to N words. The pointer of an empty list may be NULL; no other may be. A list or an output that a call writes,
 * the store among them, may overlap no other list or output of that call. Calls on different stores may run at once.
 *
 * Every call but imb_words answers IMB_DONE or a refusal. Every call is total: whatever the arguments and the words are, it answers
 * and never reads or writes outside the lists that it was lent. A refusal changes no word of the store and no output, with one
 * exception, IMB_DEAD_CLAUSE of imb_propose.
 *
 * Each call lists the refusals that it can answer, in the order in which it tests for them; every call that takes a store can
 * answer IMB_BAD_STORE, which is not repeated below.
 */
#ifndef IMBOLAVERK_H
#define IMBOLAVERK_H

#include <stddef.h>
#include <stdint.h>

/* The library's lengths have 64 bits, so a size_t of 4 bytes would pass half of one. */
typedef char imb_size_t_must_have_8_bytes[sizeof(size_t) == 8 ? 1 : -1];

#ifdef __cplusplus
extern "C" {
#endif

/* What a call answers. The tests run in the order 1, 2, 4, 9, 11, 12, 5, 6, 10, 7, 3, 8. */
enum imb_answer {
    IMB_DONE = 0,
    IMB_BAD_STORE = 1,      /* the slice is too short, or the store's shape is unsound */
    IMB_BAD_ID = 2,         /* an id or a cell range is out of range, or names something not loaded; an unknown value, sign, mode or kind */
    IMB_NO_ROOM = 3,        /* a size of the store, or a lent output list, would be exceeded */
    IMB_BAD_LEVEL = 4,      /* an assignment's level is 0, or a level is above IMB_LAST_LEVEL */
    IMB_OTHER_VALUE = 5,    /* the variable already holds the other value */
    IMB_NO_STOP = 6,        /* undo has no entry to stop at */
    IMB_UNSYNCED = 7,       /* a proposal is asked of an unsynced store */
    IMB_DEAD_CLAUSE = 8,    /* the walk reached a dead clause */
    IMB_BAD_ACTIVITY = 9,   /* an activity is NaN, infinite, or has its sign bit set (so also -0.0) */
    IMB_COLD_ACTIVITY = 10, /* standard mode would hold a cold name with an activity above zero */
    IMB_MALFORMED = 11,     /* a table is malformed */
    IMB_LOADED_TWICE = 12   /* what is to be loaded is loaded already */
};

/* What an answer says, in words, for a message or a log. */
static inline const char *imb_answer_text(uint32_t answer) {
    switch (answer) {
    case IMB_DONE: return "done";
    case IMB_BAD_STORE: return "the store is too short or not of sound shape";
    case IMB_BAD_ID: return "an id is out of range or not loaded";
    case IMB_NO_ROOM: return "there is no room left";
    case IMB_BAD_LEVEL: return "the level is 0 or above 2,147,483,647";
    case IMB_OTHER_VALUE: return "the variable holds the other value";
    case IMB_NO_STOP: return "undo has no entry to stop at";
    case IMB_UNSYNCED: return "the store is not synced";
    case IMB_DEAD_CLAUSE: return "a clause has no candidate left";
    case IMB_BAD_ACTIVITY: return "the activity is not a finite number from zero on";
    case IMB_COLD_ACTIVITY: return "standard mode would hold a cold name with an activity above zero";
    case IMB_MALFORMED: return "the table is malformed";
    case IMB_LOADED_TWICE: return "it is loaded already";
    default: return "no answer of this library";
    }
}

/* A variable's value. IMB_UNDECIDED is an answer of imb_value_of alone. */
enum imb_value { IMB_FALSE = 0, IMB_TRUE = 1, IMB_UNDECIDED = 2 };

/* A literal's sign. */
enum imb_sign { IMB_PLAIN = 0, IMB_NEGATED = 1 };

/* The kind of a requirement: its id is a version set's or a union's. */
enum imb_requirement_kind { IMB_SINGLE = 0, IMB_UNION = 1 };

/* The kind of a condition node. */
enum imb_node_kind { IMB_LEAF = 0, IMB_AND = 1, IMB_OR = 2 };

/* The kind of a conjunct: over the candidates that match a version set, where some of the name's do not; or over all candidates of a name,
 * where every one matches, so the complement is empty. Either holds if one of its candidates is true. */
enum imb_conjunct_kind { IMB_SOLVABLES = 0, IMB_EMPTY = 1 };

/* The mode: in standard mode a proposal goes on over hot clauses alone. */
enum imb_mode { IMB_ALL_CLAUSES = 0, IMB_STANDARD = 1 };

/* The condition of a clause that has none. */
#define IMB_NO_CONDITION UINT32_C(4294967295)

/* Where the words of a proposal stand in the output of imb_propose. */
enum imb_proposal_word {
    IMB_PROPOSAL_FOUND = 0, /* 1, or 0 where nothing is open */
    IMB_PROPOSAL_CANDIDATE = 1,
    IMB_PROPOSAL_PARENT = 2,
    IMB_PROPOSAL_CLAUSE = 3, /* also the dead clause's id */
    IMB_PROPOSAL_ACTIVITY = 4, /* the bits of a float */
    IMB_PROPOSAL_COUNT = 5,
    IMB_PROPOSAL_DROPPED = 6,
    IMB_PROPOSAL_WORDS = 7
};

/* The sizes of a store. */
#define IMB_WORDS 14219            /* what imb_words answers */
#define IMB_VARIABLES 512          /* 0..511; 0 is the root */
#define IMB_CLAUSES 512
#define IMB_NAMES 128
#define IMB_VERSION_SETS 256
#define IMB_UNIONS 64
#define IMB_UNION_MEMBERS 8
#define IMB_CANDIDATE_CELLS 2048
#define IMB_DISJUNCTIONS 128
#define IMB_LITERALS 1024
#define IMB_CONDITION_NODES 128
#define IMB_CLAUSE_LITERALS 1024   /* the conditions of all clauses together */
#define IMB_CLAUSE_NAMES 1024      /* the distinct names of all clauses together, each clause for itself */
#define IMB_TERMS 64
#define IMB_TERM_VERSION_SETS 16
#define IMB_TRAIL_ENTRIES 512
#define IMB_LAST_LEVEL UINT32_C(2147483647)

/* An entry of the trail. */
typedef struct imb_decision {
    uint32_t variable;
    uint32_t value;
    uint32_t clause;
} imb_decision;

/* ---- the store */

/* How many words a store needs. Words beyond them are never read or changed. */
size_t imb_words(void);

/* Makes a fresh store of any words: nothing loaded, nothing assigned, standard mode. The first call on a store. */
uint32_t imb_fresh(uint32_t *s, size_t s_len);

/* ---- tables, each loaded once */

/* Loads a version set with its name. Refusals: 2, 12. */
uint32_t imb_load_version_set(uint32_t *s, size_t s_len, uint32_t version_set, uint32_t name);

/* Loads a union of loaded version sets. Refusals: 2, 11 (a version set stands twice), 12, 3 (more than IMB_UNION_MEMBERS). */
uint32_t imb_load_union(uint32_t *s, size_t s_len, uint32_t union_id, const uint32_t *members, size_t members_len);

/* Loads the candidate lists of a requirement, one for each of its version sets: list j is the next lengths[j] cells.
 * Refusals: 2 (also where the lengths do not add up to exactly the cells lent), 11 (the number of lists is not that of the
 * version sets), 12, 3. */
uint32_t imb_load_candidates(uint32_t *s, size_t s_len, uint32_t kind, uint32_t id, const uint32_t *lengths, size_t lengths_len,
                             const uint32_t *cells, size_t cells_len);

/* Loads a disjunction: literal j is variables[j] with signs[j]. Refusals: 2 (also where the two lists differ in length), 12, 3. */
uint32_t imb_load_disjunction(uint32_t *s, size_t s_len, uint32_t disjunction, const uint32_t *variables, size_t variables_len,
                              const uint32_t *signs, size_t signs_len);

/* Loads a condition node: a leaf of the version set `left` (`right` is not read), or the `and` or `or` of two loaded nodes.
 * Refusals: 2, 11 (a child is not smaller than the node), 12. */
uint32_t imb_load_condition(uint32_t *s, size_t s_len, uint32_t node, uint32_t kind, uint32_t left, uint32_t right);

/* Copies the candidate lists of a requirement out, as they were loaded: out = [lists, cells]. What the lists held past the answer is
 * kept. Refusals: 2, 3 (a lent list is too short). */
uint32_t imb_copy_candidates(const uint32_t *s, size_t s_len, uint32_t kind, uint32_t id, uint32_t *lengths, size_t lengths_len,
                             uint32_t *cells, size_t cells_len, uint32_t out[2]);

/* ---- clauses, names, the mode */

/* Registers a clause of a parent: a requirement whose candidates are loaded, a loaded disjunction or IMB_NO_CONDITION, any id.
 * A clause may be registered again. Refusals: 2, 3 (IMB_CLAUSES, IMB_CLAUSE_LITERALS or IMB_CLAUSE_NAMES would be exceeded). */
uint32_t imb_register(uint32_t *s, size_t s_len, uint32_t parent, uint32_t kind, uint32_t requirement, uint32_t condition,
                      uint32_t clause);

/* Makes a name hot, for good. Refusals: 2. */
uint32_t imb_mark_hot(uint32_t *s, size_t s_len, uint32_t name);

/* Gives a name an activity. In standard mode mark the name hot first: a cold one above zero is 10. Refusals: 2, 9, 10. */
uint32_t imb_set_activity(uint32_t *s, size_t s_len, uint32_t name, float activity);

/* Sets the mode. Refusals: 2, 10. */
uint32_t imb_set_mode(uint32_t *s, size_t s_len, uint32_t mode);

/* out = [mode]. */
uint32_t imb_settings(const uint32_t *s, size_t s_len, uint32_t out[1]);

/* out = [the bits of the name's activity, 1 if it is hot else 0]. Refusals: 2. */
uint32_t imb_name(const uint32_t *s, size_t s_len, uint32_t name, uint32_t out[2]);

/* ---- the trail */

/* Assigns a value to a variable at a level, for a clause: out = [1 if it is new, 0 if the variable holds the value already].
 * Refusals: 2, 4, 5, 3. */
uint32_t imb_assign(uint32_t *s, size_t s_len, uint32_t variable, uint32_t value, uint32_t level, uint32_t clause, uint32_t out[1]);

/* Takes the last entry back: out = [variable, value, clause, the level of the new last entry]. Refusals: 6 (fewer than two entries). */
uint32_t imb_undo_last(uint32_t *s, size_t s_len, uint32_t out[4]);

/* Takes entries back while the last one's level is above `level`; 0 clears the trail. Refusals: 4, 6 (every entry is above). */
uint32_t imb_undo_until(uint32_t *s, size_t s_len, uint32_t level);

/* Hands out the next entry that was not propagated: out = [1, variable, value, clause]; if there is none, out[0] = 0 and the rest is
 * kept. */
uint32_t imb_next_unpropagated(uint32_t *s, size_t s_len, uint32_t out[4]);

/* out = [an imb_value, its level, 0 if undecided]. Refusals: 2. */
uint32_t imb_value_of(const uint32_t *s, size_t s_len, uint32_t variable, uint32_t out[2]);

/* The clause of the variable's first entry: out = [1, clause]; if it has none, out[0] = 0 and out[1] is kept. Refusals: 2. */
uint32_t imb_clause_of(const uint32_t *s, size_t s_len, uint32_t variable, uint32_t out[2]);

/* out = [entries of the trail]. */
uint32_t imb_trail_length(const uint32_t *s, size_t s_len, uint32_t out[1]);

/* Copies the whole trail out: list[0..n] is filled, the rest of the list is kept, out = [n]. Refusals: 3 (a shorter list). */
uint32_t imb_copy_trail(const uint32_t *s, size_t s_len, imb_decision *list, size_t list_len, uint32_t out[1]);

/* ---- conditions */

/* Rewrites the condition of a node to its terms: lengths[j] version sets each, one term after the other in the cells;
 * out = [terms, cells used]. What the lists held past the answer is kept. Refusals: 2, 3 (more than IMB_TERMS terms, a term of more
 * than IMB_TERM_VERSION_SETS, or a lent list is too short). */
uint32_t imb_rewrite(const uint32_t *s, size_t s_len, uint32_t node, uint32_t *lengths, size_t lengths_len, uint32_t *cells,
                     size_t cells_len, uint32_t out[2]);

/* Whether each conjunct has a candidate assigned true: conjunct j is of kinds[j] over cells[starts[j] .. starts[j] + lengths[j]];
 * out = [1 if the disjunct holds else 0]. Cells in no range are not read. Refusals: 2 (lists of different length, an unknown kind, a
 * range that does not lie in the cells, also an empty one that starts beyond them, a cell of a range that is no variable). */
uint32_t imb_disjunct_holds(const uint32_t *s, size_t s_len, const uint32_t *kinds, size_t kinds_len, const uint32_t *starts,
                            size_t starts_len, const uint32_t *lengths, size_t lengths_len, const uint32_t *cells, size_t cells_len,
                            uint32_t out[1]);

/* ---- the queue */

/* Brings the queue up to the trail: out = [touches], the entries that came or went since the last sync. Call it after assigning or
 * undoing and before imb_propose, which else answers 7; loading, registering and the settings need no sync. */
uint32_t imb_sync(uint32_t *s, size_t s_len, uint32_t out[1]);

/* Proposes the next decision: out = [1, candidate, parent, clause, the activity's bits, count, dropped].
 * Nothing is open: answers 0 with out[0] = 0 and out[6] = dropped, the rest kept.
 * Refusals: 7; 8, where the store keeps what the walk did, out[3] = the dead clause's id and out[6] = dropped, the rest kept.
 * Look at the number first: at 8 out[0] is what it was. `count` is how many cells of the candidate's list are undecided, `dropped` how many
 * clauses left the queue by this call. */
uint32_t imb_propose(uint32_t *s, size_t s_len, uint32_t out[7]);

#ifdef __cplusplus
}
#endif

#endif
