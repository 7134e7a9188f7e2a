/*
 * A first program in C: a pack is loaded, a proposal is asked for, tried, taken back and asked for again. The button has not moved.
 *
 *     host/library.sh
 *     cc -std=c99 -Wall -Wextra -Iinclude examples/first.c build/library/libimbolaverk.a -o build/first
 *     build/first
 *
 * What it prints (it ends with a failure where an answer is another):
 *
 *     asked too early: 7, the store is not synced
 *     proposed: candidate 1 by parent 0, clause 10, activity 0, 3 undecided
 *     tried it: nothing is left to settle
 *     proposed: candidate 1 by parent 0, clause 10, activity 0, 3 undecided
 *     taken back too far: 6, undo has no entry to stop at
 */
#include <stdio.h>
#include <stdlib.h>
#include <string.h>

#include "imbolaverk.h"

enum { ROOT = 0, PACK = 0, NAME = 0, CLAUSE = 10, FIRST_LEVEL = 1 };

static uint32_t store[IMB_WORDS];

/* Ends the program where something is not as it should be. */
static void expect(const char *what, int is_so) {
    if (!is_so) {
        fprintf(stderr, "it should be so and is not: %s\n", what);
        exit(EXIT_FAILURE);
    }
}

/* Prints a refusal by its number and its words; it must be the expected one. */
static void say_refused(const char *what, uint32_t expected, uint32_t answer) {
    printf("%s: %u, %s\n", what, (unsigned)answer, imb_answer_text(answer));
    expect(imb_answer_text(expected), answer == expected);
}

/* Ends the program where a call is refused that should not be. */
static void must(const char *call, uint32_t answer) {
    if (answer != IMB_DONE) {
        say_refused(call, IMB_DONE, answer);
    }
}

/* One pack: a version set with three candidates, and a clause of the root that needs one of them. */
static void load_pack(void) {
    const uint32_t lengths[] = {3};
    const uint32_t candidates[] = {1, 2, 3};
    must("load version set", imb_load_version_set(store, IMB_WORDS, PACK, NAME));
    must("load candidates", imb_load_candidates(store, IMB_WORDS, IMB_SINGLE, PACK, lengths, 1, candidates, 3));
    must("register", imb_register(store, IMB_WORDS, ROOT, IMB_SINGLE, PACK, IMB_NO_CONDITION, CLAUSE));
}

static void assign_true(uint32_t variable, uint32_t level, uint32_t clause) {
    uint32_t is_new[1];
    must("assign", imb_assign(store, IMB_WORDS, variable, IMB_TRUE, level, clause, is_new));
}

static void sync_store(void) {
    uint32_t touches[1];
    must("sync", imb_sync(store, IMB_WORDS, touches));
}

/* Syncs, asks and prints the proposal. */
static void ask(const char *what, uint32_t proposal[IMB_PROPOSAL_WORDS]) {
    float activity;
    sync_store();
    must("propose", imb_propose(store, IMB_WORDS, proposal));
    if (proposal[IMB_PROPOSAL_FOUND] == 0) {
        printf("%s: nothing is left to settle\n", what);
        return;
    }
    memcpy(&activity, &proposal[IMB_PROPOSAL_ACTIVITY], sizeof activity);
    printf("%s: candidate %u by parent %u, clause %u, activity %g, %u undecided\n", what, (unsigned)proposal[IMB_PROPOSAL_CANDIDATE],
           (unsigned)proposal[IMB_PROPOSAL_PARENT], (unsigned)proposal[IMB_PROPOSAL_CLAUSE], (double)activity,
           (unsigned)proposal[IMB_PROPOSAL_COUNT]);
}

int main(void) {
    uint32_t first[IMB_PROPOSAL_WORDS] = {0};
    uint32_t tried[IMB_PROPOSAL_WORDS] = {0};
    uint32_t again[IMB_PROPOSAL_WORDS] = {0};
    uint32_t popped[4];

    must("fresh", imb_fresh(store, IMB_WORDS));
    load_pack();
    assign_true(ROOT, FIRST_LEVEL, 0);
    say_refused("asked too early", IMB_UNSYNCED, imb_propose(store, IMB_WORDS, first));

    ask("proposed", first);
    expect("a candidate is proposed", first[IMB_PROPOSAL_FOUND] == 1);
    assign_true(first[IMB_PROPOSAL_CANDIDATE], FIRST_LEVEL + 1, first[IMB_PROPOSAL_CLAUSE]);
    ask("tried it", tried);
    expect("nothing is left while it is tried", tried[IMB_PROPOSAL_FOUND] == 0);
    must("undo last", imb_undo_last(store, IMB_WORDS, popped));
    ask("proposed", again);
    expect("all but the drop count is the same again", memcmp(first, again, IMB_PROPOSAL_DROPPED * sizeof first[0]) == 0);
    say_refused("taken back too far", IMB_NO_STOP, imb_undo_last(store, IMB_WORDS, popped));
    return EXIT_SUCCESS;
}
