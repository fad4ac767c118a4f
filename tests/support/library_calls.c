/* Calls each function of lib/pfs.h once with valid arguments and once with each kind of wrong one. Every output is in
 * `out`, which is filled with a pattern before a call. After the call, `out` has to equal `due` byte for byte. The
 * instance and its makespans are those of README.md, the drawn times those of Taillard's first instance.
 *
 * usage: library_calls all      every call; prints the number of calls
 *        library_calls threads  calls on four drawn instances, one after the other and in four threads at once; prints
 *                               whether the results are the same
 *        library_calls NAME..   a valid call of each, twice, with the preparation of its instance; prints for each call
 *                               `right`, or `memory` if an allocation failed */
#include <pthread.h>
#include <stddef.h>
#include <stdio.h>
#include <stdlib.h>
#include <string.h>

#include "pfs.h"
#include "pfs.h" /* which may be read twice */

#define COUNT(list) (sizeof(list) / sizeof *(list))
#define IS(word) (strcmp(name, word) == 0)
#define PATTERN 0xA5

struct outputs {
    uint64_t makespan, bound, cells, fault;
    size_t jobs, machines, place, length;
    uint32_t list[44];
    uint64_t starts[8], ends[8], makespans[4];
    struct pfs_proof proof;
    uint8_t text[200];
    struct pfs_block block;
};
/* Nothing is said of the bytes after the last field of a block. */
enum { COMPARED = offsetof(struct outputs, block.notes) + sizeof(struct pfs_notes) };

/* `given` has what a call reads of its outputs. */
static struct outputs out, due, given;
static int calls, failures;
/* The instance of most calls, between numbers that no call may write. */
static struct {
    uint64_t before;
    struct pfs_instance instance;
    uint64_t after;
} held = {PATTERN, {NULL}, PATTERN};
static struct pfs_instance *const shop = &held.instance;
static const uint32_t TIMES[6] = {3, 2, 2, 5, 4, 1}, BEST[3] = {1, 0, 2}, NUMBERED[3] = {0, 1, 2};
static const uint32_t BACKWARD[3] = {2, 1, 0}, ALL[3] = {PFS_OPEN, PFS_OPEN, PFS_OPEN};
static const uint32_t OUTSIDE[3] = {9, 9, 9}, TWICE[3] = {1, 1, 9};
/* The first random words of seed 7. */
static const uint32_t WORDS[5] = {2442223337, 414063806, 2743600285, 3524868804, 2371632060};
static const struct pfs_block BLOCK = {3, 2, {7, 9, 8}};

static void fresh(void) {
    memset(&out, PATTERN, sizeof out);
    memset(&due, PATTERN, sizeof due);
    memset(&given, PATTERN, sizeof given);
}

static int are_due(void) {
    return held.before == PATTERN && held.after == PATTERN && memcmp(&out, &due, COMPARED) == 0;
}

/* Checks a call, which should have returned `number`, and fills the outputs with the pattern again. */
static void check(int line, int number, int returned) {
    ++calls;
    if (returned != number || !are_due()) {
        ++failures;
        printf("line %d: %d is due, returned %d, outputs %s\n", line, number, returned, are_due() ? "right" : "wrong");
    }
    fresh();
}

#define CALL(number, call) check(__LINE__, number, call)

/* After a call that returned `number`, the best order is due. */
static int finds_best(int number) {
    memcpy(due.list, BEST, sizeof BEST);
    return due.makespan = 10, number;
}

/* A list that a call reads and overwrites. */
static uint32_t *in_place(const uint32_t *jobs) {
    memcpy(due.list, jobs, 3 * sizeof *jobs);
    memcpy(given.list, jobs, 3 * sizeof *jobs);
    return memcpy(out.list, jobs, 3 * sizeof *jobs);
}

static int rounds(uint32_t *order, size_t length, uint32_t first, size_t take, uint32_t passes) {
    struct pfs_rounds_options options = {.seed = 7, .take = take, .first = first, .count = 1, .passes = passes};
    return pfs_rounds(shop, &options, order, length, &out.makespan, &out.cells);
}

static int iterate(uint32_t *orders, size_t length, uint32_t first, size_t take, size_t fixed, uint32_t passes,
                   uint32_t ties) {
    struct pfs_iterate_options options = {.seed = 7,
                                          .take = take,
                                          .held = fixed,
                                          .first = first,
                                          .count = 1,
                                          .partial = 1,
                                          .passes = passes,
                                          .ties = ties};
    return pfs_iterate(shop, &options, orders, length, &out.makespan, orders + 3, 3, &out.bound);
}

/* Two lists that a call reads and overwrites. */
static uint32_t *both(const uint32_t *current, const uint32_t *best) {
    memcpy(due.list + 3, best, 3 * sizeof *best);
    memcpy(out.list + 3, best, 3 * sizeof *best);
    return in_place(current);
}

/* A search of the part of one row by two nodes. The list has the order of 3 jobs and 7 rows, `starts` their bounds. */
static int prove_parts(const uint32_t *order, size_t length, const uint32_t *row, size_t room, uint64_t count) {
    uint32_t *rows = in_place(order) + 3;
    memcpy(due.list + 3, row, 3 * sizeof *row);
    memcpy(given.list + 3, row, 3 * sizeof *row);
    out.proof.limit = UINT64_MAX, out.proof.nodes = 2, out.proof.count = count;
    due.proof = given.proof = out.proof;
    return pfs_prove_parts(shop, out.list, length, memcpy(rows, row, 3 * sizeof *row), 3 * room, out.starts, room,
                           &out.proof);
}

#define TITLE "number of jobs, number of machines, initial seed, upper bound and lower bound :\n"
#define THREE_JOBS TITLE "3 2 7 9 8\nprocessing times :\n3 2 4\n2 5 1\n"
#define BY_JOB "flow shop instance\n3 2\n0 3 1 2\n0 2 1 5\n0 4 1 1\n"

static int read_text(const char *text, uint32_t layout, size_t block, size_t room) {
    return pfs_read((const uint8_t *)text, strlen(text), layout, block, &out.block, out.list, room, &out.fault);
}

static int read_order(const char *text, size_t room) {
    return pfs_read_order((const uint8_t *)text, strlen(text), out.list, room, &out.jobs, &out.machines, &out.makespan,
                          &out.fault);
}

#define DUE_TEXT(words) (due.length = sizeof(words) - 1, memcpy(due.text, words, sizeof(words) - 1))

/* 40 jobs on 5 machines, all times 1, so that all orders are equally long. */
static int prepare_large(void) {
    static uint32_t ones[200];
    for (size_t at = 0; at < COUNT(ones); ++at)
        ones[at] = 1;
    return pfs_prepare(ones, 200, 40, 5, shop);
}

/* Makes a valid call of the function of this name, and says what is due. */
static int call_named(const char *name) {
    if (IS("sizes"))
        return due.jobs = 3, due.machines = 2, pfs_sizes(shop, &out.jobs, &out.machines);
    if (IS("faulty_job"))
        return due.place = 3, pfs_faulty_job(shop, BEST, 3, &out.place);
    if (IS("makespan"))
        return due.makespan = 10, pfs_makespan(shop, BEST, 3, &out.makespan);
    if (IS("makespans"))
        return due.makespans[0] = 10, due.makespans[1] = 11,
               pfs_makespans(shop, (uint32_t[]){1, 0, 2, 0, 1, 2}, 6, 3, out.makespans, 2);
    if (IS("bound"))
        return due.bound = 10, pfs_bound(shop, &out.bound);
    if (IS("pairs_bound"))
        return due.bound = 10, pfs_pairs_bound(shop, &out.bound);
    if (IS("table"))
        return memcpy(due.starts, (uint64_t[]){0, 2, 2, 7, 5, 9}, 48),
               memcpy(due.ends, (uint64_t[]){2, 7, 5, 9, 9, 10}, 48),
               pfs_table(shop, BEST, 3, out.starts, 6, out.ends, 6);
    if (IS("neh"))
        return due.cells = 36, finds_best(pfs_neh(shop, out.list, 3, &out.makespan, &out.cells));
    if (IS("rounds"))
        return due.cells = 80, finds_best(rounds(in_place(NUMBERED), 3, 0, 1, 1));
    if (IS("prove"))
        return due.bound = 10, due.cells = 7,
               finds_best(pfs_prove(shop, in_place(BEST), 3, 7, &out.makespan, &out.bound, &out.cells));
    if (IS("prove_parts")) {
        int number = prove_parts(BACKWARD, 3, ALL, 7, 1);
        memcpy(due.list + 3, (uint32_t[]){1, PFS_OPEN, 2, 0, PFS_OPEN, 2, PFS_OPEN, PFS_OPEN, 0}, 36);
        memcpy(due.starts, (uint64_t[]){10, 11, 11}, 24);
        return due.proof = (struct pfs_proof){UINT64_MAX, 2, 3, 13, 10, 0}, number;
    }
    if (IS("iterate")) {
        int number = iterate(both(NUMBERED, NUMBERED), 3, 0, 1, 0, 1, 0);
        memcpy(due.list + 3, BEST, sizeof BEST);
        return due.bound = 10, finds_best(number);
    }
    if (IS("insert"))
        return due.place = 2, due.makespan = 10, pfs_insert(shop, BEST, 2, 2, &out.place, &out.makespan);
    if (IS("insert_ties"))
        return due.place = 2, due.makespan = 10,
               pfs_insert_ties(shop, PFS_TIES_IDLE, BEST, 2, 2, &out.place, &out.makespan);
    if (IS("insertions"))
        return memcpy(due.makespans, (uint64_t[]){13, 11, 10}, 24), pfs_insertions(shop, BEST, 2, 2, out.makespans, 3);
    if (IS("heads_tails"))
        return memcpy(due.starts, (uint64_t[]){4, 5, 7, 9}, 32), memcpy(due.ends, (uint64_t[]){9, 3, 5, 2}, 32),
               pfs_heads_tails(shop, (uint32_t[]){2, 0}, 2, out.starts, 4, out.ends, 4);
    if (IS("construct"))
        return finds_best(pfs_construct(shop, NUMBERED + 2, 1, NUMBERED, 2, out.list, 3, &out.makespan));
    if (IS("construct_ties"))
        return out.list[0] = 2,
               finds_best(pfs_construct_ties(shop, PFS_TIES_IDLE, NUMBERED, 2, out.list, 3, &out.makespan));
    if (IS("local_search"))
        return finds_best(pfs_local_search(shop, (uint32_t[]){1}, 1, 1, in_place(NUMBERED), 3, &out.makespan));
    if (IS("local_search_ties"))
        return finds_best(pfs_local_search_ties(shop, PFS_TIES_IDLE, (uint32_t[]){1}, 1, PFS_MOST_PASSES,
                                                in_place(NUMBERED), 3, &out.makespan));
    if (IS("write"))
        return DUE_TEXT(BY_JOB), pfs_write(shop, &BLOCK.notes, PFS_ORLIB, out.text, sizeof out.text, &out.length);
    if (IS("generate"))
        return due.list[0] = 54, due.list[1] = 83, pfs_generate(2, 1, 873654221, out.list, 2);
    if (IS("random"))
        return memcpy(due.list, WORDS, sizeof WORDS), pfs_random(7, 0, out.list, 5);
    if (IS("read"))
        return due.block = BLOCK, memcpy(due.list, TIMES, sizeof TIMES), read_text(THREE_JOBS, PFS_TAILLARD, 1, 6);
    if (IS("read_order"))
        return due.jobs = 3, due.machines = 2, finds_best(read_order("order2 3 2\n2 1 3\nmakespan 10\n", 3));
    if (IS("write_order"))
        return DUE_TEXT("order 3\n2 1 3\nmakespan 10\n"),
               pfs_write_order(BEST, 3, 0, 10, out.text, sizeof out.text, &out.length);
    if (IS("insert_large"))
        return due.place = 0, due.makespan = 7, pfs_insert(shop, NUMBERED, 2, 2, &out.place, &out.makespan);
    if (IS("makespans_large")) {
        static uint32_t orders[33 * 40];
        uint64_t makespans[33];
        for (uint32_t at = 0; at < COUNT(orders); ++at)
            orders[at] = at % 40;
        int number = pfs_makespans(shop, orders, COUNT(orders), 40, makespans, 33);
        due.makespan = out.makespan = 44;
        for (size_t at = 0; at < 33; ++at)
            out.makespan = makespans[at] == 44 ? out.makespan : makespans[at];
        return number;
    }
    if (IS("search_large")) {
        uint32_t order[40];
        int number = pfs_neh(shop, order, 40, &out.makespan, &out.cells);
        return due.makespan = 44, due.cells = 34640, number == PFS_OK ? rounds(order, 40, 0, 4, 1) : number;
    }
    if (strncmp(name, "prepare", 7) != 0)
        exit(3);
    return PFS_OK;
}

static const char *const NAMES[] = {"sizes",
                                    "faulty_job",
                                    "makespan",
                                    "makespans",
                                    "bound",
                                    "pairs_bound",
                                    "table",
                                    "neh",
                                    "rounds",
                                    "iterate",
                                    "prove",
                                    "prove_parts",
                                    "insert",
                                    "insert_ties",
                                    "insertions",
                                    "heads_tails",
                                    "construct",
                                    "construct_ties",
                                    "local_search",
                                    "local_search_ties",
                                    "write",
                                    "generate",
                                    "random",
                                    "read",
                                    "read_order",
                                    "write_order"};
enum { ON_SHOP = 21 };

/* What is wrong in a call on an instance, after the instance itself. */
static void wrong_calls(void) {
    CALL(PFS_JOB, (due.place = 0, pfs_faulty_job(shop, OUTSIDE, 3, &out.place)));
    CALL(PFS_REPEATED, (due.place = 1, pfs_faulty_job(shop, TWICE, 3, &out.place)));
    CALL(PFS_JOB, pfs_makespan(shop, OUTSIDE, 3, &out.makespan));
    CALL(PFS_REPEATED, pfs_makespan(shop, TWICE, 3, &out.makespan));
    CALL(PFS_LENGTH, pfs_makespans(shop, OUTSIDE, 1, SIZE_MAX, out.makespans, 3));
    CALL(PFS_JOB, pfs_makespans(shop, (uint32_t[]){1, 0, 2, 9, 9, 9}, 6, 3, out.makespans, 2));
    CALL(PFS_LENGTH, pfs_table(shop, OUTSIDE, 3, out.starts, 6, out.ends, 7));
    CALL(PFS_JOB, pfs_table(shop, OUTSIDE, 3, out.starts, 6, out.ends, 6));
    CALL(PFS_LENGTH, pfs_neh(shop, out.list, 2, &out.makespan, &out.cells));
    CALL(PFS_LENGTH, rounds(in_place(OUTSIDE), 2, 0, 0, 101));
    CALL(PFS_REPEATED, rounds(in_place(TWICE), 3, 0, 0, 101));
    CALL(PFS_TAKE, rounds(in_place(NUMBERED), 3, 0, 4, 101));
    CALL(PFS_PASSES, rounds(in_place(NUMBERED), 3, 0, 3, 101));
    CALL(PFS_ROUNDS, rounds(in_place(NUMBERED), 3, PFS_MOST_ROUNDS, 3, 100));
    CALL(PFS_LENGTH, pfs_prove(shop, in_place(OUTSIDE), 2, 7, &out.makespan, &out.bound, &out.cells));
    CALL(PFS_REPEATED, pfs_prove(shop, in_place(TWICE), 3, 7, &out.makespan, &out.bound, &out.cells));
    CALL(PFS_LENGTH, prove_parts(OUTSIDE, 2, OUTSIDE, 0, UINT64_MAX));
    CALL(PFS_JOB, prove_parts(OUTSIDE, 3, OUTSIDE, 0, UINT64_MAX));
    CALL(PFS_ROOM, prove_parts(BEST, 3, OUTSIDE, 5, 0));
    CALL(PFS_ROOM, prove_parts(BEST, 3, OUTSIDE, 7, 2));
    CALL(PFS_ROOM, prove_parts(BEST, 3, OUTSIDE, 7, UINT64_MAX));
    CALL(PFS_JOB, prove_parts(BEST, 3, OUTSIDE, 7, 1));
    CALL(PFS_REPEATED, prove_parts(BEST, 3, (uint32_t[]){1, PFS_OPEN, 1}, 7, 1));
    CALL(PFS_JOB, prove_parts(BEST, 3, (uint32_t[]){PFS_OPEN, 1, PFS_OPEN}, 7, 1));
    CALL(PFS_LENGTH, iterate(both(OUTSIDE, OUTSIDE), 2, 0, 0, 0, 101, UINT32_MAX));
    CALL(PFS_REPEATED, iterate(both(TWICE, OUTSIDE), 3, 0, 0, 0, 101, UINT32_MAX));
    CALL(PFS_JOB, iterate(both(BEST, OUTSIDE), 3, 0, 0, 0, 101, UINT32_MAX));
    CALL(PFS_TAKE, iterate(both(BEST, NUMBERED), 3, 0, 0, 1, 101, UINT32_MAX));
    CALL(PFS_TAKE, iterate(both(BEST, NUMBERED), 3, 0, 3, 1, 101, UINT32_MAX));
    CALL(PFS_TAKE, iterate(both(BEST, NUMBERED), 3, 0, 1, SIZE_MAX, 101, UINT32_MAX));
    CALL(PFS_HELD, iterate(both(BEST, NUMBERED), 3, 0, 2, 1, 101, UINT32_MAX));
    CALL(PFS_PASSES, iterate(both(BEST, BEST), 3, 0, 2, 1, 101, UINT32_MAX));
    CALL(PFS_ROUNDS, iterate(both(BEST, BEST), 3, PFS_MOST_ROUNDS, 2, 1, 100, PFS_TIES_IDLE));
    CALL(PFS_TIES, iterate(both(BEST, BEST), 3, PFS_MOST_ROUNDS, 2, 1, 100, PFS_TIES_IDLE + 1));
    CALL(PFS_JOB, pfs_insert(shop, OUTSIDE, 3, 9, &out.place, &out.makespan));
    CALL(PFS_REPEATED, pfs_insert(shop, BEST, 2, 0, &out.place, &out.makespan));
    CALL(PFS_JOB, pfs_insert_ties(shop, UINT32_MAX, OUTSIDE, 3, 9, &out.place, &out.makespan));
    CALL(PFS_REPEATED, pfs_insert_ties(shop, UINT32_MAX, BEST, 2, 0, &out.place, &out.makespan));
    CALL(PFS_TIES, pfs_insert_ties(shop, UINT32_MAX, BEST, 2, 2, &out.place, &out.makespan));
    CALL(PFS_LENGTH, pfs_insertions(shop, OUTSIDE, 2, 9, out.makespans, 2));
    CALL(PFS_JOB, pfs_insertions(shop, BEST, 2, UINT32_MAX, out.makespans, 3));
    CALL(PFS_LENGTH, pfs_heads_tails(shop, OUTSIDE, 2, out.starts, 4, out.ends, 6));
    CALL(PFS_JOB, pfs_heads_tails(shop, OUTSIDE, 2, out.starts, 4, out.ends, 4));
    CALL(PFS_LENGTH, pfs_construct(shop, OUTSIDE, 2, OUTSIDE, 1, out.list, 2, &out.makespan));
    CALL(PFS_REPEATED, pfs_construct(shop, BEST, 2, (uint32_t[]){0, 3}, 2, out.list, 4, &out.makespan));
    CALL(PFS_LENGTH, pfs_construct_ties(shop, UINT32_MAX, OUTSIDE, 3, in_place(OUTSIDE), 2, &out.makespan));
    CALL(PFS_JOB, pfs_construct_ties(shop, UINT32_MAX, BEST, 1, in_place(OUTSIDE), 3, &out.makespan));
    CALL(PFS_REPEATED, pfs_construct_ties(shop, UINT32_MAX, (uint32_t[]){1, 3}, 2, in_place(BEST), 3, &out.makespan));
    CALL(PFS_TIES, pfs_construct_ties(shop, UINT32_MAX, BEST + 2, 1, in_place(BEST), 3, &out.makespan));
    CALL(PFS_JOB, pfs_local_search(shop, OUTSIDE, 3, 999, in_place(BEST), 2, &out.makespan));
    CALL(PFS_PASSES, pfs_local_search(shop, BEST, 3, PFS_MOST_PASSES + 1, in_place(BEST), 3, &out.makespan));
    CALL(PFS_JOB, pfs_local_search_ties(shop, UINT32_MAX, OUTSIDE, 3, 999, in_place(BEST), 2, &out.makespan));
    CALL(PFS_PASSES,
         pfs_local_search_ties(shop, UINT32_MAX, BEST, 3, PFS_MOST_PASSES + 1, in_place(BEST), 3, &out.makespan));
    CALL(PFS_TIES, pfs_local_search_ties(shop, UINT32_MAX, BEST, 3, PFS_MOST_PASSES, in_place(BEST), 3, &out.makespan));
    CALL(PFS_LAYOUT, pfs_write(shop, &BLOCK.notes, 2, out.text, 0, &out.length));
    CALL(PFS_ROOM, (due.length = 47, pfs_write(shop, &BLOCK.notes, PFS_ORLIB, out.text, 46, &out.length)));
}

static void wrong_shops(void) {
    CALL(PFS_SIZE, pfs_prepare(OUTSIDE, 3, 1, PFS_MOST_MACHINES + 1, shop));
    CALL(PFS_LENGTH, pfs_prepare(TIMES, 6, 3, 1, shop));
    CALL(PFS_TIME, pfs_prepare((uint32_t[]){0, PFS_LONGEST_TIME + 1}, 2, 2, 1, shop));
}

static void wrong_files(void) {
    CALL(PFS_SIZE, pfs_generate(PFS_MOST_JOBS + 1, 1, 0, out.list, 44));
    CALL(PFS_SEED, pfs_generate(20, 2, 0, out.list, 44));
    CALL(PFS_LENGTH, pfs_generate(20, 2, 873654221, out.list, 44));
    CALL(PFS_LAYOUT, read_text("", 2, 0, 0));
    CALL(PFS_BLOCK, read_text("", PFS_ORLIB, PFS_MOST_BLOCKS + 1, 0));
    CALL(PFS_TRUNCATED, (due.fault = 2, read_text("3 2\n0 3 1 2\n", PFS_ORLIB, 1, 44)));
    CALL(PFS_ROOM, (due.block = BLOCK, read_text(THREE_JOBS, PFS_TAILLARD, 1, 5)));
    CALL(PFS_SYNTAX, (due.fault = 5, read_order("order3 3", 0)));
    due.jobs = 3, due.machines = 2, due.makespan = 10;
    CALL(PFS_ROOM, read_order("order2 3 2\n2 1 3\nmakespan 10\n", 2));
    CALL(PFS_SIZE, pfs_write_order(BEST, 0, 2, 10, out.text, 0, &out.length));
    CALL(PFS_MAKESPAN, pfs_write_order(BEST, 3, 2, PFS_MOST_MAKESPAN + 1, out.text, 0, &out.length));
    CALL(PFS_ROOM, (due.length = 29, pfs_write_order(BEST, 3, 2, 10, out.text, 28, &out.length)));
}

/* A list of length 0 may be NULL, and so may the cells. */
static void no_lists(void) {
    struct pfs_rounds_options options = {.seed = 7, .take = 1, .count = 1, .passes = 1};
    CALL(PFS_OK, finds_best(pfs_neh(shop, out.list, 3, &out.makespan, NULL)));
    CALL(PFS_OK, finds_best(pfs_rounds(shop, &options, in_place(NUMBERED), 3, &out.makespan, NULL)));
    CALL(PFS_LENGTH, pfs_neh(shop, out.list, 2, &out.makespan, NULL));
    CALL(PFS_OK, (due.place = 0, pfs_faulty_job(shop, NULL, 0, &out.place)));
    CALL(PFS_OK, (due.makespan = 0, pfs_makespan(shop, NULL, 0, &out.makespan)));
    CALL(PFS_OK, pfs_makespans(shop, NULL, 0, 3, NULL, 0));
    CALL(PFS_OK, pfs_heads_tails(shop, NULL, 0, NULL, 0, NULL, 0));
    CALL(PFS_OK, (due.makespan = 0, pfs_construct(shop, NULL, 0, NULL, 0, NULL, 0, &out.makespan)));
    CALL(PFS_OK, (due.makespan = 0, pfs_local_search(shop, NULL, 0, 1, NULL, 0, &out.makespan)));
    CALL(PFS_OK, (due.makespan = 0, pfs_construct_ties(shop, 1, NULL, 0, NULL, 0, &out.makespan)));
    CALL(PFS_OK, (due.makespan = 0, pfs_local_search_ties(shop, 1, NULL, 0, 1, NULL, 0, &out.makespan)));
    CALL(PFS_OK, pfs_random(7, 3, NULL, 0));
    CALL(PFS_LENGTH, pfs_prepare(NULL, 0, 3, 2, shop));
}

/* An instance is prepared from a list that changes then. On none, each call that needs one reports that. */
static void all(void) {
    uint32_t passing[6] = {3, 2, 2, 5, 4, 1};
    wrong_shops();
    for (size_t at = 0; at < ON_SHOP; ++at) {
        int number = call_named(NAMES[at]);
        memcpy(&due, &out, sizeof out);
        CALL(PFS_NOT_PREPARED, number);
    }
    pfs_release(shop);
    CALL(PFS_OK, prepare_large());
    CALL(PFS_OK, pfs_prepare(passing, 6, 3, 2, shop));
    memset(passing, 0, sizeof passing);
    for (int turn = 0; turn < 2; ++turn) {
        for (size_t at = 0; at < COUNT(NAMES); ++at)
            CALL(PFS_OK, call_named(NAMES[at]));
        wrong_calls();
        wrong_shops();
        wrong_files();
        no_lists();
    }
    pfs_release(shop);
    pfs_release(shop);
    CALL(0, shop->at != NULL);
}

/* The call succeeded with the right outputs, or an allocation failed and every output is unchanged. If that was one of
 * a second preparation, the first instance is still there. */
static void tell(const char *name) {
    int number = strstr(name, "_large") != NULL ? prepare_large() : pfs_prepare(TIMES, 6, 3, 2, shop);
    fresh();
    if (number == PFS_OK && IS("prepare_again") && (number = prepare_large()) != PFS_OK)
        number = call_named("insert") == PFS_OK && are_due() ? number : -1, fresh();
    if (number == PFS_OK && !IS("prepare_again"))
        number = call_named(name);
    pfs_release(shop);
    if (number == PFS_MEMORY)
        due = given;
    int is_right = (number == PFS_OK || number == PFS_MEMORY) && are_due();
    failures += !is_right;
    puts(!is_right ? "wrong" : number == PFS_OK ? "right" : "memory");
}

/* The seed of an instance of 60 jobs on 10 machines, and a sum of what calls on it find. */
struct task {
    uint64_t seed, sum;
};

static void *make_calls(void *given) {
    struct task *task = given;
    struct pfs_instance own = {NULL};
    struct pfs_rounds_options options = {.seed = 7, .take = 4, .count = 1, .passes = 1};
    uint32_t times[600], orders[120];
    uint64_t spans[2];
    size_t place;
    int faults = pfs_generate(60, 10, task->seed, times, 600) + pfs_prepare(times, 600, 60, 10, &own);
    for (int turn = 0; turn < 100; ++turn) {
        faults += pfs_neh(&own, orders, 60, spans, NULL) + pfs_rounds(&own, &options, orders, 60, spans, NULL);
        for (size_t at = 0; at < 60; ++at, task->sum = task->sum * 31 + spans[1] + place)
            faults += pfs_insert(&own, orders, at, orders[at], &place, &spans[1]);
        memcpy(orders + 60, orders, sizeof orders / 2);
        faults += pfs_local_search_ties(&own, PFS_TIES_IDLE, orders, 60, 1, orders + 60, 60, spans);
        faults += pfs_makespans(&own, orders, 120, 60, spans, 2);
        task->sum = task->sum * 31 + spans[0] * spans[1];
    }
    pfs_release(&own);
    task->sum = faults == 0 ? task->sum : 0;
    return NULL;
}

static int are_same_in_threads(void) {
    struct task alone[4] = {{1, 1}, {2, 1}, {3, 1}, {4, 1}}, at_once[4];
    pthread_t threads[4];
    memcpy(at_once, alone, sizeof alone);
    for (int at = 0; at < 4; ++at)
        make_calls(&alone[at]);
    for (int at = 0; at < 4; ++at)
        if (pthread_create(&threads[at], NULL, make_calls, &at_once[at]) != 0)
            exit(2);
    for (int at = 0; at < 4; ++at)
        if (pthread_join(threads[at], NULL) != 0)
            exit(2);
    return alone[0].sum != 0 && memcmp(alone, at_once, sizeof alone) == 0;
}

int main(int count, char **words) {
    static char buffer[BUFSIZ];
    const char *name = count > 1 ? words[1] : "";
    setvbuf(stdout, buffer, _IOFBF, sizeof buffer);
    if (IS("threads"))
        return puts(are_same_in_threads() ? "the same" : "others") < 0;
    fresh();
    if (IS("all")) {
        all();
        printf("%d calls, %d failures\n", calls, failures);
    }
    for (int at = IS("all") ? 2 * count : 2; at < 2 * count; ++at)
        tell(words[at / 2]);
    return failures != 0 || count == 1;
}
