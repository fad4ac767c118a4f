/* Iterated greedy for SECONDS seconds, with a look at the clock after each 10 rounds, and up to ROUNDS rounds in all.
 * Prints the order found, as an order file. It begins with NEH's order, or continues after DONE rounds from an order
 * file: calls with the same seed find what one search of all their rounds finds.
 *
 * usage: timed_search INSTANCE SEED SECONDS ROUNDS [DONE ORDER]    (Taillard's layout) */
#include <inttypes.h>
#include <pfs.h>
#include <stdio.h>
#include <stdlib.h>
#include <time.h>

static uint8_t bytes[PFS_LONGEST_INPUT + 1];
static uint32_t times[PFS_MOST_JOBS * PFS_MOST_MACHINES], order[PFS_MOST_JOBS];

/* Reports an error and ends the program. */
static void fail(const char *what, const char *why, int status) {
    fprintf(stderr, "timed_search: %s: %s\n", what, why);
    exit(status);
}

static void check(const char *what, int number) {
    if (number != PFS_OK)
        fail(what, pfs_message(number), 2);
}

/* Reads a file into `bytes`. */
static size_t read_file(const char *path) {
    FILE *file = fopen(path, "rb");
    if (file == NULL)
        fail(path, "cannot open", 4);
    size_t length = fread(bytes, 1, sizeof bytes, file);
    if (ferror(file) || fclose(file))
        fail(path, "cannot read", 4);
    return length;
}

int main(int count, char **words) {
    if (count != 5 && count != 7)
        return fputs("usage: timed_search INSTANCE SEED SECONDS ROUNDS [DONE ORDER]\n", stderr), 3;
    clock_t end = clock() + (clock_t)(strtod(words[3], NULL) * CLOCKS_PER_SEC);
    uint32_t last = (uint32_t)strtoul(words[4], NULL, 10);
    struct pfs_instance shop = {NULL};
    struct pfs_block block;
    size_t length = read_file(words[1]), jobs, machines;
    uint64_t makespan, cells, place;
    check(words[1], pfs_read(bytes, length, PFS_TAILLARD, 1, &block, times, sizeof times / sizeof *times, &place));
    check(words[1], pfs_prepare(times, block.jobs * block.machines, block.jobs, block.machines, &shop));
    struct pfs_rounds_options options = {.seed = strtoull(words[2], NULL, 10), .take = block.jobs < 4 ? block.jobs : 4};
    if (count == 7) {
        options.first = (uint32_t)strtoul(words[5], NULL, 10);
        length = read_file(words[6]);
        check(words[6], pfs_read_order(bytes, length, order, PFS_MOST_JOBS, &jobs, &machines, &makespan, &place));
        if (jobs != block.jobs || (machines != 0 && machines != block.machines))
            fail(words[6], "the order of another instance", 2);
    } else
        check("NEH", pfs_neh(&shop, order, block.jobs, &makespan, &cells));
    do {
        options.first += options.count;
        options.count = last <= options.first ? 0 : last - options.first < 10 ? last - options.first : 10;
        check("rounds", pfs_rounds(&shop, &options, order, block.jobs, &makespan, &cells));
    } while (options.count > 0 && clock() < end);
    pfs_release(&shop);
    check("order", pfs_write_order(order, block.jobs, block.machines, makespan, bytes, sizeof bytes, &length));
    fprintf(stderr, "%" PRIu32 " rounds, makespan %" PRIu64 "\n", options.first + options.count, makespan);
    if (fwrite(bytes, 1, length, stdout) != length || fflush(stdout))
        fail("standard output", "cannot write", 4);
    return 0;
}
