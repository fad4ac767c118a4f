/* Audits order files against one instance: whether each is an order of all its jobs and states the right makespan.
 * Prints the lower bound too. The exit status is 1 if one of the orders is wrong.
 *
 * usage: audit_orders INSTANCE ORDER ..    (Taillard's layout) */
#include <inttypes.h>
#include <pfs.h>
#include <stdio.h>
#include <stdlib.h>

static uint8_t bytes[PFS_LONGEST_INPUT + 1];
static uint32_t times[PFS_MOST_JOBS * PFS_MOST_MACHINES], order[PFS_MOST_JOBS];

/* Reads a file into `bytes`, or ends the program. */
static size_t read_file(const char *path) {
    FILE *file = fopen(path, "rb");
    if (file == NULL)
        exit((fprintf(stderr, "audit_orders: %s: cannot open\n", path), 4));
    size_t length = fread(bytes, 1, sizeof bytes, file);
    if (ferror(file) || fclose(file))
        exit((fprintf(stderr, "audit_orders: %s: cannot read\n", path), 4));
    return length;
}

/* Prints what is wrong with an order file, or its makespan. Returns whether it is right. */
static int audit(const char *path, struct pfs_instance *instance, const struct pfs_block *block, uint64_t bound) {
    size_t of_jobs, of_machines;
    uint64_t stated, makespan, place;
    int number = pfs_read_order(bytes, read_file(path), order, PFS_MOST_JOBS, &of_jobs, &of_machines, &stated, &place);
    if (number != PFS_OK)
        return printf("%s: %s (%" PRIu64 ")\n", path, pfs_message(number), place), 0;
    if (of_jobs != block->jobs || (of_machines != 0 && of_machines != block->machines))
        return printf("%s: of another instance\n", path), 0;
    number = pfs_makespan(instance, order, of_jobs, &makespan);
    if (number != PFS_OK)
        return printf("%s: %s\n", path, pfs_message(number)), 0;
    if (stated != makespan)
        return printf("%s: states %" PRIu64 ", takes %" PRIu64 "\n", path, stated, makespan), 0;
    printf("%s: valid, makespan %" PRIu64 ", bound %" PRIu64 "\n", path, makespan, bound);
    return 1;
}

int main(int count, char **words) {
    struct pfs_instance instance = {NULL};
    struct pfs_block block;
    uint64_t place, bound;
    int is_wrong = 0;
    if (count < 3)
        return fputs("usage: audit_orders INSTANCE ORDER ..\n", stderr), 3;
    int number =
        pfs_read(bytes, read_file(words[1]), PFS_TAILLARD, 1, &block, times, sizeof times / sizeof *times, &place);
    if (number == PFS_OK)
        number = pfs_prepare(times, block.jobs * block.machines, block.jobs, block.machines, &instance);
    if (number == PFS_OK)
        number = pfs_bound(&instance, &bound);
    if (number != PFS_OK)
        return fprintf(stderr, "audit_orders: %s: %s\n", words[1], pfs_message(number)), 2;
    for (int word = 2; word < count; ++word)
        is_wrong |= !audit(words[word], &instance, &block, bound);
    pfs_release(&instance);
    if (fflush(stdout) || ferror(stdout))
        return fputs("audit_orders: cannot write\n", stderr), 4;
    return is_wrong;
}
