/* NEH with three rules for equal places: the first of the best places, as pfs_neh does; the one with the least total
 * delay, by pfs_construct_ties; and the last one, found by pfs_insertions, which has the makespan at each place.
 *
 * usage: neh_ties JOBS MACHINES SEED    (an instance of Taillard's generator) */
#include <inttypes.h>
#include <pfs.h>
#include <stdio.h>
#include <stdlib.h>
#include <string.h>

static uint32_t times[PFS_MOST_JOBS * PFS_MOST_MACHINES], ranking[PFS_MOST_JOBS], order[PFS_MOST_JOBS];
static uint64_t totals[PFS_MOST_JOBS], makespans[PFS_MOST_JOBS];

/* Jobs by their total times, the longest first, and then by their numbers. */
static int compare(const void *a, const void *b) {
    uint32_t left = *(const uint32_t *)a, right = *(const uint32_t *)b;
    if (totals[left] != totals[right])
        return totals[left] > totals[right] ? -1 : 1;
    return left < right ? -1 : 1;
}

static void rank_jobs(size_t jobs, size_t machines) {
    for (size_t job = 0; job < jobs; ++job) {
        ranking[job] = (uint32_t)job;
        for (size_t machine = 0; machine < machines; ++machine)
            totals[job] += times[job * machines + machine];
    }
    qsort(ranking, jobs, sizeof *ranking, compare);
}

/* Inserts the jobs of the ranking one after the other, each at the last of its best places. */
static int insert_last(struct pfs_instance *instance, size_t jobs, uint64_t *makespan) {
    for (size_t length = 0; length < jobs; ++length) {
        size_t best = 0;
        int number = pfs_insertions(instance, order, length, ranking[length], makespans, length + 1);
        if (number != PFS_OK)
            return number;
        for (size_t place = 1; place <= length; ++place)
            if (makespans[place] <= makespans[best])
                best = place;
        memmove(order + best + 1, order + best, (length - best) * sizeof *order);
        order[best] = ranking[length];
        *makespan = makespans[best];
    }
    return PFS_OK;
}

int main(int count, char **words) {
    size_t jobs = count == 4 ? strtoull(words[1], NULL, 10) : 0, machines = jobs ? strtoull(words[2], NULL, 10) : 0;
    uint64_t first, idle, last, cells;
    struct pfs_instance instance = {NULL};
    if (jobs < 1 || jobs > PFS_MOST_JOBS || machines < 1 || machines > PFS_MOST_MACHINES)
        return fputs("usage: neh_ties JOBS MACHINES SEED\n", stderr), 3;
    int number = pfs_generate(jobs, machines, strtoull(words[3], NULL, 10), times, jobs * machines);
    if (number == PFS_OK)
        number = pfs_prepare(times, jobs * machines, jobs, machines, &instance);
    if (number == PFS_OK)
        number = pfs_neh(&instance, order, jobs, &first, &cells);
    rank_jobs(jobs, machines);
    if (number == PFS_OK)
        number = pfs_construct_ties(&instance, PFS_TIES_IDLE, ranking, jobs, order, jobs, &idle);
    if (number == PFS_OK)
        number = insert_last(&instance, jobs, &last);
    pfs_release(&instance);
    if (number != PFS_OK)
        return fprintf(stderr, "neh_ties: %s\n", pfs_message(number)), 2;
    if (printf("first places %" PRIu64 "\nleast delay %" PRIu64 "\nlast places %" PRIu64 "\n", first, idle, last) < 0
        || fflush(stdout))
        return fputs("neh_ties: cannot write\n", stderr), 4;
    return 0;
}
