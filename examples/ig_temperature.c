/* Iterated greedy with temperature (Ruiz and Stützle 2007), for SECONDS seconds of processor time. A round removes 4
 * random jobs, inserts each at its best place, and then moves each job to its best place until the makespan doesn't
 * decrease any more. A longer order is accepted with a probability. Prints an order file.
 * usage: ig_temperature INSTANCE SEED SECONDS    (Taillard's layout) */
#include <math.h>
#include <pfs.h>
#include <stdio.h>
#include <stdlib.h>
#include <string.h>
#include <time.h>

#define TEMPERATURE 0.4
enum { TAKE = 4 };

static uint8_t bytes[PFS_LONGEST_INPUT + 1];
static uint32_t times[PFS_MOST_JOBS * PFS_MOST_MACHINES], words[PFS_MOST_JOBS], list[PFS_MOST_JOBS];
static uint32_t now[PFS_MOST_JOBS], best[PFS_MOST_JOBS], found[PFS_MOST_JOBS], changed[PFS_MOST_JOBS];
static struct pfs_instance instance;
static size_t jobs, machines;
static uint64_t seed, drawn;

/* Ends the program with an error, unless the number is PFS_OK. */
static void check(const char *what, int number) {
    if (number != PFS_OK)
        exit((fprintf(stderr, "ig_temperature: %s: %s\n", what, pfs_message(number)), 2));
}

static void read_instance(const char *path) {
    struct pfs_block block;
    uint64_t place;
    FILE *file = fopen(path, "rb");
    size_t length = file ? fread(bytes, 1, sizeof bytes, file) : 0;
    if (file == NULL || ferror(file) || fclose(file))
        exit((fprintf(stderr, "ig_temperature: %s: cannot read\n", path), 4));
    check(path, pfs_read(bytes, length, PFS_TAILLARD, 1, &block, times, sizeof times / 4, &place));
    jobs = block.jobs, machines = block.machines;
    check(path, pfs_prepare(times, jobs * machines, jobs, machines, &instance));
}

/* Sets `list` to a random permutation. words[0] has no effect on it. */
static void shuffle(void) {
    check("random numbers", pfs_random(seed, drawn, words, jobs));
    drawn += jobs;
    for (size_t job = 0; job < jobs; ++job) {
        size_t place = words[job] % (job + 1);
        list[job] = list[place];
        list[place] = (uint32_t)job;
    }
}

/* Moves each job of `found` to its best place, in random order, until the makespan doesn't decrease any more. */
static uint64_t improve(uint64_t makespan) {
    for (uint64_t before = UINT64_MAX; makespan < before;) {
        before = makespan;
        shuffle();
        check("local search", pfs_local_search(&instance, list, jobs, 1, found, jobs, &makespan));
    }
    return makespan;
}

/* Sets `found` to `now` with some random jobs removed and inserted again. */
static uint64_t reconstruct(void) {
    size_t take = jobs < TAKE ? jobs : TAKE, length = 0;
    uint64_t makespan;
    shuffle();
    for (size_t place = 0; place < jobs; ++place) {
        size_t index = 0;
        while (index < take && list[index] != now[place])
            ++index;
        if (index == take)
            changed[length++] = now[place];
    }
    check("construction", pfs_construct(&instance, changed, length, list, take, found, jobs, &makespan));
    return makespan;
}

int main(int count, char **arguments) {
    if (count != 4)
        return fputs("usage: ig_temperature INSTANCE SEED SECONDS\n", stderr), 3;
    clock_t end = (clock_t)(strtod(arguments[3], NULL) * CLOCKS_PER_SEC);
    size_t length;
    uint64_t makespan, cells, current = UINT64_MAX, shortest = UINT64_MAX;
    double temperature = 0;
    seed = strtoull(arguments[2], NULL, 10);
    read_instance(arguments[1]);
    for (size_t at = 0; at < jobs * machines; ++at)
        temperature += TEMPERATURE * times[at] / (double)(10 * jobs * machines);
    check("NEH", pfs_neh(&instance, found, jobs, &makespan, &cells));
    do {
        makespan = improve(current == UINT64_MAX ? makespan : reconstruct());
        if (makespan <= current || words[0] / 4294967296.0 < exp(-(double)(makespan - current) / temperature)) {
            current = makespan;
            memcpy(now, found, jobs * sizeof *now);
        }
        if (makespan < shortest) {
            shortest = makespan;
            memcpy(best, found, jobs * sizeof *best);
        }
    } while (clock() < end);
    pfs_release(&instance);
    check("order", pfs_write_order(best, jobs, machines, shortest, bytes, sizeof bytes, &length));
    if (fwrite(bytes, 1, length, stdout) != length || fflush(stdout))
        return fputs("ig_temperature: standard output: cannot write\n", stderr), 4;
    return 0;
}
