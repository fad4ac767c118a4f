/* library COUNT FILE PART: computes the makespans of the same 1,000 orders COUNT times by the C library, in calls of
 * PART orders, or with PART 0 by pfs_makespan, and prints their sum. The file has an instance in Taillard's layout. */
#include <inttypes.h>
#include <stdio.h>
#include <stdlib.h>

#include "pfs.h"

#define ORDERS ((size_t)1000)

static uint8_t bytes[1 << 24];
static uint32_t times[PFS_MOST_JOBS * PFS_MOST_MACHINES];
static struct pfs_instance instance = {NULL};
static size_t jobs, machines;

static void check(int number) {
    if (number != PFS_OK) {
        fprintf(stderr, "library: %s\n", pfs_message(number));
        exit(2);
    }
}

static void read_shop(const char *path) {
    FILE *file = fopen(path, "rb");
    struct pfs_block block;
    uint64_t place;
    if (file == NULL) {
        fprintf(stderr, "library: cannot open\n");
        exit(4);
    }
    check(pfs_read(bytes, fread(bytes, 1, sizeof bytes, file), PFS_TAILLARD, 1, &block, times,
                   sizeof times / sizeof *times, &place));
    fclose(file);
    jobs = block.jobs, machines = block.machines;
    check(pfs_prepare(times, jobs * machines, jobs, machines, &instance));
}

/* Each order is drawn by a separate shuffle. */
static void draw_orders(uint32_t *orders) {
    uint64_t state = 1;
    for (size_t index = 0; index < ORDERS; ++index, orders += jobs) {
        for (size_t place = 0; place < jobs; ++place) {
            state = state * 6364136223846793005U + 1442695040888963407U;
            size_t other = (size_t)(state >> 33) % (place + 1);
            orders[place] = orders[other];
            orders[other] = (uint32_t)place;
        }
    }
}

static void makespans(uint64_t count, size_t part) {
    static uint32_t orders[ORDERS * PFS_MOST_JOBS];
    static uint64_t found[ORDERS];
    uint64_t sum = 0;
    draw_orders(orders);
    for (uint64_t made = 0; made < count; ++made) {
        for (size_t first = 0; first < ORDERS; first += part ? part : 1) {
            size_t some = ORDERS - first < part ? ORDERS - first : part;
            const uint32_t *list = orders + first * jobs;
            check(part ? pfs_makespans(&instance, list, some * jobs, jobs, found + first, some)
                       : pfs_makespan(&instance, list, jobs, found + first));
        }
        for (size_t index = 0; index < ORDERS; ++index)
            sum += found[index];
    }
    printf("%" PRIu64 " makespans, sum %" PRIu64 "\n", count * ORDERS, sum);
}

int main(int count, char **words) {
    if (count != 4)
        return 3;
    read_shop(words[2]);
    makespans(strtoull(words[1], NULL, 10), strtoul(words[3], NULL, 10));
    pfs_release(&instance);
    return 0;
}
