/** @file
 * @brief The functions whose output `cells` may be NULL, around the proved ones, whose references are never NULL.
 */
#include "pfs.h"

/* The proved functions pfs_neh and pfs_rounds, which tools/library gives these names. */
int proved_neh(struct pfs_instance *instance, uint32_t *order, size_t order_length, uint64_t *makespan,
               uint64_t *cells);
int proved_rounds(struct pfs_instance *instance, const struct pfs_rounds_options *options, uint32_t *order,
                  size_t order_length, uint64_t *makespan, uint64_t *cells);

int pfs_neh(struct pfs_instance *instance, uint32_t *order, size_t order_length, uint64_t *makespan, uint64_t *cells) {
    uint64_t unwanted;
    return proved_neh(instance, order, order_length, makespan, cells != NULL ? cells : &unwanted);
}

int pfs_rounds(struct pfs_instance *instance, const struct pfs_rounds_options *options, uint32_t *order,
               size_t order_length, uint64_t *makespan, uint64_t *cells) {
    uint64_t unwanted;
    return proved_rounds(instance, options, order, order_length, makespan, cells != NULL ? cells : &unwanted);
}
