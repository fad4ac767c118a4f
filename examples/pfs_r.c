/* Makespans and NEH for R by .Call; neh.R loads it. `times` is an integer matrix with a row for each machine and a
 * column for each job, so that the times of a job are consecutive. Jobs count from 1, as R does. */
#include <R.h>
#include <Rinternals.h>
#include <pfs.h>
#include <stdint.h>

/* Releases the instance, and reports a fault to R. */
static void end(struct pfs_instance *instance, int number) {
    pfs_release(instance);
    if (number != PFS_OK)
        error("pfs: %s", pfs_message(number));
}

/* Prepares the instance of these times, and returns the number of its jobs. Each NA and each negative time becomes one
 * that pfs rejects. */
static size_t prepare(SEXP times, struct pfs_instance *instance) {
    if (!isInteger(times) || !isMatrix(times))
        error("pfs: the times are not an integer matrix");
    const int *sizes = INTEGER(getAttrib(times, R_DimSymbol));
    size_t machines = (size_t)sizes[0], jobs = (size_t)sizes[1];
    int number = pfs_prepare((const uint32_t *)INTEGER(times), jobs * machines, jobs, machines, instance);
    if (number != PFS_OK)
        end(instance, number);
    return jobs;
}

SEXP pfs_r_makespan(SEXP times, SEXP order) {
    if (!isInteger(order))
        error("pfs: the order is not an integer vector");
    size_t length = (size_t)XLENGTH(order);
    uint32_t *sequence = (uint32_t *)R_alloc(length + 1, sizeof *sequence);
    for (size_t place = 0; place < length; ++place)
        sequence[place] = (uint32_t)INTEGER(order)[place] - 1;
    struct pfs_instance instance = {NULL};
    uint64_t makespan;
    prepare(times, &instance);
    end(&instance, pfs_makespan(&instance, sequence, length, &makespan));
    return ScalarReal((double)makespan);
}

SEXP pfs_r_neh(SEXP times) {
    struct pfs_instance instance = {NULL};
    uint32_t *found = (uint32_t *)R_alloc((size_t)xlength(times) + 1, sizeof *found);
    size_t jobs = prepare(times, &instance);
    uint64_t makespan, cells;
    end(&instance, pfs_neh(&instance, found, jobs, &makespan, &cells));
    SEXP order = PROTECT(allocVector(INTSXP, (R_xlen_t)jobs));
    for (size_t place = 0; place < jobs; ++place)
        INTEGER(order)[place] = (int)found[place] + 1;
    UNPROTECT(1);
    return order;
}
