/** @file
 * @brief libpfs: permutation flow shop instances, orders and searches, proved.
 *
 * In a permutation flow shop each job runs on machine 0, then on machine 1, and so on to the last; a machine runs one
 * job at a time, and all machines run the jobs in the same order. The makespan of an order is the time at which its
 * last job leaves the last machine. Jobs, machines and places count from 0; only in files do jobs count from 1.
 *
 * A program prepares an instance once (pfs_prepare), makes any number of calls on it, and releases it (pfs_release):
 *
 *     struct pfs_instance instance = {NULL};
 *     int number = pfs_prepare(times, jobs * machines, jobs, machines, &instance);
 *     if (number == PFS_OK)
 *         number = pfs_makespan(&instance, sequence, length, &makespan);
 *     pfs_release(&instance);
 *
 * Each function validates its arguments, and returns PFS_OK or the number of a fault; of several faults, the one that
 * its description lists first. Each list is a pointer and a length, as sequence and sequence_length. A length that
 * follows from other arguments is validated too, so that no list of another instance is read or written (PFS_LENGTH);
 * an order has the number of jobs. If a function does not return PFS_OK, every output is unchanged, except the sizes
 * that it sets with PFS_ROOM and the place of a fault. Only pfs_release returns nothing, as it cannot fail.
 *
 * A pointer may be NULL only if the length that belongs to it is 0, as that of an empty std::vector is, or if its
 * description says so. No output may overlap another argument, and no list may change during a call. One thread at a
 * time may use a struct pfs_instance; several instances may be used at once. The other functions may be called at any
 * time. No function may be called from a signal handler.
 *
 * Where a description says that a function allocates, the memory comes from malloc and is freed before the function
 * returns, and if an allocation fails, it returns PFS_MEMORY. Other functions allocate nothing. Times are for n jobs, m
 * machines and k jobs in the sequence, after the arguments are validated, which takes O(n). Each function exists since
 * version 2.0.0 in this form, unless its description says otherwise.
 *
 * Versions of libpfs.so.1 stay compatible: functions, numbers and structs keep their meaning and their layout. Later
 * versions may add functions and numbers. A program that needs an added one compares PFS_VERSION_NUMBER.
 *
 * For every input, what each function does with its arguments is proved, except for pfs_version, pfs_version_number and
 * pfs_message: the number that it returns, and what it writes. That the declarations below agree with the proved
 * functions (the order and types of the parameters, the fields of the structs, the numbers of the macros), and that
 * pfs_release frees the memory, is tested.
 */
#ifndef PFS_H
#define PFS_H

#include <stddef.h>
#include <stdint.h>

#ifdef __cplusplus
extern "C" {
#endif

/** @brief The version of this header. */
#define PFS_VERSION "2.1.0"

/** @brief The same as a number for the preprocessor: 10000 * major + 100 * minor + patch. */
#define PFS_VERSION_NUMBER 20100

/** @brief Compilers that support it warn if a program ignores the number that a function returns. */
#ifdef __GNUC__
#define PFS_CHECKED __attribute__((warn_unused_result))
#else
#define PFS_CHECKED
#endif

/** @name Limits of what is accepted.
 * @{
 */
#define PFS_MOST_JOBS 5000
#define PFS_MOST_MACHINES 200
#define PFS_LONGEST_TIME 1000000000
#define PFS_MOST_ROUNDS 1000000
#define PFS_MOST_PASSES 100
#define PFS_MOST_BLOCKS 1000
#define PFS_LONGEST_INPUT 67108864                     /**< bytes of an instance file, up to the end of the block */
#define PFS_LONGEST_ORDER_FILE 65536                   /**< bytes of an order file */
#define PFS_MOST_MAKESPAN UINT64_C(999999999999999999) /**< that an order file can state */
/** @} */

/** @name The layouts of instance files.
 * @{
 */
#define PFS_TAILLARD 0 /**< the layout of Taillard's benchmark files */
#define PFS_ORLIB 1    /**< the layout of the OR-Library */
/** @} */

/** @name Rules for equally good places.
 * @{
 */
#define PFS_TIES_FIRST 0 /**< the first of these places */
#define PFS_TIES_IDLE 1  /**< the first of those with the least total delay (Fernandez-Viagas and Framinan 2014) */
/** @} */

/** @name Numbers that functions return.
 * @{
 */
#define PFS_OK 0            /**< the call succeeded */
#define PFS_MEMORY 1        /**< an allocation failed */
#define PFS_SIZE 2          /**< not 1 to PFS_MOST_JOBS jobs, or not 1 to PFS_MOST_MACHINES machines */
#define PFS_LENGTH 3        /**< a list does not have the length that the sizes require */
#define PFS_TIME 4          /**< a time is greater than PFS_LONGEST_TIME */
#define PFS_JOB 5           /**< a job is not below the number of jobs, or a job of a list is not in the sequence */
#define PFS_REPEATED 6      /**< a job occurs twice, or the job to insert is in the sequence already */
#define PFS_TAKE 7          /**< the destruction size is not 1 to the number of jobs that may move */
#define PFS_PASSES 8        /**< more than PFS_MOST_PASSES passes */
#define PFS_ROUNDS 9        /**< first + count is greater than PFS_MOST_ROUNDS */
#define PFS_SEED 10         /**< the seed is not 1 to 2147483646, the seeds of Taillard's generator */
#define PFS_LAYOUT 11       /**< neither PFS_TAILLARD nor PFS_ORLIB */
#define PFS_BLOCK 12        /**< the number of the block is not 1 to PFS_MOST_BLOCKS */
#define PFS_MAKESPAN 13     /**< the makespan is greater than PFS_MOST_MAKESPAN */
#define PFS_ROOM 14         /**< too little room for the result; the outputs say how much it needs */
#define PFS_NOT_PREPARED 15 /**< the struct holds no prepared instance */
#define PFS_HELD 16         /**< the best order does not begin with the held jobs of the current one */
#define PFS_TIES 17         /**< neither PFS_TIES_FIRST nor PFS_TIES_IDLE */
/** @} */

/** @name Faults of instance files, and what place is then.
 * Lines count from 1, and offsets count bytes from 0.
 * @{
 */
#define PFS_NO_BLOCK 20       /**< the file ends before the block; place is the number of complete blocks */
#define PFS_SIZE_COUNT 21     /**< a size line has too few or too many numbers; place is its line */
#define PFS_SIZE_RANGE 22     /**< a number of a size line is out of range; place is its line */
#define PFS_MIXED_LINE 23     /**< a line has numbers and a word; place is the offset of the byte that makes it so */
#define PFS_TIME_RANGE 24     /**< a time is greater than PFS_LONGEST_TIME; place is the offset of its first digit */
#define PFS_MACHINE_NUMBER 25 /**< not the expected machine number; place is the offset of its first digit */
#define PFS_EXTRA_NUMBER 26   /**< a number follows a block's last time; place is the offset of its first digit */
#define PFS_TRUNCATED 27      /**< the file ends inside a block; place is the number of times that it has */
#define PFS_INPUT_TOO_LONG 28 /**< the block does not end within PFS_LONGEST_INPUT bytes; place is 0 */
/** @} */

/** @name Faults of order files, and what place is then.
 * Offsets count bytes from 0, and places in the order count from 1.
 * @{
 */
#define PFS_SYNTAX 30        /**< not an order file; place is the number of its first bytes with which one can begin */
#define PFS_JOB_RANGE 31     /**< a job is 0 or greater than the number of jobs; place is its place in the order */
#define PFS_JOB_TWICE 32     /**< a job is at an earlier place too; place is its place in the order */
#define PFS_FILE_TOO_LONG 33 /**< the file is longer than PFS_LONGEST_ORDER_FILE bytes; place is 0 */
/** @} */

/** @brief Returns the version of the library, a text in the form of PFS_VERSION.
 *
 * @return a constant text, which is never freed
 */
const char *pfs_version(void);

/** @brief Returns the version of the library as a number, in the form of PFS_VERSION_NUMBER.
 *
 * A program that is compiled with one version and runs with another compares it. Since version 2.1.0.
 *
 * @return the number
 */
int pfs_version_number(void);

/** @brief Returns the meaning of a number, as a short text in English.
 *
 * @param[in] number a number that a function returned
 * @return a constant text, which is never freed
 */
const char *pfs_message(int number);

/** @brief A prepared instance, or none.
 *
 * A new struct holds none: struct pfs_instance instance = {NULL}. One whose bytes are all 0 holds none either. Only the
 * functions below may change it after that. It may be moved in memory; of a struct and its copy, only one may be used.
 */
struct pfs_instance {
    void *at; /**< what is prepared, or NULL */
};

/** @brief Prepares an instance for the calls below. Time O(nm).
 *
 * The struct holds a copy of the times, another one in 16 bits if none is above 65,535, and the memory of insertions
 * and searches. If it held another instance, the function releases that one, unless it fails. It allocates what the
 * struct holds, which pfs_release frees.
 *
 * @param[in] times processing times, job by job: times[job * machines + machine], jobs * machines of them
 * @param[in] jobs number of jobs
 * @param[in] machines number of machines
 * @param[in,out] instance a struct that holds an instance or none; unless the function returns PFS_OK, it holds what it
 *     held before
 * @return PFS_OK, or the first of PFS_SIZE (jobs, machines), PFS_LENGTH (times_length), PFS_TIME (times), PFS_MEMORY
 */
int pfs_prepare(const uint32_t *times, size_t times_length, size_t jobs, size_t machines,
                struct pfs_instance *instance) PFS_CHECKED;

/** @brief Releases an instance: its memory is freed, and the struct holds none. If it held none, nothing happens.
 *
 * @param[in,out] instance a struct that holds an instance or none
 */
void pfs_release(struct pfs_instance *instance);

/** @name Calls on a prepared instance.
 * Each takes a struct that holds one, and leaves the same instance in it. Calls do not depend on one another.
 * @{
 */

/** @brief Says how many jobs and machines an instance has. Since version 2.1.0.
 *
 * @param[out] jobs number of jobs
 * @param[out] machines number of machines
 * @return PFS_OK, or PFS_NOT_PREPARED (instance)
 */
int pfs_sizes(struct pfs_instance *instance, size_t *jobs, size_t *machines) PFS_CHECKED;

/** @brief Finds the first job of a list that is out of range or occurs before. Time O(k²). Since version 2.1.0.
 *
 * Calls that return PFS_JOB or PFS_REPEATED do not say which job it is; this one does.
 *
 * @param[in] jobs the list
 * @param[out] place place of that job, from 0; the length of the list if each of its jobs is valid
 * @return PFS_OK, or the first of PFS_NOT_PREPARED (instance), PFS_JOB or PFS_REPEATED (the job at this place)
 */
int pfs_faulty_job(struct pfs_instance *instance, const uint32_t *jobs, size_t jobs_length, size_t *place) PFS_CHECKED;

/** @brief Computes the makespan of a sequence of distinct jobs. Time O(km).
 *
 * The sequence need not contain all jobs. The makespan of no jobs is 0.
 *
 * @param[in] sequence distinct jobs, in the order in which they are processed
 * @param[out] makespan makespan of the sequence
 * @return PFS_OK, or the first of PFS_NOT_PREPARED (instance), PFS_JOB or PFS_REPEATED (the jobs from the left)
 */
int pfs_makespan(struct pfs_instance *instance, const uint32_t *sequence, size_t sequence_length,
                 uint64_t *makespan) PFS_CHECKED;

/** @brief Computes the makespans of many sequences of distinct jobs. Time O(km) for each.
 *
 * The sequences have the same length and are stored one after the other: makespans[index] is the makespan of the
 * sequence that begins at sequences[index * length]. A sequence need not contain all jobs. If one sequence is invalid,
 * no makespan is written.
 *
 * @param[in] sequences the sequences, one after the other: makespans_length * length jobs
 * @param[in] length number of jobs in each sequence
 * @param[out] makespans makespan of each sequence
 * @return PFS_OK, or the first of PFS_NOT_PREPARED (instance), PFS_LENGTH (sequences_length), PFS_JOB or PFS_REPEATED
 *     (the jobs of the first sequence from the left, then those of the second, and so on)
 */
int pfs_makespans(struct pfs_instance *instance, const uint32_t *sequences, size_t sequences_length, size_t length,
                  uint64_t *makespans, size_t makespans_length) PFS_CHECKED;

/** @brief Computes a lower bound of the makespans of all orders (Taillard 1993). Time O(nm).
 *
 * The bound is the greatest of the total processing times of the jobs and of a sum for each machine: the load of the
 * machine, plus the least time that a job takes on the machines before it, plus the least time that a job takes on
 * those after it.
 *
 * @param[out] bound the lower bound
 * @return PFS_OK or PFS_NOT_PREPARED (instance)
 */
int pfs_bound(struct pfs_instance *instance, uint64_t *bound) PFS_CHECKED;

/** @brief Computes a lower bound of the makespans of all orders by pairs of machines. Time O(m²n log n). Allocates.
 *
 * The bound is the greatest of that of pfs_bound and of a sum for each pair of machines (Lageweg, Lenstra and Rinnooy
 * Kan 1978): the least makespan on these two machines, by Johnson's rule (1954), if the machines between them could
 * process all jobs at once, plus the least time that a job takes on the machines before the first, plus the least time
 * that a job takes on those after the second. Since version 2.1.0.
 *
 * @param[out] bound the lower bound, at least that of pfs_bound
 * @return PFS_OK, or the first of PFS_NOT_PREPARED (instance), PFS_MEMORY
 */
int pfs_pairs_bound(struct pfs_instance *instance, uint64_t *bound) PFS_CHECKED;

/** @brief Computes when each operation of an order starts and ends, each as early as possible. Time O(nm). Allocates.
 *
 * Entry place * machines + machine belongs to the job at this place of the order, on this machine.
 *
 * @param[in] order all jobs, in the order in which they are processed
 * @param[out] starts start of each operation, jobs * machines of them
 * @param[out] ends end of each operation, jobs * machines of them
 * @return PFS_OK, or the first of PFS_NOT_PREPARED (instance), PFS_LENGTH (order_length, starts_length, ends_length),
 *     PFS_JOB or PFS_REPEATED (the jobs from the left), PFS_MEMORY
 */
int pfs_table(struct pfs_instance *instance, const uint32_t *order, size_t order_length, uint64_t *starts,
              size_t starts_length, uint64_t *ends, size_t ends_length) PFS_CHECKED;

/** @brief Computes the order of NEH (Nawaz, Enscore and Ham 1983). Time O(nnm).
 *
 * NEH takes the jobs by decreasing total processing time, of equal totals the lower job first, and inserts each at its
 * best place, of equally good places the first. Best places are found by heads and tails (Taillard 1990).
 *
 * @param[out] order NEH's order, of all jobs
 * @param[out] makespan makespan of the order
 * @param[out] cells number of table cells that were computed, 2 * machines * jobs * jobs; or NULL
 * @return PFS_OK, or the first of PFS_NOT_PREPARED (instance), PFS_LENGTH (order_length)
 */
int pfs_neh(struct pfs_instance *instance, uint32_t *order, size_t order_length, uint64_t *makespan,
            uint64_t *cells) PFS_CHECKED;

/** @brief Which rounds pfs_rounds makes. */
struct pfs_rounds_options {
    uint64_t seed;   /**< seed of the random words */
    size_t take;     /**< number of jobs that a round removes (the destruction size), 1 to the number of jobs */
    uint32_t first;  /**< the first round, counted from 0 */
    uint32_t count;  /**< number of rounds; first + count is at most PFS_MOST_ROUNDS */
    uint32_t passes; /**< number of passes in each round, at most PFS_MOST_PASSES */
};

/** @brief Makes rounds of the iterated greedy search (Ruiz and Stützle 2007) from a given order.
 *
 * The function makes the rounds `first` to `first + count - 1` of the search with a seed. The given order may be any
 * order of all jobs; it is replaced by the order after these rounds. A round takes the time of take + passes * n
 * insertions, each of which takes O(nm).
 *
 * A round removes `take` jobs, which the next random words of the seed select, and reinserts them at their best places.
 * Then it makes `passes` passes; in each pass every job leaves its place for its best one. The new order is kept unless
 * its makespan is greater.
 *
 * A search may be made in parts: rounds 0 to 99 and then rounds 100 to 199 leave the same order as rounds 0 to 199.
 * From NEH's order, the rounds leave the order that `pfs solve` prints.
 *
 * @param[in] options which rounds to make
 * @param[in,out] order all jobs; the order to start from, then the order after the rounds
 * @param[out] makespan makespan of the order after the rounds
 * @param[out] cells number of table cells that these rounds computed, or NULL
 * @return PFS_OK, or the first of PFS_NOT_PREPARED (instance), PFS_LENGTH (order_length), PFS_JOB or PFS_REPEATED (the
 *     jobs from the left), PFS_TAKE (take), PFS_PASSES (passes), PFS_ROUNDS (first + count)
 */
int pfs_rounds(struct pfs_instance *instance, const struct pfs_rounds_options *options, uint32_t *order,
               size_t order_length, uint64_t *makespan, uint64_t *cells) PFS_CHECKED;

/** @brief Searches for the shortest order of a small instance, and proves a bound that no order is below. Allocates.
 *
 * The search is branch and bound from both ends of the order (Ladhari and Haouari 2005; Gmys, Mezmaz, Melab and
 * Tuyttens 2020). It begins with the given order, any order of all jobs, which is replaced by the best one found. A
 * node is a set of orders that begin with some jobs and end with some; its time is O(nm). Before the first one, pairs
 * of machines raise the bound, in time O(m²n log n). The search ends after `nodes` nodes. Unless all of these are used,
 * `left` is above 0, and the bound is the makespan: the order is optimal. A search has at most as many nodes as there
 * are sequences of distinct jobs, of any length: 9,864,101 for 10 jobs.
 *
 * A call with more nodes searches from scratch. Start it from the order that the last call found, which saves nodes.
 * Since version 2.1.0.
 *
 * @param[in,out] instance the instance, of at most 256 jobs and 64 machines
 * @param[in,out] order all jobs; the order to start from, then the best order found, which is no longer
 * @param[in] nodes the greatest number of nodes
 * @param[out] makespan makespan of the best order found
 * @param[out] bound no order of all jobs has a makespan below it; at least that of pfs_bound
 * @param[out] left number of nodes that were not used
 * @return PFS_OK, or the first of PFS_NOT_PREPARED (instance), PFS_LENGTH (order_length), PFS_JOB or PFS_REPEATED (the
 *     jobs from the left), PFS_SIZE (more than 256 jobs or 64 machines), PFS_MEMORY
 */
int pfs_prove(struct pfs_instance *instance, uint32_t *order, size_t order_length, uint64_t nodes, uint64_t *makespan,
              uint64_t *bound, uint64_t *left) PFS_CHECKED;

/** @brief Each place between the first and the last jobs of a part. */
#define PFS_OPEN UINT32_MAX

/** @brief The limits of a call of pfs_prove_parts, and what it proved. */
struct pfs_proof {
    uint64_t limit;    /**< in: only orders with a makespan below it are searched for; UINT64_MAX: all */
    uint64_t nodes;    /**< in: the greatest number of nodes */
    uint64_t count;    /**< in: the number of given parts; out: of those that are left */
    uint64_t makespan; /**< out: makespan of the best order found */
    uint64_t bound;    /**< out: no order of the given parts has a makespan below it */
    uint64_t left;     /**< out: number of nodes that were not used */
};

/** @brief Searches parts of all orders of a small instance, one after the other, and returns what is left. Allocates.
 *
 * A part is a set of orders of all jobs that begin with some jobs and end with some. It is a row of n places, n being
 * the number of jobs: its first jobs, PFS_OPEN at each place between, and its last jobs. An order is in the part if it
 * has the row's job at each place that isn't PFS_OPEN. The search is that of pfs_prove, which searches one part of n
 * places PFS_OPEN.
 *
 * After a call, each order of the given parts has a makespan of at least `makespan` or `limit`, or is in one of the
 * parts that are left. If nodes are left, no part is. The parts that are left can be searched by further calls, in any
 * order and by several threads, each with its own instance; what a call leaves takes the place of the parts that it was
 * given. Where none is left, the shortest order found is optimal, or no order is below the limit.
 *
 * The parts that are left are written over the given ones, those to be searched next first: what the search left of the
 * part in which the nodes were used up, then the given parts that it didn't reach, in their order. No order of a part
 * has a makespan below its bound. A given part that wasn't reached has the bound 0, so callers keep their own bounds of
 * these last rows. A part may be dropped once its bound is at least the best makespan or the limit.
 *
 * A call without nodes returns the parts as they are, unless a bound of all orders closes them. Since version 2.1.0.
 *
 * @param[in,out] instance the instance, of at most 256 jobs and 64 machines
 * @param[in,out] order all jobs; the order to start from, then the best order found, which is no longer
 * @param[in,out] parts rows of the given parts, then of those that are left; parts_length is bounds_length * n
 * @param[out] bounds a bound for each part that is left; bounds_length is at least count + n(n+1)/2
 * @param[in,out] proof the limits of the call, and what was proved
 * @return PFS_OK, or the first of PFS_NOT_PREPARED (instance), PFS_LENGTH (order_length, parts_length), PFS_JOB or
 *     PFS_REPEATED (the jobs of order from the left), PFS_SIZE (more than 256 jobs or 64 machines), PFS_ROOM
 *     (bounds_length), PFS_JOB or PFS_REPEATED (the rows one after the other, each without its first run of PFS_OPEN
 *     and from the left), PFS_MEMORY
 */
int pfs_prove_parts(struct pfs_instance *instance, uint32_t *order, size_t order_length, uint32_t *parts,
                    size_t parts_length, uint64_t *bounds, size_t bounds_length, struct pfs_proof *proof) PFS_CHECKED;

/** @brief Which rounds pfs_iterate makes. Each list may be NULL with length 0. */
struct pfs_iterate_options {
    uint64_t seed;          /**< seed of the random words */
    size_t take;            /**< number of jobs that a round removes, 1 to the number of jobs that may move */
    size_t held;            /**< number of jobs at the front of the order that keep their places */
    uint32_t first;         /**< the first round, counted from 0 */
    uint32_t count;         /**< number of rounds; first + count is at most PFS_MOST_ROUNDS */
    uint32_t partial;       /**< most passes over the jobs that are left after the removal, at most PFS_MOST_PASSES */
    uint32_t passes;        /**< most passes over the whole order, at most PFS_MOST_PASSES */
    uint32_t ties;          /**< rule for equally good places, PFS_TIES_FIRST or PFS_TIES_IDLE */
    const uint32_t *accept; /**< chances of longer orders */
    size_t accept_length;   /**< number of chances */
    const uint8_t *stay;    /**< for each job 0, or another number if it keeps its order */
    size_t stay_length;     /**< number of jobs from job 0 on that have a number in `stay` */
};

/** @brief Makes rounds of an iterated greedy search that also accepts longer orders.
 *
 * The search is that of Ruiz and Stützle (2007), with the local search on partial orders of Dubois-Lacoste, Pagnozzi
 * and Stützle (2017). It has a current order, which may become longer, and the best one so far. Each round removes
 * `take` jobs of the current order, makes passes over the jobs that are left, inserts the removed jobs at their best
 * places and makes passes over all jobs. In a pass each job, in the random order of the round, leaves its place for
 * its best one. Passes end early after one that makes the sequence no shorter. A best place is one of the places from
 * place `held` on that give the least makespan.
 *
 * If there are several such places, PFS_TIES_FIRST takes the first. PFS_TIES_IDLE takes the first of those with the
 * least total delay, the rule of Fernandez-Viagas and Framinan (2014) for idle times. The total delay of a place is the
 * sum over the machines of how much later the job that is now at the place would end; after the last job, of how much
 * later the sequence would end.
 *
 * A job may move if it is after the first `held` ones and stay[job] is 0 or beyond the list. Only such jobs are
 * removed and moved, so all others keep their order. With NULL and 0 in place of the list, all jobs after the held
 * ones may move.
 *
 * The order that a round finds becomes the best one if it is shorter than that. It becomes the current one if it is no
 * longer, or if it is longer by d and the first random word of the round is less than accept[d]; an order that is
 * longer by accept_length or more does not. So accept[d] is the probability in units of 2^-32. accept[0] is not used.
 * With accept[d] = 2^32 * exp(-d / t) the search is that with the constant temperature t.
 *
 * Round r uses the n + take + 1 random words from word r * (n + take + 1) of the seed on, n being the number of jobs:
 * one to accept, `take` to remove, and n for the order of the passes. So a search may be made in parts: rounds 0 to 99
 * and then rounds 100 to 199, from both orders of the first part, leave the same orders as rounds 0 to 199. Since
 * version 2.1.0.
 *
 * @param[in] options which rounds to make
 * @param[in,out] current all jobs; the order to start from, then the current order after the rounds
 * @param[out] current_makespan makespan of the current order after the rounds
 * @param[in,out] best all jobs, first the held ones of the current order; then the best order after the rounds. At the
 *     start of a search it is a copy of the current order.
 * @param[out] best_makespan makespan of the best order after the rounds
 * @return PFS_OK, or the first of PFS_NOT_PREPARED (instance), PFS_LENGTH (current_length, best_length), PFS_JOB or
 *     PFS_REPEATED (the jobs of the current and then of the best order, from the left), PFS_TAKE (take), PFS_HELD
 *     (best), PFS_PASSES (partial, passes), PFS_TIES (ties), PFS_ROUNDS (first + count)
 */
int pfs_iterate(struct pfs_instance *instance, const struct pfs_iterate_options *options, uint32_t *current,
                size_t current_length, uint64_t *current_makespan, uint32_t *best, size_t best_length,
                uint64_t *best_makespan) PFS_CHECKED;

/** @brief Finds the best place of a job in a sequence of other jobs. Time O(km).
 *
 * The best place is the first one that gives the least makespan. The job is inserted before the job at this place, or
 * after the last job. A call is faster if its sequence differs only in a few places from the one before.
 *
 * @param[in] sequence distinct jobs, without the job to insert
 * @param[in] job the job to insert
 * @param[out] place the best place, from 0 to sequence_length
 * @param[out] makespan makespan with the job at this place
 * @return PFS_OK, or the first of PFS_NOT_PREPARED (instance), PFS_JOB or PFS_REPEATED (the jobs of the sequence from
 *     the left), PFS_JOB or PFS_REPEATED (job)
 */
int pfs_insert(struct pfs_instance *instance, const uint32_t *sequence, size_t sequence_length, uint32_t job,
               size_t *place, uint64_t *makespan) PFS_CHECKED;

/** @brief Finds the best place of a job as pfs_insert does, by a rule for equally good places. Time O(km).
 *
 * Of the places that give the least makespan, `ties` says which one is the best, as for pfs_iterate. With
 * PFS_TIES_FIRST it is the place that pfs_insert finds. Since version 2.1.0.
 *
 * @param[in] ties PFS_TIES_FIRST or PFS_TIES_IDLE
 * @param[in] sequence distinct jobs, without the job to insert
 * @param[in] job the job to insert
 * @param[out] place the best place, from 0 to sequence_length
 * @param[out] makespan makespan with the job at this place
 * @return PFS_OK, or the first fault that pfs_insert returns, or PFS_TIES (ties)
 */
int pfs_insert_ties(struct pfs_instance *instance, uint32_t ties, const uint32_t *sequence, size_t sequence_length,
                    uint32_t job, size_t *place, uint64_t *makespan) PFS_CHECKED;

/** @brief Computes the makespan with a job at each place of a sequence of other jobs. Time O(km).
 *
 * makespans[place] is the makespan with the job before the one at this place, and makespans[sequence_length] that with
 * the job after the last one. The first place with the least of them is the one that pfs_insert finds.
 *
 * @param[in] sequence distinct jobs, without the job to insert
 * @param[in] job the job to insert
 * @param[out] makespans makespan with the job at each place, sequence_length + 1 of them
 * @return PFS_OK, or the first of PFS_NOT_PREPARED (instance), PFS_LENGTH (makespans_length), PFS_JOB or PFS_REPEATED
 *     (the jobs of the sequence from the left), PFS_JOB or PFS_REPEATED (job)
 */
int pfs_insertions(struct pfs_instance *instance, const uint32_t *sequence, size_t sequence_length, uint32_t job,
                   uint64_t *makespans, size_t makespans_length) PFS_CHECKED;

/** @brief Computes the heads and tails of a sequence. Time O(km).
 *
 * Entry place * machines + machine belongs to the operation of the job at this place of the sequence, on this machine.
 * Its head is the earliest time at which the operation ends. Its tail is the longest path from the start of the
 * operation to the end of the sequence. Both include the time of the operation.
 *
 * @param[in] sequence distinct jobs, in the order in which they are processed
 * @param[out] heads head of each operation, sequence_length * machines of them
 * @param[out] tails tail of each operation, sequence_length * machines of them
 * @return PFS_OK, or the first of PFS_NOT_PREPARED (instance), PFS_LENGTH (heads_length, tails_length), PFS_JOB or
 *     PFS_REPEATED (the jobs from the left)
 */
int pfs_heads_tails(struct pfs_instance *instance, const uint32_t *sequence, size_t sequence_length, uint64_t *heads,
                    size_t heads_length, uint64_t *tails, size_t tails_length) PFS_CHECKED;

/** @brief Inserts jobs into a sequence one after the other, each at its best place. Time O(nm) for each.
 *
 * The best place is the one that pfs_insert finds. From the empty sequence and all jobs in the order of NEH's ranking,
 * the function finds NEH's order.
 *
 * @param[in] sequence distinct jobs, to which the others are added
 * @param[in] more jobs to insert, in this order; they are distinct, and not in the sequence
 * @param[out] order the sequence with all of these jobs, sequence_length + more_length of them
 * @param[out] makespan makespan of the order
 * @return PFS_OK, or the first of PFS_NOT_PREPARED (instance), PFS_LENGTH (order_length), PFS_JOB or PFS_REPEATED (the
 *     jobs of the sequence from the left, then those to insert)
 */
int pfs_construct(struct pfs_instance *instance, const uint32_t *sequence, size_t sequence_length, const uint32_t *more,
                  size_t more_length, uint32_t *order, size_t order_length, uint64_t *makespan) PFS_CHECKED;

/** @brief Inserts jobs as pfs_construct does, by a rule for equally good places. Time O(nm) for each.
 *
 * The best place is the one that pfs_insert_ties finds. With PFS_TIES_FIRST the order is that of pfs_construct. The
 * sequence is in the front of `order`, before as many free places as there are jobs to insert. Since version 2.1.0.
 *
 * @param[in] ties PFS_TIES_FIRST or PFS_TIES_IDLE
 * @param[in] more jobs to insert, in this order; they are distinct, and not in the sequence
 * @param[in,out] order order_length - more_length distinct jobs, to which the others are added; then the sequence with
 *     all of these jobs
 * @param[out] makespan makespan of the order
 * @return PFS_OK, or the first of PFS_NOT_PREPARED (instance), PFS_LENGTH (order_length is less than more_length),
 *     PFS_JOB or PFS_REPEATED (the jobs of the sequence from the left, then those to insert), PFS_TIES (ties)
 */
int pfs_construct_ties(struct pfs_instance *instance, uint32_t ties, const uint32_t *more, size_t more_length,
                       uint32_t *order, size_t order_length, uint64_t *makespan) PFS_CHECKED;

/** @brief Improves a sequence by passes over a list of its jobs. Time O(km) for each job and pass.
 *
 * In a pass, each job of the list is removed and inserted at its best place, which is the one that pfs_insert finds.
 * The result is never longer than the sequence. A list of all jobs from 0 on makes the passes of a round of pfs_rounds.
 *
 * @param[in] list distinct jobs of the sequence, in the order in which they are removed and inserted
 * @param[in] passes number of passes, from 0 to PFS_MOST_PASSES
 * @param[in,out] sequence distinct jobs; the sequence to start from, then the sequence after the passes
 * @param[out] makespan makespan of the sequence after the passes
 * @return PFS_OK, or the first of PFS_NOT_PREPARED (instance), PFS_JOB or PFS_REPEATED (the jobs of the sequence from
 *     the left), PFS_JOB or PFS_REPEATED (those of the list), PFS_JOB (a job of the list that is not in the sequence),
 *     PFS_PASSES (passes)
 */
int pfs_local_search(struct pfs_instance *instance, const uint32_t *list, size_t list_length, uint32_t passes,
                     uint32_t *sequence, size_t sequence_length, uint64_t *makespan) PFS_CHECKED;

/** @brief Improves a sequence by passes until no job of a list improves it, by a rule for equally good places. Time
 * O(km) for each job and pass.
 *
 * In a pass, each job of the list is removed and inserted at its best place, which is the one that pfs_insert_ties
 * finds. Passes end early after one that makes the sequence no shorter: in it no job found a place with a shorter
 * makespan, though jobs may have moved to equally good places. With PFS_MOST_PASSES that is so at the end, unless each
 * of these passes made the sequence shorter. The result is never longer than the sequence. One pass with
 * PFS_TIES_FIRST is that of pfs_local_search. Since version 2.1.0.
 *
 * @param[in] ties PFS_TIES_FIRST or PFS_TIES_IDLE
 * @param[in] list distinct jobs of the sequence, in the order in which they are removed and inserted
 * @param[in] passes the most passes, from 0 to PFS_MOST_PASSES
 * @param[in,out] sequence distinct jobs; the sequence to start from, then the sequence after the passes
 * @param[out] makespan makespan of the sequence after the passes
 * @return PFS_OK, or the first fault that pfs_local_search returns, or PFS_TIES (ties)
 */
int pfs_local_search_ties(struct pfs_instance *instance, uint32_t ties, const uint32_t *list, size_t list_length,
                          uint32_t passes, uint32_t *sequence, size_t sequence_length, uint64_t *makespan) PFS_CHECKED;

/** @brief What a size line of Taillard's layout contains besides the sizes. Nothing is computed from it. */
struct pfs_notes {
    uint32_t seed;  /**< the initial seed of the generator */
    uint32_t upper; /**< the upper bound: some order's makespan is not greater */
    uint32_t lower; /**< the lower bound: no order's makespan is less */
};

/** @brief Writes an instance as a file of one block. Time O(nm). Allocates.
 *
 * The file has single spaces and no leading zeros. The layout PFS_ORLIB has no notes.
 *
 * @param[in] notes notes for the size line
 * @param[in] layout PFS_TAILLARD or PFS_ORLIB
 * @param[out] text the file, in the front of the list
 * @param[in] room length of the list `text`
 * @param[out] length number of bytes in the file, on PFS_OK and on PFS_ROOM
 * @return PFS_OK, or the first of PFS_NOT_PREPARED (instance), PFS_LAYOUT (layout), PFS_MEMORY, PFS_ROOM (room)
 */
int pfs_write(struct pfs_instance *instance, const struct pfs_notes *notes, uint32_t layout, uint8_t *text, size_t room,
              size_t *length) PFS_CHECKED;

/** @} */

/** @name Calls that need no instance.
 * @{
 */

/** @brief Computes random words of a seed (Pcg32, O'Neill 2014), in the time of as many words and of a jump.
 *
 * Round r of pfs_rounds uses the `take` words from word r * take on. Each word selects a job to remove: the job at the
 * place that is the word modulo the number of jobs left in the order. Since version 1.1.0.
 *
 * @param[in] seed seed of the random words
 * @param[in] first the first word, counted from 0
 * @param[out] words the words from `first` on
 * @return PFS_OK
 */
int pfs_random(uint64_t seed, uint64_t first, uint32_t *words, size_t words_length) PFS_CHECKED;

/** @brief Draws processing times from 1 to 99 from a seed, as Taillard (1993) does for his benchmark. Time O(nm).
 * Allocates.
 *
 * Since version 1.0.0.
 *
 * @param[in] jobs number of jobs
 * @param[in] machines number of machines
 * @param[in] seed seed of Taillard's generator
 * @param[out] times processing times, job by job, jobs * machines of them
 * @return PFS_OK, or the first of PFS_SIZE (jobs, machines), PFS_SEED (seed), PFS_LENGTH (times_length), PFS_MEMORY
 */
int pfs_generate(size_t jobs, size_t machines, uint64_t seed, uint32_t *times, size_t times_length) PFS_CHECKED;

/** @brief What the size line of a block says. */
struct pfs_block {
    size_t jobs;            /**< number of jobs */
    size_t machines;        /**< number of machines */
    struct pfs_notes notes; /**< notes of the size line; with PFS_ORLIB all are 0 */
};

/** @brief Reads a block of an instance file in memory. Time O(bytes_length). Allocates.
 *
 * If `room` is less than jobs * machines, the function returns PFS_ROOM and still sets `found`, so a call with room 0
 * finds the sizes. Nothing after the block is examined. Memory for the times is allocated at the end of the block's
 * size line, so PFS_MEMORY says nothing about the bytes after it.
 *
 * @param[in] bytes the file
 * @param[in] layout PFS_TAILLARD or PFS_ORLIB
 * @param[in] block number of the block, counted from 1
 * @param[out] found the sizes and notes of the block
 * @param[out] times processing times, job by job, in the front of the list
 * @param[in] room length of the list `times`
 * @param[out] place place of the file's fault, as its number says
 * @return PFS_OK, or the first of PFS_LAYOUT (layout), PFS_BLOCK (block), PFS_NO_BLOCK to PFS_INPUT_TOO_LONG (the file)
 *     or PFS_MEMORY, PFS_ROOM (room)
 */
int pfs_read(const uint8_t *bytes, size_t bytes_length, uint32_t layout, size_t block, struct pfs_block *found,
             uint32_t *times, size_t room, uint64_t *place) PFS_CHECKED;

/** @brief Reads an order file of version 1 or 2 in memory. Time O(bytes_length). Allocates.
 *
 * If `room` is less than the number of jobs, the function returns PFS_ROOM and still sets jobs, machines and makespan.
 * The makespan is the one that the file states, right or wrong. Since version 1.0.0.
 *
 * @param[in] bytes the file
 * @param[out] order the order, in the front of the list; its jobs count from 0
 * @param[in] room length of the list `order`
 * @param[out] jobs number of jobs
 * @param[out] machines number of machines, or 0 if the file states none
 * @param[out] makespan the makespan that the file states
 * @param[out] place place of the file's fault, as its number says
 * @return PFS_OK, or the first of PFS_SYNTAX to PFS_FILE_TOO_LONG (the file) or PFS_MEMORY, PFS_ROOM (room)
 */
int pfs_read_order(const uint8_t *bytes, size_t bytes_length, uint32_t *order, size_t room, size_t *jobs,
                   size_t *machines, uint64_t *makespan, uint64_t *place) PFS_CHECKED;

/** @brief Writes an order of all jobs and a makespan as an order file. Time O(n). Allocates.
 *
 * The file is of version 1 if machines is 0, otherwise of version 2. Since version 1.0.0.
 *
 * @param[in] order all jobs, counted from 0
 * @param[in] machines number of machines, at most PFS_MOST_MACHINES, or 0 to state none
 * @param[in] makespan the makespan to state, which is not checked
 * @param[out] text the file, in the front of the list
 * @param[in] room length of the list `text`
 * @param[out] length number of bytes in the file, on PFS_OK and on PFS_ROOM
 * @return PFS_OK, or the first of PFS_SIZE (order_length, machines), PFS_JOB or PFS_REPEATED (the jobs from the left),
 *     PFS_MAKESPAN (makespan), PFS_MEMORY, PFS_ROOM (room)
 */
int pfs_write_order(const uint32_t *order, size_t order_length, size_t machines, uint64_t makespan, uint8_t *text,
                    size_t room, size_t *length) PFS_CHECKED;

/** @} */

#ifdef __cplusplus
}
#endif

#endif
