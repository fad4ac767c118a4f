/** @file
 * @brief The texts and the version of libpfs. They are constants in C, since a proved function can't return a pointer.
 */
#include "pfs.h"

const char *pfs_version(void) {
    return PFS_VERSION;
}

int pfs_version_number(void) {
    return PFS_VERSION_NUMBER;
}

const char *pfs_message(int number) {
    switch (number) {
    case PFS_OK: return "done";
    case PFS_MEMORY: return "memory allocation failed";
    case PFS_SIZE: return "the number of jobs or of machines is out of its limits";
    case PFS_LENGTH: return "a list doesn't have the length that the sizes require";
    case PFS_TIME: return "a time is greater than 1000000000";
    case PFS_JOB: return "a job isn't below the number of jobs, or isn't in the sequence";
    case PFS_REPEATED: return "a job occurs twice";
    case PFS_TAKE: return "the destruction size isn't from 1 to the number of jobs that may move";
    case PFS_PASSES: return "more than 100 passes";
    case PFS_ROUNDS: return "more than 1000000 rounds";
    case PFS_SEED: return "the seed isn't from 1 to 2147483646";
    case PFS_LAYOUT: return "no such layout";
    case PFS_BLOCK: return "the block isn't from 1 to 1000";
    case PFS_MAKESPAN: return "the makespan has more than 18 digits";
    case PFS_ROOM: return "too little room for the result";
    case PFS_NOT_PREPARED: return "no instance is prepared";
    case PFS_HELD: return "the best order doesn't begin with the held jobs of the current one";
    case PFS_TIES: return "no such rule for equally good places";
    case PFS_NO_BLOCK: return "the file ends before the block";
    case PFS_SIZE_COUNT: return "a size line has too few or too many numbers";
    case PFS_SIZE_RANGE: return "a number of a size line is out of range";
    case PFS_MIXED_LINE: return "a line has both numbers and a word";
    case PFS_TIME_RANGE: return "a time of the file is greater than 1000000000";
    case PFS_MACHINE_NUMBER: return "a number isn't the expected machine number";
    case PFS_EXTRA_NUMBER: return "a number follows the last time of a block";
    case PFS_TRUNCATED: return "the file ends inside a block";
    case PFS_INPUT_TOO_LONG: return "the block doesn't end within 67108864 bytes";
    case PFS_SYNTAX: return "not an order file";
    case PFS_JOB_RANGE: return "a job of the order file is 0 or greater than the number of jobs";
    case PFS_JOB_TWICE: return "a job of the order file occurs twice";
    case PFS_FILE_TOO_LONG: return "an order file of more than 65536 bytes";
    default: return "unknown number";
    }
}
