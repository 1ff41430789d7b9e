/*
 * Checks of the C tests, counted in groups: each group prints 'NAME: N right, M
 * wrong', and the last line is 'N passed, M failed'.
 */
#ifndef CHECK_H
#define CHECK_H

#include <inttypes.h>
#include <stdint.h>
#include <stdio.h>
#include <string.h>

/* Failed checks of one group that are shown. */
enum { SHOWN = 20 };

static unsigned long passed;
static unsigned long failed;

/* Numbers when the current group of checks began. */
static unsigned long passed_before;
static unsigned long failed_before;

/* `at` tells the checks of one loop apart. */
static inline void check(const char *what, unsigned long at, uint64_t got, uint64_t want)
{
    if (got == want) {
        passed++;
        return;
    }
    failed++;
    /* The first few of a group say what is wrong; the rest are only counted. */
    if (failed - failed_before <= SHOWN)
        fprintf(stderr, "failed: %s at %lu: got %" PRIu64 ", want %" PRIu64 "\n", what, at, got,
                want);
}

static inline void check_bytes(const char *what, unsigned long at, const void *got,
                               const void *want, size_t size)
{
    check(what, at, memcmp(got, want, size) == 0, 1);
}

/* A group without a check has shown nothing, so that it counts as a failure. */
static inline void end_group(const char *name)
{
    if (passed == passed_before && failed == failed_before)
        check(name, 0, 0, 1);
    printf("%s: %lu right, %lu wrong\n", name, passed - passed_before, failed - failed_before);
    passed_before = passed;
    failed_before = failed;
}

/* Prints the last line and gives the exit status: 1 if a check failed, if there was
 * none, or if what was printed could not be written. */
static inline int end_checks(void)
{
    printf("%lu passed, %lu failed\n", passed, failed);
    return failed == 0 && passed > 0 && fflush(stdout) == 0 && !ferror(stdout) ? 0 : 1;
}

#endif
