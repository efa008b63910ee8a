/* Counts the comparisons of the checks, and shows the first 20 that fail. Also draws random numbers for the checks. */
#ifndef EXPECTING_H
#define EXPECTING_H

#include <inttypes.h>
#include <stdbool.h>
#include <stddef.h>
#include <stdio.h>

static unsigned long passed, failed;
static uint64_t state = UINT64_C(88172645463325252);

static inline void expect(bool good, const char *what, uint64_t place) {
    passed += good ? 1 : 0;
    failed += good ? 0 : 1;
    if (!good && failed <= 20) {
        printf("%s, case %" PRIu64 "\n", what, place);
    }
}

/* Prints the last line, and returns the status. */
static inline int close_with(const char *what) {
    printf("%lu %s as they must be, %lu otherwise\n", passed, what, failed);
    return failed == 0 && passed > 0 ? 0 : 1;
}

/* Draws a number below `end`, by Marsaglia's shifts. */
static inline size_t below(size_t end) {
    state ^= state << 13;
    state ^= state >> 7;
    state ^= state << 17;
    return (size_t)(state >> 11) % end;
}

#endif
