/*
 * What the programs share that test_programs.py runs: `CHECK`, which aborts if a condition doesn't hold, and `guarded`,
 * memory that ends where a page begins that can't be accessed.
 */
#ifndef CHECK_H
#define CHECK_H

#define _DEFAULT_SOURCE
#include "amqp_values.h"

#include <stdio.h>
#include <stdlib.h>
#include <string.h>
#include <sys/mman.h>
#include <unistd.h>

#define CHECK(condition) \
    do { \
        if (!(condition)) { \
            fprintf(stderr, "%s, line %d: not so: %s\n", __FILE__, __LINE__, #condition); \
            abort(); \
        } \
    } while (0)

/* n bytes that end where a page begins that can't be accessed, and begin after such a page or in the middle of one. */
static inline uint8_t *guarded(size_t n) {
    size_t page = (size_t)sysconf(_SC_PAGESIZE), inside = (n + page - 1) / page * page;
    uint8_t *pages = (uint8_t *)mmap(NULL, inside + 2 * page, PROT_NONE, MAP_PRIVATE | MAP_ANONYMOUS, -1, 0);
    CHECK(pages != MAP_FAILED && mprotect(pages + page, inside, PROT_READ | PROT_WRITE) == 0);
    return pages + page + inside - n;
}

#endif
