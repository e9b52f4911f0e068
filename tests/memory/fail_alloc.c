/*
 * Preloaded into a program by failing.py, it makes allocations, reads or writes fail. It fails one
 * allocation: the one whose number is FAIL_ALLOC, of those between the lines `begin` and `end` on
 * standard error, or of all if FAIL_ANYWHERE is set. It fails the call of read on standard input whose
 * number is FAIL_READ, and the call of write on standard output whose number is FAIL_WRITE, with the
 * error FAIL_WITH; if that is 0 the call moves nothing. If ONE_BYTE is set, no such call moves more than
 * one byte. At the end it writes the numbers of allocations, reads and writes, of bytes in all those
 * allocations, and of blocks that were allocated anywhere and never freed, to the descriptor COUNTS_TO.
 *
 * If EACH_LINE is set, allocations are counted anew for each line on standard output, and one fails in each:
 * FAIL_ALLOC has a number for every line. Each line comes after its number of allocations, the number of
 * bytes in the allocations between a `begin` and its `end`, where that is greatest, and the number of blocks
 * that the program holds when it writes the line.
 */
#define _GNU_SOURCE
#include <dlfcn.h>
#include <errno.h>
#include <stdint.h>
#include <stdio.h>
#include <stdlib.h>
#include <string.h>
#include <unistd.h>

static long allocations, fail_alloc, reads, writes, fail_read, fail_write, held;
static size_t bytes_allocated, most_allocated;
static int inside, counts_to = -1, fail_with, one_byte, each_line, is_in_line;
static char *numbers = "";

static long number(const char *name) {
    const char *text = getenv(name);
    return text ? atol(text) : 0;
}

__attribute__((constructor)) static void start(void) {
    if (getenv("FAIL_ALLOC")) numbers = getenv("FAIL_ALLOC");
    fail_alloc = strtol(numbers, &numbers, 10);
    fail_read = number("FAIL_READ");
    fail_write = number("FAIL_WRITE");
    fail_with = number("FAIL_WITH");
    one_byte = getenv("ONE_BYTE") != NULL;
    each_line = getenv("EACH_LINE") != NULL;
    counts_to = getenv("COUNTS_TO") ? number("COUNTS_TO") : -1;
    inside = getenv("FAIL_ANYWHERE") != NULL;
}

__attribute__((destructor)) static void stop(void) {
    if (counts_to < 0) return;
    dprintf(counts_to, "%ld %ld %ld %zu %ld\n", allocations, reads, writes, bytes_allocated, held);
}

static int alloc_fails(size_t n) {
    if (!inside) return 0;
    if (__builtin_add_overflow(bytes_allocated, n, &bytes_allocated)) bytes_allocated = SIZE_MAX;
    if (most_allocated < bytes_allocated) most_allocated = bytes_allocated;
    return ++allocations == fail_alloc;
}

/* A line may be written in pieces. */
static void write_counts(const char *piece, size_t n) {
    if (!is_in_line) {
        dprintf(1, "%ld %zu %ld\n", allocations, most_allocated, held);
        allocations = most_allocated = 0;
        fail_alloc = strtol(numbers, &numbers, 10);
    }
    is_in_line = !n || piece[n - 1] != '\n';
}

static int io_fails(int is_the_one) {
    if (is_the_one) errno = fail_with;
    return is_the_one;
}

#define REAL(name) \
    static __typeof__(name) *real; \
    if (!real) real = (__typeof__(name) *)dlsym(RTLD_NEXT, #name)

void *malloc(size_t n) {
    REAL(malloc);
    void *block = alloc_fails(n) ? NULL : real(n);
    held += block != NULL;
    return block;
}
void *realloc(void *p, size_t n) {
    REAL(realloc);
    void *block = alloc_fails(n) ? NULL : real(p, n);
    held += block != NULL && p == NULL;
    return block;
}
void *aligned_alloc(size_t a, size_t n) {
    REAL(aligned_alloc);
    void *block = alloc_fails(n) ? NULL : real(a, n);
    held += block != NULL;
    return block;
}
void free(void *p) {
    REAL(free);
    held -= p != NULL;
    real(p);
}

ssize_t write(int fd, const void *bytes, size_t n) {
    if (fd == 2 && n == 6 && !memcmp(bytes, "begin\n", n)) inside = 1;
    if (fd == 2 && n == 4 && !memcmp(bytes, "end\n", n)) inside = 0;
    if (fd == 2 && each_line) bytes_allocated = 0;
    if (fd == 1 && each_line) write_counts(bytes, n);
    if (fd == 1 && io_fails(++writes == fail_write)) return fail_with ? -1 : 0;
    if (fd == 1 && one_byte && n > 1) n = 1;
    REAL(write);
    return real(fd, bytes, n);
}

ssize_t read(int fd, void *bytes, size_t n) {
    if (fd == 0 && io_fails(++reads == fail_read)) return fail_with ? -1 : 0;
    if (fd == 0 && one_byte && n > 1) n = 1;
    REAL(read);
    return real(fd, bytes, n);
}
