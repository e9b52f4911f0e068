/* Counts requests for memory, and the most bytes at once, in bench/driver.rs: bench/lanes.py preloads this into it. */
#include <malloc.h>
#include <stdint.h>
#include <stddef.h>

void *__libc_malloc(size_t size);
void *__libc_calloc(size_t count, size_t size);
void *__libc_realloc(void *block, size_t size);
void __libc_free(void *block);

static uint64_t requests, held, most, before;

/* Counts a request that was met by a block, instead of so many bytes. */
static void *counted(void *block, size_t instead) {
    requests++;
    held += malloc_usable_size(block) - instead;
    most = held > most ? held : most;
    return block;
}

void *malloc(size_t size) { return counted(__libc_malloc(size), 0); }

void *calloc(size_t count, size_t size) { return counted(__libc_calloc(count, size), 0); }

void *realloc(void *block, size_t size) {
    size_t instead = malloc_usable_size(block);
    return counted(__libc_realloc(block, size), instead);
}

void free(void *block) {
    held -= malloc_usable_size(block);
    __libc_free(block);
}

/* The requests since this was called last, and the most bytes beyond those held then. */
void heap_since(uint64_t counts[2]) {
    counts[0] = requests;
    counts[1] = most - before;
    requests = 0;
    before = most = held;
}
