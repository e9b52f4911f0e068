/*
 * rattle_alloc, rattle_realloc and rattle_dealloc, by which the calls of the C API allocate, over malloc, realloc and
 * free. They do what the toolchain's own do (its libc/src/heap.rt states their contracts, which are trusted): an
 * alignment is at most that of malloc, and a block of no bytes is one of `align`. tests/c/memory.c tries the calls with
 * allocations that fail.
 *
 * generated/ has these functions compiled, as local ones. The toolchain's clang compiles them, which has no headers. It
 * must not see that what is allocated is freed again, and leave out both: an allocation that fails has to be noticed.
 */
typedef __SIZE_TYPE__ size_t;
typedef __UINTPTR_TYPE__ uintptr_t;

void *malloc(size_t size);
void *realloc(void *block, size_t size);
void free(void *block);

#define APART __attribute__((noinline))

/* Whether there is a block, in the lowest byte, and the block. */
typedef struct tried {
    size_t is_there;
    uintptr_t block;
} tried;

/* What a failed request points to instead. */
static const char nothing;

static tried tell(void *block) {
    tried said = {block != 0, block != 0 ? (uintptr_t)block : (uintptr_t)&nothing};
    return said;
}

APART tried rattle_alloc(size_t size, size_t align) { return tell(malloc(size > 0 ? size : align)); }

APART tried rattle_realloc(void *block, size_t kept, size_t size, size_t align) {
    (void)kept;
    return tell(realloc(block, size > 0 ? size : align));
}

APART void rattle_dealloc(void *block) { free(block); }
