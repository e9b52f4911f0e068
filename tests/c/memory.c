/*
 * Makes the calls of amqp_values.h that write to a buffer, with buffers of every size up to what is needed and one
 * more, and with each allocation failing in turn. test_programs.py runs it: each line of standard input is a call, its
 * flags, what it is given, and what it has to write: hexadecimal digits after a `.`. amqpv_warn, which writes a struct,
 * has nothing there. If what is given is wrong, the line ends with the result instead. Prints how many calls it made.
 *
 * Linked with -Wl,--wrap of malloc, realloc and free. All that is allocated has to be freed.
 */
#include "check.h"

enum { MOST = 1 << 20, FILLED = 0x5a };

static uint64_t calls, requests, blocks, failing;

void *__real_malloc(size_t size);
void *__real_realloc(void *block, size_t size);
void __real_free(void *block);

void *__wrap_malloc(size_t size) {
    void *block = ++requests == failing ? NULL : __real_malloc(size);
    blocks += block != NULL;
    return block;
}

void *__wrap_realloc(void *block, size_t size) {
    void *larger = ++requests == failing ? NULL : __real_realloc(block, size);
    blocks += block == NULL && larger != NULL;
    return larger;
}

void __wrap_free(void *block) {
    blocks -= block != NULL;
    __real_free(block);
}

static uint8_t *given_end, *buffer_end, wanted[MOST];
static size_t given_length, wanted_length;
static uint32_t flags;
static char call[32];

static size_t of_digits(const char *digits, uint8_t *bytes) {
    size_t n = strlen(digits) / 2;
    for (size_t i = 0; i < n; i++) {
        unsigned byte;
        CHECK(sscanf(digits + 2 * i, "%2x", &byte) == 1);
        bytes[i] = (uint8_t)byte;
    }
    return n;
}

static int is_call(const char *name) { return strcmp(call, name) == 0; }

/* How many bytes more than the output a buffer needs: JSON ends with a NUL. */
static size_t after(void) { return is_call("to_json"); }

/* Makes the call with a buffer of n bytes; nothing after or before what it writes may change, and no block may be left. */
static amqpv_result make_call(size_t n, size_t *length) {
    amqpv_input in = amqpv_value(given_end - given_length, given_length);
    amqpv_problem problem = {77, 77, 77, 77};
    amqpv_warnings warnings;
    uint8_t *buffer = buffer_end - n;
    amqpv_result result;
    in.flags = flags;
    memset(buffer - 16, FILLED, n + 16);
    *length = 77;
    if (is_call("canonical")) {
        result = amqpv_canonical(&in, buffer, n, length);
    } else if (is_call("to_json")) {
        result = amqpv_to_json(&in, (char *)buffer, n, length);
    } else if (is_call("from_json")) {
        result = amqpv_from_json((const char *)in.bytes, in.length, AMQPV_MAX_DEPTH, buffer, n, length, &problem);
        int is_set = result <= AMQPV_NOT_UTF8 && result >= AMQPV_NOT_A_VALUE;
        CHECK(is_set || result == AMQPV_TOO_DEEP
              || (problem.offset == 77 && problem.missing == 77 && problem.tag == 77 && problem.reason == 77));
    } else {
        result = amqpv_warn(&in, 64, 2, &warnings);
        *length = 0;
    }
    calls++;
    /* (after an error JSON may be there) */
    for (size_t i = result == AMQPV_OK ? *length + after() : is_call("to_json") ? n : 0; i < n; i++) {
        CHECK(buffer[i] == FILLED);
    }
    for (size_t i = 1; i <= 16; i++) {
        CHECK(buffer[-(ptrdiff_t)i] == FILLED);
    }
    CHECK(blocks == 0 && (result != AMQPV_OK || memcmp(buffer, wanted, *length) == 0));
    CHECK(result != AMQPV_OK || after() == 0 || buffer[*length] == 0);
    return result;
}

/* What is given is wrong: whatever the buffer's size and whichever allocation fails, nothing is written. */
static void try_wrong(amqpv_result wanted) {
    for (uint64_t nth = 0, made = 0; nth <= made; nth++) {
        uint64_t before = requests;
        size_t length;
        failing = nth > 0 ? before + nth : 0;
        amqpv_result result = make_call(nth % 2 > 0 ? 64 : 0, &length);
        failing = 0;
        CHECK((result == wanted || (nth > 0 && result == AMQPV_NO_MEMORY)) && length == 0);
        made = nth > 0 ? made : requests - before;
    }
}

int main(void) {
    static char line[4 * MOST], given[2 * MOST], out[2 * MOST];
    static uint8_t bytes[MOST];
    given_end = guarded(MOST) + MOST;
    buffer_end = guarded(MOST) + MOST;
    while (fgets(line, sizeof line, stdin) != NULL) {
        size_t length;
        unsigned of_line;
        int wrong = 0;
        CHECK(sscanf(line, "%31s %u .%s %d", call, &of_line, given, &wrong) == 4
              || sscanf(line, "%31s %u .%s .%s", call, &of_line, given, out) >= 3
              || sscanf(line, "%31s %u . .%s", call, &of_line, out) == 3);
        flags = of_line;
        given_length = of_digits(given, bytes);
        memcpy(given_end - given_length, bytes, given_length);
        if (wrong != 0) {
            try_wrong((amqpv_result)wrong);
            given[0] = 0;
            continue;
        }
        wanted_length = of_digits(out, wanted);
        uint64_t before = requests;
        size_t needed = wanted_length + after();
        amqpv_result result = make_call(needed, &length), without = is_call("warn") ? result : AMQPV_OK;
        CHECK(result == without && length == wanted_length && (requests == before || !is_call("to_json")));
        int is_small = wanted_length < 300;
        for (size_t n = is_small || wanted_length == 0 ? 0 : wanted_length - 3; n <= needed + 1; n++) {
            CHECK(make_call(n, &length) == (n < needed ? AMQPV_NO_ROOM : without)
                  && length == (n < needed ? needed : wanted_length));
        }
        for (uint64_t nth = 1;; nth += is_small ? 1 : 17) {
            before = requests;
            failing = requests + nth;
            result = make_call(needed, &length);
            failing = 0;
            CHECK(result == without ? length == wanted_length : result == AMQPV_NO_MEMORY && length == 0);
            if (requests - before < nth) {
                CHECK(result == without);
                break;
            }
        }
        given[0] = out[0] = 0;
    }
    printf("%llu calls\n", (unsigned long long)calls);
    return 0;
}
