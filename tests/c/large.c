/*
 * Makes calls of amqp_values.h at sizes that are real or at the limits of the format: a table of a million pairs with
 * one key, an array of a million values, a path through 100,000 arrays, a string of 20 MiB for the calls that allocate,
 * and strings and bodies of 2^32 bytes.
 * test_programs.py runs it. What is read ends where a page begins that can't be accessed. Prints how many calls it
 * made.
 */
#include "check.h"

enum { MANY = 1000000, LEVELS = 100000, LONG = 20 << 20 };

static unsigned calls;
static amqpv_input in;
static amqpv_entry outer;

static void write_length(uint8_t *to, size_t length) {
    for (int i = 0; i < 4; i++) {
        to[i] = (uint8_t)(length >> (24 - 8 * i));
    }
}

/* Room for a body, after the type tag and length of its container, which is then `outer`. */
static uint8_t *new_body(uint8_t tag, size_t body) {
    uint8_t *at = guarded(body + 5);
    at[0] = tag;
    write_length(at + 1, body);
    in = amqpv_value(at, body + 5);
    in.max_bytes = UINT32_MAX;
    calls++;
    CHECK(amqpv_peek(&in, &outer) == AMQPV_OK && outer.content.length == body);
    return at + 5;
}

static amqpv_result find(const amqpv_step *path, size_t steps, uint32_t flags, amqpv_entry *found) {
    in.flags = flags;
    calls++;
    return amqpv_find(&in, &outer, path, steps, found);
}

/* a: 0, a: 1, and so on: the first is 0, the last one less than there are. */
static void try_equal_keys(void) {
    uint8_t *at = new_body(AMQPV_TABLE, MANY * 7);
    const amqpv_step key = AMQPV_KEY("a"), other = AMQPV_KEY("b");
    amqpv_entry found;
    amqpv_problem problem;
    amqpv_size size;
    for (size_t n = 0; n < MANY; n++) {
        memcpy(at + 7 * n, "\1aI", 3);
        write_length(at + 7 * n + 3, n);
    }
    CHECK(amqpv_read(&in, &found, &problem) == AMQPV_OK && found.value.length == MANY * 7 + 5);
    CHECK(amqpv_measure(&in, &size, &problem) == AMQPV_OK && size.values == MANY + 1 && size.levels == 1);
    CHECK(find(&key, 1, AMQPV_FIRST_KEY, &found) == AMQPV_OK && found.bits == 0);
    CHECK(find(&key, 1, 0, &found) == AMQPV_OK && found.bits == MANY - 1);
    CHECK(find(&other, 1, 0, &found) == AMQPV_NONE);
    at[7 * MANY - 5] = 0; /* the last type tag */
    CHECK(find(&key, 1, AMQPV_FIRST_KEY, &found) == AMQPV_OK && found.bits == 0);
    CHECK(find(&key, 1, 0, &found) == AMQPV_CUT && find(&other, 1, AMQPV_FIRST_KEY, &found) == AMQPV_CUT);
    CHECK(amqpv_read(&in, &found, &problem) == AMQPV_UNKNOWN_TAG && problem.offset == 7 * MANY && problem.tag == 0);
    calls += 3;
}

static void try_indexes(void) {
    uint8_t *at = new_body(AMQPV_ARRAY, MANY * 5);
    const size_t indexes[] = {0, 1, 255, 65536, MANY - 1, MANY, (size_t)1 << 32, SIZE_MAX};
    amqpv_entry found;
    for (size_t n = 0; n < MANY; n++) {
        at[5 * n] = AMQPV_LONG_INT;
        write_length(at + 5 * n + 1, n);
    }
    for (size_t i = 0; i < sizeof indexes / sizeof *indexes; i++) {
        const amqpv_step step = AMQPV_INDEX(indexes[i]);
        CHECK(find(&step, 1, 0, &found) == (indexes[i] < MANY ? AMQPV_OK : AMQPV_NONE));
        CHECK(indexes[i] >= MANY || (found.bits == indexes[i] && found.value.offset == 5 + 5 * indexes[i]));
    }
}

/* [[[..[]..]]]: a call that recursed for each step wouldn't survive. */
static void try_levels(void) {
    static amqpv_step path[LEVELS + 1];
    uint8_t *at = new_body(AMQPV_ARRAY, LEVELS * 5);
    amqpv_entry found;
    amqpv_problem problem;
    for (size_t n = 0; n <= LEVELS; n++) {
        path[n] = (amqpv_step)AMQPV_INDEX(0);
        if (n < LEVELS) {
            at[5 * n] = AMQPV_ARRAY;
            write_length(at + 5 * n + 1, 5 * (LEVELS - 1 - n));
        }
    }
    CHECK(find(path, LEVELS, 0, &found) == AMQPV_OK && found.value.offset == LEVELS * 5 && found.content.length == 0);
    CHECK(find(path, LEVELS + 1, 0, &found) == AMQPV_NONE);
    CHECK(amqpv_read(&in, &found, &problem) == AMQPV_TOO_DEEP && problem.offset == 5 * AMQPV_MAX_DEPTH);
    calls++;
}

/* {"b": "aa..", "a": null}, whose keys descend, so that each of the three calls that may allocate does. */
static void try_calls_that_allocate(void) {
    static uint8_t bytes[LONG + 10], back[LONG + 15];
    static char json[LONG + 20];
    uint8_t *body = new_body(AMQPV_TABLE, LONG + 10);
    size_t length;
    amqpv_warnings warnings;
    memset(body, 'a', LONG + 10);
    memcpy(body, "\1bS", 3);
    write_length(body + 3, LONG);
    memcpy(body + LONG + 7, "\1aV", 3);
    CHECK(amqpv_canonical(&in, back, sizeof back, &length) == AMQPV_OK && length == LONG + 15);
    CHECK(memcmp(back + 5, "\1aV\1bS", 6) == 0 && memcmp(back + 11, body + 3, LONG + 4) == 0);
    CHECK(amqpv_to_json(&in, json, sizeof json, &length) == AMQPV_OK && length == LONG + 17);
    CHECK(memcmp(json, "{\"b\":\"a", 7) == 0 && strcmp(json + LONG + 5, "a\",\"a\":null}") == 0);
    memcpy(bytes, back, sizeof bytes);
    memset(back, 0, sizeof back);
    CHECK(amqpv_from_json(json, length, 1, back, sizeof back, &length, NULL) == AMQPV_OK && length == LONG + 15);
    CHECK(memcmp(bytes, back, sizeof bytes) == 0 && back[LONG + 14] == 'a');
    CHECK(amqpv_warn(&in, 0, 1, &warnings) == AMQPV_OK && warnings.count == 0);
    calls += 4;
}

/* Strings of 2^32 bytes and of one less, and a body of 2^32 bytes. The pages of zeros take no memory until they are written. */
static void try_two_to_32(void) {
    const size_t large = ((size_t)1 << 32) + 4096;
    uint8_t *bytes =
        (uint8_t *)mmap(NULL, large, PROT_READ | PROT_WRITE, MAP_PRIVATE | MAP_ANONYMOUS | MAP_NORESERVE, -1, 0);
    CHECK(bytes != MAP_FAILED);
    for (size_t less = 0; less < 2; less++) {
        const size_t length = ((size_t)1 << 32) - less;
        uint8_t small[16];
        amqpv_container top = {{0, 0}, AMQPV_ARRAY, 0, 0, 77}, body;
        CHECK(amqpv_put_bytes(small, sizeof small, &top, "", 0, AMQPV_LONG_STRING, bytes, length)
              == (less ? AMQPV_NO_ROOM : AMQPV_TOO_LARGE));
        CHECK(top.needed == (less ? length + 5 : 77) && top.written.length == 0);
        CHECK(amqpv_open(bytes, large, &top, "", 0, AMQPV_ARRAY, &body) == AMQPV_OK);
        body.written.length = length;
        CHECK(amqpv_close(bytes, large, &top, &body) == (less ? AMQPV_OK : AMQPV_TOO_LARGE));
        CHECK(top.written.length == (less ? length + 5 : 0) && bytes[1] == (less ? 255 : 0) && bytes[4] == bytes[1]);
        amqpv_writer w;
        size_t count = 77;
        amqpv_begin(&w, bytes, large);
        w.open[0].written.length = length;
        CHECK(amqpv_finish(&w, &count) == (less ? AMQPV_OK : AMQPV_TOO_LARGE) && count == (less ? length + 4 : 0));
        w.result = AMQPV_OK, w.open[0].written.length = 0x1020304;
        CHECK(amqpv_finish(&w, &count) == AMQPV_OK && memcmp(bytes, "\1\2\3\4", 4) == 0);
        calls += 3;
    }
    munmap(bytes, large);
}

int main(void) {
    try_equal_keys();
    try_indexes();
    try_levels();
    try_calls_that_allocate();
    try_two_to_32();
    printf("%u calls\n", calls);
    return 0;
}
