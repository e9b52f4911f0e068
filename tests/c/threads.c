/*
 * Eight threads make the calls of amqp_values.h at once, over bytes and an input that they share, and get what one
 * thread got before. test_programs.py runs it with ThreadSanitizer, which sees what this program and the C library
 * access, but not what the library accesses by itself: test_symbols.py checks that this has no variables. Prints how
 * many calls were made.
 */
#include "check.h"

#include <pthread.h>

enum { THREADS = 8, ROUNDS = 200, KEYS = 100, CAPACITY = 8192, CALLS = 10 };

/* The shared bytes: a table of some keys, the last of which leads to an array of a table. */
static uint8_t shared[CAPACITY];
static amqpv_input in;
static const amqpv_step path[] = {AMQPV_KEY("x-death"), AMQPV_INDEX(0), AMQPV_KEY("count")};

/* What a thread gets of all calls. */
typedef struct made {
    amqpv_size size;
    amqpv_entry found, entries[KEYS + 1];
    amqpv_warnings warnings;
    size_t lengths[4], count, calls;
    uint8_t copy[CAPACITY], canonical[CAPACITY], json[2 * CAPACITY], back[CAPACITY];
} made;

static void build(void) {
    amqpv_writer w;
    size_t length;
    char key[16];
    amqpv_begin(&w, shared, CAPACITY);
    for (int i = KEYS; i > 0; i--) {
        snprintf(key, sizeof key, "k\xc3\xa9y %03d", i);
        amqpv_add_int(&w, key, strlen(key), AMQPV_LONG_LONG_INT, i);
    }
    amqpv_add_array(&w, AMQPV_STR("x-death"));
    amqpv_add_table(&w, NULL, 0);
    amqpv_add_int(&w, AMQPV_STR("count"), AMQPV_LONG_LONG_INT, 7);
    amqpv_end(&w);
    amqpv_end(&w);
    CHECK(amqpv_finish(&w, &length) == AMQPV_OK);
    in = amqpv_table(shared, length);
}

static void make_calls(made *all) {
    amqpv_entry table;
    amqpv_problem problem;
    amqpv_writer w;
    CHECK(amqpv_read(&in, &table, &problem) == AMQPV_OK && amqpv_measure(&in, &all->size, &problem) == AMQPV_OK);
    CHECK(amqpv_is_canonical(&in) == AMQPV_NONE && amqpv_peek(&in, &table) == AMQPV_OK);
    CHECK(amqpv_find(&in, &table, path, 3, &all->found) == AMQPV_OK);
    CHECK(amqpv_entries(&in, &table, all->entries, KEYS + 1, &all->count) == AMQPV_OK);
    amqpv_begin(&w, all->copy, CAPACITY);
    for (size_t i = 0; i < all->count; i++) {
        const amqpv_entry *it = &all->entries[i];
        amqpv_input value = amqpv_value(shared + it->value.offset, it->value.length);
        amqpv_add_value(&w, amqpv_key(&in, it), it->key.length, &value);
    }
    CHECK(amqpv_finish(&w, &all->lengths[0]) == AMQPV_OK && memcmp(all->copy, shared, in.length) == 0);
    CHECK(amqpv_canonical(&in, all->canonical, CAPACITY, &all->lengths[1]) == AMQPV_OK);
    CHECK(amqpv_to_json(&in, (char *)all->json, sizeof all->json, &all->lengths[2]) == AMQPV_OK);
    CHECK(amqpv_from_json((const char *)all->json, all->lengths[2], 16, all->back, CAPACITY, &all->lengths[3], &problem)
          == AMQPV_OK);
    CHECK(all->lengths[3] == all->lengths[1] + 1 && memcmp(all->back + 1, all->canonical, all->lengths[1]) == 0);
    CHECK(amqpv_warn(&in, 0, 1, &all->warnings) == AMQPV_OK);
    all->calls += CALLS + 2 * all->count;
}

static made alone, by_thread[THREADS];

static void *run_thread(void *given) {
    for (int i = 0; i < ROUNDS; i++) {
        make_calls((made *)given);
    }
    return NULL;
}

int main(void) {
    pthread_t threads[THREADS];
    size_t calls = 0;
    build();
    make_calls(&alone);
    CHECK(alone.found.bits == 7 && alone.count == KEYS + 1 && alone.size.levels == 3
          && alone.warnings.too_deep < SIZE_MAX);
    for (int i = 0; i < THREADS; i++) {
        CHECK(pthread_create(&threads[i], NULL, run_thread, &by_thread[i]) == 0);
    }
    for (int i = 0; i < THREADS; i++) {
        made *all = &by_thread[i];
        CHECK(pthread_join(threads[i], NULL) == 0);
        calls += all->calls;
        all->calls = alone.calls;
        CHECK(memcmp(all, &alone, sizeof alone) == 0);
    }
    printf("%zu calls\n", calls);
    return 0;
}
