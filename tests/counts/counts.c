/*
 * Makes each call whose cost is counted over each input, and prints what it takes; counting.py runs it: counts FILE..
 *
 * An input is the encoding of a table that isn't empty, or JSON text. Each call on each input prints a line: their names, what
 * the call returns, how many bytes it is given, how many values and levels are in these, how often it allocates, how many bytes
 * it holds at most, how many it copies or fills, and how many bytes of stack it needs. Under callgrind each call's instructions
 * are dumped instead.
 */
#define _GNU_SOURCE
#include "amqp_values.h"

#include <inttypes.h>
#include <pthread.h>
#include <stdio.h>
#include <stdlib.h>
#include <sys/mman.h>
#include <valgrind/callgrind.h>

/* ---- what the libraries ask of the C library, linked by -Wl,--wrap of each function of which a __wrap_ is here */

static uint64_t allocations, held, most_held, moved;

void *__real_realloc(void *block, size_t size);
void __real_free(void *block);
void *__real_memcpy(void *to, const void *from, size_t size);
void *__real_memmove(void *to, const void *from, size_t size);
void *__real_memset(void *to, int byte, size_t size);

/* Before each block is its size. */
enum { BEFORE = 16 };

static size_t size_of(const void *block) { return block == NULL ? 0 : *(const size_t *)((const char *)block - BEFORE); }

/* While realloc moves a block it has the old one and the new one. */
void *__wrap_realloc(void *block, size_t size) {
    allocations++;
    most_held = held + size > most_held ? held + size : most_held;
    held += size - size_of(block);
    char *larger = __real_realloc(block == NULL ? NULL : (char *)block - BEFORE, size + BEFORE);
    *(size_t *)(void *)larger = size;
    return larger + BEFORE;
}

void *__wrap_malloc(size_t size) { return __wrap_realloc(NULL, size); }

void __wrap_free(void *block) {
    held -= size_of(block);
    __real_free(block == NULL ? NULL : (char *)block - BEFORE);
}

void *__wrap_memcpy(void *to, const void *from, size_t size) { return moved += size, __real_memcpy(to, from, size); }
void *__wrap_memmove(void *to, const void *from, size_t size) { return moved += size, __real_memmove(to, from, size); }
void *__wrap_memset(void *to, int byte, size_t size) { return moved += size, __real_memset(to, byte, size); }

/* ---- an input, and what calls write */

enum { STACK = 2 << 20, MOST = 8 << 20, MOST_ENTRIES = 20000, FRAME = UINT32_MAX, DEPTH = 5000, NESTING = 127 };
static uint8_t *bytes, *buffer;
static char *text, *json;
static size_t length, table_length, text_length, entry_count;
/* What calls are given: the encoding, the same as RabbitMQ accepts it, and the table without its type tag. */
static amqpv_input encoding, for_rabbitmq, untagged;
static amqpv_entry value, entries[MOST_ENTRIES];
static amqpv_cursor start;
static amqpv_size measured;
/* The path to the last entry, and to its last value if it is an array. */
static amqpv_step path[2];
/* What an input is: the calls are made if it is what they are for. */
static int is_table, ends_in_array, is_canonical, is_not_canonical, has_text;

static amqpv_entry entry;
static amqpv_size size;
static amqpv_problem problem;
static amqpv_warnings warnings;
static amqpv_cursor cursor;
static size_t count;

/* ---- the calls */

static amqpv_result read_value(void) { return amqpv_read(&encoding, &entry, &problem); }
static amqpv_result read_for_rabbitmq(void) { return amqpv_read(&for_rabbitmq, &entry, &problem); }
static amqpv_result read_table(void) { return amqpv_read(&untagged, &entry, &problem); }
static amqpv_result peek(void) { return amqpv_peek(&encoding, &entry); }
static amqpv_result measure(void) { return amqpv_measure(&encoding, &size, &problem); }
static amqpv_result warn(void) { return amqpv_warn(&encoding, 0, DEPTH, &warnings); }
static amqpv_result tell_canonical(void) { return amqpv_is_canonical(&encoding); }
static amqpv_result canonical(void) { return amqpv_canonical(&encoding, buffer, MOST, &count); }
static amqpv_result canonical_table(void) { return amqpv_canonical(&untagged, buffer, MOST, &count); }
static amqpv_result to_json(void) { return amqpv_to_json(&encoding, json, MOST, &count); }
static amqpv_result to_json_of_table(void) { return amqpv_to_json(&untagged, json, MOST, &count); }
static amqpv_result from_json(void) {
    return amqpv_from_json(text, text_length, NESTING, buffer, MOST, &count, &problem);
}
static amqpv_result find_key(void) { return amqpv_find(&encoding, &value, path, 1, &entry); }
static amqpv_result find_index(void) { return amqpv_find(&encoding, &value, path, 2, &entry); }
static amqpv_result find_no_key(void) { return amqpv_get(&encoding, &value, AMQPV_STR("no such key"), &entry); }

static amqpv_result find_first(void) {
    amqpv_input first = encoding;
    first.flags = AMQPV_FIRST_KEY;
    return amqpv_find(&first, &value, path, 1, &entry);
}

static amqpv_result next(void) {
    amqpv_result result;
    cursor = start;
    while ((result = amqpv_next(&encoding, &cursor, &entry)) == AMQPV_OK) {
    }
    return result;
}

static amqpv_result as_int(void) {
    int64_t number;
    uint64_t natural;
    for (size_t i = 0; i < entry_count; i++) {
        if (amqpv_as_int(&entries[i], &number) != AMQPV_OK) {
            amqpv_as_uint(&entries[i], &natural);
        }
    }
    return AMQPV_OK;
}

#define INTO buffer, MOST, into, (const char *)bytes + it->key.offset, it->key.length

/* Puts an entry by its bytes. */
static amqpv_result put(amqpv_container *into, const amqpv_entry *it) {
    amqpv_input of_value = amqpv_value(bytes + it->value.offset, it->value.length);
    of_value.max_bytes = FRAME, of_value.max_depth = DEPTH;
    switch (it->tag) {
    case 'S':
    case 'x': return amqpv_put_bytes(INTO, it->tag, bytes + it->content.offset, it->content.length);
    case 'A':
    case 'F': return amqpv_put_value(INTO, &of_value);
    default: return amqpv_put(INTO, it->tag, it->bits, it->scale);
    }
}

/* Builds the table again, each container by amqpv_open and amqpv_close. */
static amqpv_result build_all(void) {
    static amqpv_cursor from[DEPTH];
    static amqpv_container into[DEPTH];
    int at = 1;
    from[1] = start;
    into[0] = (amqpv_container){{0, 0}, AMQPV_ARRAY, 0, 0, 0};
    amqpv_result result = amqpv_open(buffer, MOST, &into[0], "", 0, AMQPV_TABLE, &into[1]);
    while (result == AMQPV_OK && at > 0) {
        result = amqpv_next(&encoding, &from[at], &entry);
        if (result == AMQPV_NONE) {
            at--;
            result = amqpv_close(buffer, MOST, &into[at], &into[at + 1]);
        } else if (result == AMQPV_OK && amqpv_enter(&entry, &from[at + 1]) == AMQPV_OK) {
            const char *key = (const char *)bytes + entry.key.offset;
            result = amqpv_open(buffer, MOST, &into[at], key, entry.key.length, entry.tag, &into[at + 1]);
            at++;
        } else if (result == AMQPV_OK) {
            result = put(&into[at], &entry);
        }
    }
    return result;
}

/* Puts each entry of the outermost table. */
static amqpv_result put_all(void) {
    amqpv_container top = {{0, 0}, AMQPV_ARRAY, 0, 0, 0}, body;
    amqpv_result result = amqpv_open(buffer, MOST, &top, "", 0, AMQPV_TABLE, &body);
    for (size_t i = 0; i < entry_count && result == AMQPV_OK; i++) {
        result = put(&body, &entries[i]);
    }
    return result == AMQPV_OK ? amqpv_close(buffer, MOST, &top, &body) : result;
}

/* The calls of amq_protocol_types and amqp_in_place, by the crate amqp_bench. */
int64_t amqp_bench_decode(const uint8_t *given, size_t given_length);
int64_t amqp_bench_decode_within(const uint8_t *given, size_t given_length, uint32_t frame, uint32_t depth);
int64_t amqp_bench_stream(const uint8_t *given, size_t given_length, size_t piece);
int64_t amqp_bench_scan(const uint8_t *given, size_t given_length);
int64_t amqp_bench_canonical_len(const uint8_t *given, size_t given_length);
int64_t amqp_bench_encode_n(const uint8_t *given, size_t given_length, uint8_t *out, size_t capacity, uint64_t times);

static amqpv_result is_done(int64_t bytes_taken) { return bytes_taken == (int64_t)length ? AMQPV_OK : AMQPV_INVALID; }
static amqpv_result is_written(int64_t bytes_put) { return bytes_put > 0 ? AMQPV_OK : AMQPV_INVALID; }
static amqpv_result parse(void) { return is_done(amqp_bench_decode(bytes, length)); }
static amqpv_result parse_within(void) { return is_done(amqp_bench_decode_within(bytes, length, FRAME, DEPTH)); }
static amqpv_result stream_bytes(void) { return is_done(amqp_bench_stream(bytes, length, 1)); }
static amqpv_result stream_blocks(void) { return is_done(amqp_bench_stream(bytes, length, 4096)); }
static amqpv_result read_in_place(void) { return is_done(amqp_bench_scan(bytes, length)); }
static amqpv_result canonical_len(void) { return is_done(amqp_bench_canonical_len(bytes, length)); }
static amqpv_result generate(void) { return is_written(amqp_bench_encode_n(bytes, length, buffer, MOST, 1)); }
static amqpv_result generate_twice(void) { return is_written(amqp_bench_encode_n(bytes, length, buffer, MOST, 2)); }

/* A row of the table: what is called, which bytes it is given, and for which inputs. */
typedef struct call {
    const char *name;
    amqpv_result (*make)(void);
    const size_t *given;
    const int *is_made;
} call;

static const call calls[] = {
    {"amqpv_read", read_value, &length, &is_table},
    {"amqpv_read for RabbitMQ", read_for_rabbitmq, &length, &is_table},
    {"amqpv_read of a table", read_table, &table_length, &is_table},
    {"amqpv_peek", peek, &length, &is_table},
    {"amqpv_measure", measure, &length, &is_table},
    {"amqpv_is_canonical", tell_canonical, &length, &is_table},
    {"amqpv_next", next, &length, &is_table},
    {"amqpv_as_int and amqpv_as_uint", as_int, &length, &is_table},
    {"amqpv_find of the last key", find_key, &length, &is_table},
    {"amqpv_find of the first key", find_first, &length, &is_table},
    {"amqpv_find of no key", find_no_key, &length, &is_table},
    {"amqpv_find of the last index", find_index, &length, &ends_in_array},
    {"amqpv_put and others", put_all, &length, &is_table},
    {"amqpv_open, amqpv_close and others", build_all, &length, &is_table},
    {"amqpv_warn", warn, &length, &is_table},
    {"amqpv_canonical", canonical, &length, &is_not_canonical},
    {"amqpv_canonical of a table", canonical_table, &table_length, &is_not_canonical},
    {"amqpv_canonical of canonical bytes", canonical, &length, &is_canonical},
    {"amqpv_to_json", to_json, &length, &is_table},
    {"amqpv_to_json of a table", to_json_of_table, &table_length, &is_table},
    {"amqpv_from_json", from_json, &text_length, &has_text},
    {"parse_value", parse, &length, &is_table},
    {"parse_value_within", parse_within, &length, &is_table},
    {"ValueReader::next by 1 byte", stream_bytes, &length, &is_table},
    {"ValueReader::next by 4096 bytes", stream_blocks, &length, &is_table},
    {"parse_value and gen_value", generate, &length, &is_table},
    {"parse_value and gen_value twice", generate_twice, &length, &is_table},
    {"read_in_place", read_in_place, &length, &is_table},
    {"canonical_len", canonical_len, &length, &is_canonical},
};

/* ---- a call over an input */

static amqpv_result result;

static amqpv_result do_nothing(void) { return AMQPV_OK; }

static void *make_call(void *it) {
    result = ((const call *)it)->make();
    return NULL;
}

/* Makes a call on a separate stack, and returns how many bytes of that are written, to eight. */
static size_t stack_of(call it) {
    pthread_attr_t how;
    pthread_t thread;
    uint64_t *stack = mmap(NULL, STACK, PROT_READ | PROT_WRITE, MAP_PRIVATE | MAP_ANONYMOUS | MAP_NORESERVE, -1, 0);
    size_t left = 0;
    pthread_attr_init(&how);
    pthread_attr_setstack(&how, stack, STACK);
    pthread_create(&thread, &how, make_call, &it);
    pthread_join(thread, NULL);
    while (left < STACK / 8 && stack[left] == 0) {
        left++;
    }
    munmap(stack, STACK);
    return STACK - 8 * left;
}

static void try_call(call it, const char *input) {
    char label[512];
    snprintf(label, sizeof label, "%s | %s", it.name, input);
    if (RUNNING_ON_VALGRIND) {
        CALLGRIND_ZERO_STATS;
        it.make();
        CALLGRIND_DUMP_STATS_AT(label);
        return;
    }
    allocations = held = most_held = moved = 0;
    result = it.make();
    if (held != 0) {
        fprintf(stderr, "%s: keeps %" PRIu64 " bytes\n", label, held);
        exit(1);
    }
    printf("%s | %d %zu %zu %zu", label, (int)result, *it.given, measured.values, measured.levels);
    printf(" %" PRIu64 " %" PRIu64 " %" PRIu64, allocations, most_held, moved);
    printf(" %zu\n", stack_of(it) - stack_of((call){"", do_nothing, NULL, NULL}));
}

/* An input without limits. */
static amqpv_input input_of(const uint8_t *at, size_t n, uint32_t flags) {
    amqpv_input in = amqpv_value(at, n);
    in.max_bytes = FRAME, in.max_depth = DEPTH, in.flags = flags;
    return in;
}

/* Finds what the calls need of a table. */
static void prepare(const char *input) {
    table_length = length - 1;
    encoding = input_of(bytes, length, 0), for_rabbitmq = input_of(bytes, length, AMQPV_RABBITMQ);
    untagged = input_of(bytes + 1, table_length, AMQPV_UNTAGGED);
    is_table = read_value() == AMQPV_OK && entry.value.length == length && amqpv_enter(&entry, &start) == AMQPV_OK
               && amqpv_entries(&encoding, &entry, entries, MOST_ENTRIES, &entry_count) == AMQPV_OK && entry_count > 0;
    if (!is_table || measure() != AMQPV_OK) {
        fprintf(stderr, "%s isn't a table with entries, or has too many\n", input);
        exit(1);
    }
    value = entry, measured = size;
    entry = entries[entry_count - 1];
    path[0] = (amqpv_step){(const char *)bytes + entry.key.offset, entry.key.length, 0, AMQPV_TABLE};
    path[1] = (amqpv_step){NULL, 0, SIZE_MAX, AMQPV_ARRAY};
    for (int has_more = entry.tag == AMQPV_ARRAY && amqpv_enter(&entry, &cursor) == AMQPV_OK; has_more;) {
        has_more = amqpv_next(&encoding, &cursor, &entry) == AMQPV_OK;
        path[1].index += has_more;
    }
    ends_in_array = path[1].index != SIZE_MAX;
    is_canonical = tell_canonical() == AMQPV_OK, is_not_canonical = !is_canonical;
    /* (a text whose keys ascend) */
    size_t canonical_length;
    has_text = amqpv_canonical(&encoding, buffer, MOST, &canonical_length) == AMQPV_OK;
    amqpv_input for_text = input_of(buffer, canonical_length, 0);
    for_text.max_depth = NESTING - 2;
    has_text = has_text && amqpv_to_json(&for_text, text, MOST, &text_length) == AMQPV_OK;
}

static void try_input(const char *name) {
    const char *input = strrchr(name, '/') + 1;
    FILE *file = fopen(name, "rb");
    length = fread(bytes, 1, MOST, file);
    fclose(file);
    is_table = ends_in_array = is_canonical = is_not_canonical = has_text = 0;
    measured = (amqpv_size){0, 0, 0};
    if (bytes[0] == AMQPV_TABLE) {
        prepare(input);
    } else {
        memcpy(text, bytes, length);
        has_text = 1, text_length = length;
    }
    for (size_t i = 0; i < sizeof calls / sizeof *calls; i++) {
        if (*calls[i].is_made) {
            try_call(calls[i], input);
        }
    }
}

int main(int words, char **word) {
    bytes = malloc(MOST), buffer = malloc(MOST), text = malloc(MOST), json = malloc(MOST);
    for (int i = 1; i < words; i++) {
        try_input(word[i]);
    }
    return 0;
}
