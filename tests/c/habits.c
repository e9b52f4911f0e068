/*
 * Uses the C API as C programmers may do by habit and the header allows, for example with NULL for a problem: each call
 * has the result that its description leads one to expect. test_programs.py runs it. Prints how many calls it made.
 */
#include "check.h"

static unsigned calls;

/* Makes a call, and checks its result. */
#define TRY(wanted, call) \
    do { \
        calls++; \
        CHECK((call) == (wanted)); \
    } while (0)

static uint8_t buffer[200];
static size_t length;

/* Headers of a message that was dead-lettered: x-death, an array of a table. */
static amqpv_input dead_lettered(void) {
    amqpv_writer w;
    amqpv_begin(&w, buffer, sizeof buffer);
    amqpv_add_array(&w, AMQPV_STR("x-death"));
    amqpv_add_table(&w, NULL, 0);
    amqpv_add_int(&w, AMQPV_STR("count"), AMQPV_LONG_LONG_INT, 3);
    amqpv_end(&w);
    amqpv_end(&w);
    TRY(AMQPV_OK, amqpv_finish(&w, &length));
    return amqpv_table(buffer, length);
}

/* Where reading failed may be of no interest. */
static void no_problem(void) {
    amqpv_input in = dead_lettered();
    amqpv_result (*reading)(const amqpv_input *, amqpv_entry *, amqpv_problem *) = amqpv_read;
    amqpv_entry entry;
    amqpv_size size;
    size_t written = 77;
    TRY(AMQPV_OK, amqpv_read(&in, &entry, NULL));
    TRY(AMQPV_OK, amqpv_measure(&in, &size, NULL));
    in.length--;
    TRY(AMQPV_MORE, amqpv_read(&in, &entry, NULL));
    TRY(AMQPV_MORE, reading(&in, &entry, NULL));
    TRY(AMQPV_MORE, amqpv_measure(&in, &size, NULL));
    TRY(AMQPV_OK, amqpv_from_json(AMQPV_STR("[]"), 9, buffer, sizeof buffer, &written, NULL));
    TRY(AMQPV_NOT_JSON, amqpv_from_json(AMQPV_STR("["), 9, buffer, sizeof buffer, &written, NULL));
    CHECK(written == 0);
}

/* A loop that looks up keys has one entry. */
static void same_entry(void) {
    static const amqpv_step path[] = {AMQPV_INDEX(0), AMQPV_KEY("count")};
    amqpv_input in = dead_lettered();
    amqpv_entry entry;
    int64_t number;
    TRY(AMQPV_OK, amqpv_read(&in, &entry, NULL));
    TRY(AMQPV_OK, amqpv_get(&in, &entry, AMQPV_STR("x-death"), &entry));
    CHECK(entry.tag == AMQPV_ARRAY);
    TRY(AMQPV_NONE, amqpv_get(&in, &entry, AMQPV_STR("count"), &entry));
    CHECK(entry.tag == AMQPV_ARRAY);
    TRY(AMQPV_OK, amqpv_find(&in, &entry, path, 2, &entry));
    TRY(AMQPV_OK, amqpv_find(&in, &entry, NULL, 0, &entry));
    TRY(AMQPV_OK, amqpv_as_int(&entry, &number));
    CHECK(number == 3);
}

/* A step in which something was forgotten. */
static void no_into(void) {
    amqpv_input in = dead_lettered();
    amqpv_step steps[2] = {{"x-death", 7, 0, AMQPV_TABLE}, {"", 0, 0, 0}};
    amqpv_entry table, entry;
    TRY(AMQPV_OK, amqpv_read(&in, &table, NULL));
    TRY(AMQPV_OK, amqpv_find(&in, &table, steps, 1, &entry));
    TRY(AMQPV_INVALID, amqpv_find(&in, &table, steps, 2, &entry));
    steps[1].into = AMQPV_LONG_STRING;
    TRY(AMQPV_INVALID, amqpv_find(&in, &table, steps, 2, &entry));
    steps[0].into = 0;
    TRY(AMQPV_INVALID, amqpv_find(&in, &table, steps, 1, &entry));
}

/* What is no text has none, and a value is taken out of another. */
static void as_string(void) {
    static const uint8_t bytes[] = {0, 0, 0, 17, 1, 'n', 'b', 7, 1, 's', 'S', 0, 0, 0, 3, 'a', 0, 0xff, 1, 'v', 'V'};
    amqpv_input in = amqpv_table(bytes, sizeof bytes), of_string, of_table;
    amqpv_entry table, entry;
    amqpv_writer w;
    const char *text = NULL;
    size_t count = 77;
    TRY(AMQPV_OK, amqpv_read(&in, &table, NULL));
    TRY(AMQPV_BAD_TAG, amqpv_as_string(&in, &table, &text, &count));
    TRY(AMQPV_OK, amqpv_get(&in, &table, AMQPV_STR("n"), &entry));
    TRY(AMQPV_BAD_TAG, amqpv_as_string(&in, &entry, &text, &count));
    CHECK(text == NULL && count == 77 && amqpv_text(&in, &entry) == NULL && amqpv_text(&in, &table) == NULL);
    TRY(AMQPV_OK, amqpv_get(&in, &table, AMQPV_STR("s"), &entry));
    TRY(AMQPV_OK, amqpv_as_string(&in, &entry, &text, &count));
    CHECK(count == 3 && memcmp(text, "a\0\xff", 3) == 0);
    of_string = amqpv_of(&in, &entry);
    of_table = amqpv_of(&in, &table);
    CHECK(of_string.flags == 0 && of_table.flags == AMQPV_UNTAGGED);
    amqpv_begin(&w, buffer, sizeof buffer);
    amqpv_add_value(&w, AMQPV_STR("string"), &of_string);
    amqpv_add_value(&w, AMQPV_STR("table"), &of_table);
    TRY(AMQPV_OK, amqpv_finish(&w, &count));
    in = amqpv_table(buffer, count);
    TRY(AMQPV_OK, amqpv_read(&in, &table, NULL));
    TRY(AMQPV_OK, amqpv_get(&in, &table, AMQPV_STR("table"), &table));
    CHECK(amqpv_of(&in, &table).flags == 0 && memcmp(in.bytes + table.content.offset, bytes + 4, 17) == 0);
    entry.value.length = sizeof buffer;
    CHECK(amqpv_of(&in, &entry).length == 0);
}

/* Some arguments, and one that can't be written if `is_wrong`. */
static amqpv_result write_arguments(uint8_t *to, size_t capacity, size_t *count, int is_wrong) {
    amqpv_writer w;
    amqpv_begin(&w, to, capacity);
    amqpv_add_string(&w, AMQPV_STR("x-queue-type"), AMQPV_STR("quorum"));
    amqpv_add_array(&w, AMQPV_STR("hosts"));
    amqpv_add_table(&w, NULL, 0);
    amqpv_add_int(&w, AMQPV_STR("port"), AMQPV_LONG_INT, 5672);
    amqpv_end(&w);
    amqpv_add_void(&w, is_wrong ? "key" : NULL, is_wrong ? 3 : 0);
    amqpv_end(&w);
    amqpv_add_bool(&w, AMQPV_STR("durable"), 1);
    return amqpv_finish(&w, count);
}

/* A table is measured, and then written: with each smaller buffer the capacity is the same. */
static void measure(void) {
    uint8_t small[100];
    size_t needed = 77, count;
    TRY(AMQPV_NO_ROOM, write_arguments(NULL, 0, &needed, 0));
    CHECK(needed > 50 && needed < sizeof small);
    for (size_t capacity = 0; capacity < needed; capacity++) {
        memset(small, 0x33, sizeof small);
        TRY(AMQPV_NO_ROOM, write_arguments(small, capacity, &count, 0));
        CHECK(count == needed && small[capacity] == 0x33);
        TRY(AMQPV_BAD_KEY, write_arguments(small, capacity, &count, 1));
        CHECK(count == 0);
    }
    TRY(AMQPV_OK, write_arguments(small, needed, &count, 0));
    CHECK(count == needed);
    TRY(AMQPV_BAD_KEY, write_arguments(small, sizeof small, &count, 1));
    CHECK(count == 0);
}

/* A buffer that grows while nothing is wrong. */
static void grow(void) {
    uint8_t first[16], second[64];
    amqpv_writer w, copy;
    size_t count;
    amqpv_begin(&w, first, sizeof first);
    amqpv_add_bool(&w, AMQPV_STR("a"), 1);
    copy = w;
    memcpy(second, first, sizeof first);
    copy.buffer = second;
    copy.capacity = sizeof second;
    amqpv_add_string(&copy, AMQPV_STR("b"), AMQPV_STR("longer than the first"));
    TRY(AMQPV_OK, amqpv_finish(&copy, &count));
    CHECK(count == 4 + 4 + 2 + 5 + 21);
    TRY(AMQPV_OK, amqpv_finish(&w, &count));
    CHECK(count == 8);
}

/* The old table, and one more header: keys with a NUL, and that aren't UTF-8, are copied too. */
static amqpv_result write_again(const amqpv_input *in, uint8_t *to, size_t capacity, size_t *count) {
    amqpv_writer w;
    amqpv_entry table, entry;
    amqpv_cursor cursor;
    TRY(AMQPV_OK, amqpv_read(in, &table, NULL));
    TRY(AMQPV_OK, amqpv_enter(&table, &cursor));
    amqpv_begin(&w, to, capacity);
    while (amqpv_next(in, &cursor, &entry) == AMQPV_OK) {
        calls++;
        amqpv_add_entry(&w, in, &entry);
    }
    amqpv_add_int(&w, AMQPV_STR("n"), AMQPV_SHORT_INT, 7);
    return amqpv_finish(&w, count);
}

static void copy_entries(void) {
    static const uint8_t old[] = {0, 0,   0, 19,   3,   'a', 0, 'b', 'A', 0,   0,  0,
                                  1, 'V', 1, 0xff, 't', 1,   0, 'V', 1,   'a', 'V'};
    static const uint8_t more[] = {1, 'n', 's', 0, 7};
    uint8_t copied[sizeof old + sizeof more];
    amqpv_input in = amqpv_table(old, sizeof old), other = amqpv_value(old + 8, 6);
    amqpv_entry table, entries[4], array, value;
    amqpv_writer w;
    size_t count;
    in.flags |= AMQPV_ANY_KEYS;
    for (size_t capacity = 0; capacity < sizeof copied; capacity++) {
        TRY(AMQPV_NO_ROOM, write_again(&in, copied, capacity, &count));
        CHECK(count == sizeof copied);
    }
    TRY(AMQPV_OK, write_again(&in, copied, sizeof copied, &count));
    CHECK(count == sizeof copied && copied[3] == old[3] + sizeof more);
    CHECK(memcmp(copied + 4, old + 4, sizeof old - 4) == 0 && memcmp(copied + sizeof old, more, sizeof more) == 0);
    TRY(AMQPV_OK, amqpv_read(&in, &table, NULL));
    TRY(AMQPV_OK, amqpv_entries(&in, &table, entries, 4, &count));
    TRY(AMQPV_OK, amqpv_read(&other, &array, NULL));
    TRY(AMQPV_OK, amqpv_entries(&other, &array, &value, 1, &count));
    /* the flags hold for the entry alone: what is added next needs UTF-8 again */
    amqpv_begin(&w, copied, sizeof copied);
    amqpv_add_entry(&w, &in, &entries[1]);
    TRY(AMQPV_OK, amqpv_finish(&w, &count));
    amqpv_add_void(&w, AMQPV_STR("\xff"));
    TRY(AMQPV_BAD_KEY, amqpv_finish(&w, &count));
    in.flags = AMQPV_UNTAGGED;
    amqpv_begin(&w, copied, sizeof copied);
    amqpv_add_entry(&w, &in, &entries[1]);
    TRY(AMQPV_BAD_KEY, amqpv_finish(&w, &count));
    /* a value of an array has no key, and a pair of a table has one, though it may be empty */
    amqpv_begin(&w, copied, sizeof copied);
    amqpv_add_array(&w, AMQPV_STR("a"));
    amqpv_add_entry(&w, &other, &value);
    amqpv_end(&w);
    amqpv_add_entry(&w, &in, &entries[2]);
    TRY(AMQPV_OK, amqpv_finish(&w, &count));
    CHECK(count == 14 && memcmp(copied + 6, old + 8, 6) == 0 && copied[12] == 0 && copied[13] == 'V');
    amqpv_add_entry(&w, &other, &value);
    TRY(AMQPV_BAD_KEY, amqpv_finish(&w, &count));
    amqpv_begin(&w, copied, sizeof copied);
    amqpv_add_array(&w, AMQPV_STR("a"));
    amqpv_add_entry(&w, &in, &entries[2]);
    TRY(AMQPV_BAD_KEY, amqpv_finish(&w, &count));
    /* an entry of other bytes */
    amqpv_begin(&w, copied, sizeof copied);
    amqpv_add_entry(&w, &other, &entries[3]);
    TRY(AMQPV_INVALID, amqpv_finish(&w, &count));
}

/* What is wrong with a table is known without a buffer too. */
static void errors_of_writer(void) {
    for (size_t capacity = 0; capacity <= sizeof buffer; capacity += sizeof buffer) {
        uint8_t *to = capacity > 0 ? buffer : NULL;
        amqpv_writer w;
        size_t count = 77;
        amqpv_begin(&w, to, capacity);
        amqpv_add_table(&w, AMQPV_STR("t"));
        TRY(AMQPV_INVALID, amqpv_finish(&w, &count));
        CHECK(count == 0);
        amqpv_begin(&w, to, capacity);
        amqpv_add_int(&w, AMQPV_STR("t"), AMQPV_LONG_UINT, 1);
        TRY(AMQPV_BAD_TAG, amqpv_finish(&w, &count));
        amqpv_begin(&w, to, capacity);
        amqpv_add_int(&w, AMQPV_STR("t"), AMQPV_SHORT_INT, 70000);
        TRY(AMQPV_OUT_OF_RANGE, amqpv_finish(&w, &count));
        amqpv_begin(&w, to, capacity);
        amqpv_add_array(&w, AMQPV_STR("t"));
        amqpv_add_bool(&w, AMQPV_STR("key"), 1);
        TRY(AMQPV_BAD_KEY, amqpv_finish(&w, &count));
        amqpv_begin(&w, to, capacity);
        amqpv_end(&w);
        TRY(AMQPV_INVALID, amqpv_finish(&w, &count));
        amqpv_begin(&w, to, capacity);
        for (int i = 0; i < AMQPV_MAX_DEPTH; i++) {
            amqpv_add_table(&w, AMQPV_STR("t"));
        }
        TRY(AMQPV_TOO_DEEP, amqpv_finish(&w, &count));
        CHECK(count == 0);
    }
}

/* JSON is printed by %s. */
static void print_json(void) {
    static const char wanted[] = "{\"x-death\":[{\"count\":3}]}";
    amqpv_input in = dead_lettered();
    char json[64];
    size_t needed = 77, count;
    memset(json, 0x33, sizeof json);
    TRY(AMQPV_NO_ROOM, amqpv_to_json(&in, NULL, 0, &needed));
    CHECK(needed == sizeof wanted);
    TRY(AMQPV_NO_ROOM, amqpv_to_json(&in, json, 1, &count));
    TRY(AMQPV_NO_ROOM, amqpv_to_json(&in, json, needed - 1, &count));
    CHECK(count == needed && json[needed - 1] == 0x33);
    TRY(AMQPV_OK, amqpv_to_json(&in, json, needed, &count));
    CHECK(count == strlen(json) && strcmp(json, wanted) == 0 && json[needed] == 0x33);
    in.length--;
    TRY(AMQPV_MORE, amqpv_to_json(&in, json, sizeof json, &count));
    CHECK(count == 0);
}

/* What is well is sent: without AMQPV_STREAMS nothing is wrong with x-death. */
static void warn(void) {
    static const uint8_t repeated[] = {0, 0, 0, 6, 1, 'a', 'V', 1, 'a', 'V'};
    amqpv_input in = dead_lettered(), other = amqpv_table(repeated, sizeof repeated);
    amqpv_warnings warnings;
    TRY(AMQPV_OK, amqpv_warn(&in, 131072, AMQPV_MAX_DEPTH, &warnings));
    CHECK(warnings.count == 0 && warnings.nested_header == SIZE_MAX);
    in.flags |= AMQPV_STREAMS;
    TRY(AMQPV_OK, amqpv_warn(&in, 131072, AMQPV_MAX_DEPTH, &warnings));
    CHECK(warnings.count == 1 && warnings.nested_header == 12);
    TRY(AMQPV_OK, amqpv_warn(&other, 131072, AMQPV_MAX_DEPTH, &warnings));
    CHECK(warnings.count == 1 && warnings.repeated_key == 7);
}

/* What was checked by RabbitMQ's rules is converted with the same input. */
static void check_and_convert(void) {
    static const uint8_t other[] = {0, 0, 0, 3, 1, 0xff, 'V'};
    char json[64];
    uint8_t encoding[64];
    size_t count;
    for (uint32_t flags = 0; flags < 32; flags++) {
        amqpv_input in = dead_lettered(), odd = amqpv_table(other, sizeof other);
        amqpv_entry entry;
        amqpv_size size;
        in.flags = odd.flags = flags | AMQPV_UNTAGGED;
        TRY(AMQPV_OK, amqpv_read(&in, &entry, NULL));
        TRY(AMQPV_OK, amqpv_measure(&in, &size, NULL));
        TRY(AMQPV_OK, amqpv_is_canonical(&in));
        TRY(AMQPV_OK, amqpv_canonical(&in, encoding, sizeof encoding, &count));
        TRY(AMQPV_OK, amqpv_to_json(&in, json, sizeof json, &count));
        TRY(flags & (AMQPV_ANY_KEYS | AMQPV_RABBITMQ) ? AMQPV_OK : AMQPV_KEY_NOT_UTF8, amqpv_read(&odd, &entry, NULL));
        TRY(AMQPV_KEY_NOT_UTF8, amqpv_measure(&odd, &size, NULL));
        TRY(AMQPV_KEY_NOT_UTF8, amqpv_to_json(&odd, json, sizeof json, &count));
        TRY(AMQPV_KEY_NOT_UTF8, amqpv_canonical(&odd, encoding, sizeof encoding, &count));
    }
}

/* JSON has every pair in the order of the table; that of the canonical encoding has each key once. */
static void keys_as_encoded(void) {
    amqpv_writer w;
    amqpv_input in;
    uint8_t encoding[64];
    char json[64];
    size_t count;
    amqpv_begin(&w, buffer, sizeof buffer);
    amqpv_add_bool(&w, AMQPV_STR("b"), 1);
    amqpv_add_bool(&w, AMQPV_STR("a"), 1);
    amqpv_add_bool(&w, AMQPV_STR("b"), 0);
    TRY(AMQPV_OK, amqpv_finish(&w, &count));
    in = amqpv_table(buffer, count);
    TRY(AMQPV_OK, amqpv_to_json(&in, json, sizeof json, &count));
    CHECK(strcmp(json, "{\"b\":true,\"a\":true,\"b\":false}") == 0);
    TRY(AMQPV_OK, amqpv_canonical(&in, encoding, sizeof encoding, &count));
    in = amqpv_table(encoding, count);
    TRY(AMQPV_OK, amqpv_to_json(&in, json, sizeof json, &count));
    CHECK(strcmp(json, "{\"a\":true,\"b\":false}") == 0);
}

int main(void) {
    no_problem();
    same_entry();
    no_into();
    as_string();
    measure();
    grow();
    copy_entries();
    errors_of_writer();
    print_json();
    warn();
    check_and_convert();
    keys_as_encoded();
    printf("%u calls\n", calls);
    return 0;
}
