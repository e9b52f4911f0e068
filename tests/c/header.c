/*
 * Uses the macros and inline functions of amqp_values.h in code that each version of C from C99 and of C++ from C++11
 * on has to compile. test_header.py compiles it with all warnings, and doesn't run it.
 */
#include "amqp_values.h"

static const amqpv_step path[] = {AMQPV_KEY("x-death"), AMQPV_INDEX(0),
                                  AMQPV_KEY("a"
                                            "b"),
                                  AMQPV_KEY("")};

static amqpv_result look_up(const amqpv_input *in, size_t index, amqpv_entry *entry) {
    const amqpv_step last = AMQPV_INDEX(index);
    amqpv_cursor cursor;
    amqpv_problem problem;
    size_t count;
    amqpv_result result = amqpv_read(in, entry, &problem);
    if (result == AMQPV_OK) {
        result = amqpv_find(in, entry, path, 4, entry + 1);
    }
    if (result == AMQPV_OK && amqpv_enter(entry, &cursor) == AMQPV_OK) {
        result = amqpv_get(in, entry, AMQPV_STR("key"), entry + 1);
    }
    return result == AMQPV_OK && last.index > 0 ? amqpv_entries(in, entry, entry + 1, 2, &count) : result;
}

static int convert(const amqpv_input *in, const amqpv_entry *entry, double *number) {
    const amqpv_input inside = amqpv_of(in, entry);
    const char *text;
    size_t length;
    int truth;
    uint64_t seconds;
    uint32_t digits;
    uint8_t scale;
    return amqpv_as_bool(entry, &truth) == AMQPV_OK || amqpv_as_timestamp(entry, &seconds) == AMQPV_OK
           || amqpv_as_decimal(entry, &digits, &scale) == AMQPV_OK || amqpv_as_double(entry, number) == AMQPV_OK
           || amqpv_as_string(&inside, entry, &text, &length) == AMQPV_OK;
}

static amqpv_result write(uint8_t *buffer, size_t capacity, const amqpv_input *in, const amqpv_entry *entry,
                          size_t *length) {
    amqpv_writer w;
    amqpv_begin(&w, buffer, capacity);
    amqpv_add_int(&w, AMQPV_STR("I"), AMQPV_LONG_INT, -1);
    amqpv_add_uint(&w, AMQPV_STR("i"), AMQPV_LONG_UINT, UINT32_MAX);
    amqpv_add_bool(&w, AMQPV_STR("t"), capacity > 1);
    amqpv_add_timestamp(&w, AMQPV_STR("T"), UINT64_MAX);
    amqpv_add_decimal(&w, AMQPV_STR("D"), 314, 2);
    amqpv_add_void(&w, AMQPV_STR("V"));
    amqpv_add_float(&w, AMQPV_STR("f"), 0.5f);
    amqpv_add_double(&w, AMQPV_STR("d"), 0.5);
    amqpv_add_string(&w, AMQPV_STR("S"), AMQPV_STR("text"));
    amqpv_add_bytes(&w, AMQPV_STR("x"), buffer, 0);
    amqpv_add_table(&w, AMQPV_STR("F"));
    amqpv_add_array(&w, AMQPV_STR("A"));
    amqpv_add_value(&w, NULL, 0, in);
    amqpv_add_entry(&w, in, entry);
    amqpv_end(&w);
    amqpv_end(&w);
    return amqpv_finish(&w, length);
}

const char *use(const char *given, size_t length, uint8_t *buffer, amqpv_entry *entry, double *number);
const char *use(const char *given, size_t length, uint8_t *buffer, amqpv_entry *entry, double *number) {
    amqpv_input in = amqpv_value(given, length), other = amqpv_table(buffer, length);
    amqpv_result result = write(buffer, length, &in, entry, &length);
    in.flags |= AMQPV_ANY_KEYS | AMQPV_FIRST_KEY;
    amqpv_problem problem;
    if (amqpv_from_json(AMQPV_STR("{}"), 1, buffer, length, &length, NULL) == AMQPV_OK) {
        return amqpv_strerror(amqpv_to_json(&in, NULL, 0, &length));
    }
    if (amqpv_from_json(AMQPV_STR("{"), 1, buffer, length, &length, &problem) == AMQPV_NOT_JSON) {
        return amqpv_reason_text(problem.reason);
    }
    if (result != AMQPV_OK || look_up(&other, length, entry) != AMQPV_OK) {
        return amqpv_strerror(result);
    }
    return convert(&in, entry, number)     ? amqpv_tag_name(entry->tag)
           : amqpv_key(&in, entry) != NULL ? amqpv_text(&in, entry)
                                           : "";
}
