/*
 * Passes NULL with a length of 0 for bytes, JSON, a key, steps and a buffer: each call of amqp_values.h returns and
 * leaves what it does with a pointer to no bytes. test_programs.py runs it. Prints how many calls it made. That NULL is
 * allowed isn't proved: the proofs are of pointers to something.
 */
#include "check.h"

static unsigned calls;

/* All that a call can leave. Each struct is filled with the same byte first, so that all of it can be compared. */
typedef struct left {
    amqpv_result result;
    amqpv_entry entry;
    amqpv_cursor cursor;
    amqpv_size size;
    amqpv_problem problem;
    amqpv_warnings warnings;
    amqpv_container into, body;
    size_t length;
    uint8_t buffer[32];
} left;

/* The table of the empty key with Void. */
static const uint8_t table[] = {'F', 0, 0, 0, 2, 0, 'V'};
static const amqpv_entry of_table = {{0, 0}, {0, 7}, {5, 2}, 0, AMQPV_TABLE, 0},
                         empty = {{0, 0}, {0, 0}, {0, 0}, 0, AMQPV_TABLE, 0};

/* Makes a call twice, `at` being NULL and a pointer to no bytes, and compares what is returned and left. */
#define TRY(wanted, call) \
    do { \
        static uint8_t none[1]; \
        left both[2]; \
        memset(both, 0x5a, sizeof both); \
        for (int is_null = 0; is_null < 2; is_null++) { \
            left *all = &both[is_null]; \
            uint8_t *at = is_null ? NULL : none + 1; \
            const char *text = (const char *)at; \
            amqpv_input in = amqpv_value(at, 0), tables = amqpv_table(at, 0), full = amqpv_value(table, 7); \
            amqpv_step step = {text, 0, 0, AMQPV_TABLE}; \
            all->into.written.offset = all->into.written.length = 0; \
            all->into.tag = AMQPV_TABLE, all->into.inner = 0; \
            all->cursor.left = all->into.written, all->cursor.tag = AMQPV_TABLE; \
            (void)text, (void)in, (void)tables, (void)full, (void)step; \
            all->result = call; \
            calls++; \
        } \
        CHECK(both[0].result == (wanted) && memcmp(&both[0], &both[1], sizeof both[0]) == 0); \
    } while (0)

int main(void) {
    TRY(AMQPV_MORE, amqpv_read(&in, &all->entry, &all->problem));
    TRY(AMQPV_MORE, amqpv_read(&tables, &all->entry, &all->problem));
    TRY(AMQPV_MORE, amqpv_measure(&in, &all->size, &all->problem));
    TRY(AMQPV_MORE, amqpv_measure(&tables, &all->size, &all->problem));
    TRY(AMQPV_MORE, amqpv_is_canonical(&in));
    TRY(AMQPV_MORE, amqpv_is_canonical(&tables));
    TRY(AMQPV_MORE, amqpv_peek(&in, &all->entry));
    TRY(AMQPV_MORE, amqpv_peek(&tables, &all->entry));
    TRY(AMQPV_NONE, amqpv_next(&in, &all->cursor, &all->entry));
    TRY(AMQPV_NONE, amqpv_find(&in, &empty, &step, 1, &all->entry));
    TRY(AMQPV_INVALID, amqpv_find(&in, &of_table, &step, 1, &all->entry));
    TRY(AMQPV_OK, amqpv_find(&full, &of_table, &step, 1, &all->entry));
    TRY(AMQPV_OK, amqpv_find(&full, &of_table, is_null ? NULL : &step, 0, &all->entry));
    TRY(AMQPV_NONE, amqpv_get(&in, &empty, text, 0, &all->entry));
    TRY(AMQPV_OK, amqpv_entries(&in, &empty, is_null ? NULL : &all->entry, 0, &all->length));
    TRY(AMQPV_NO_ROOM, amqpv_put(at, 0, &all->into, text, 0, AMQPV_VOID, 0, 0));
    TRY(AMQPV_OK, amqpv_put(all->buffer, 32, &all->into, text, 0, AMQPV_VOID, 0, 0));
    TRY(AMQPV_OK, amqpv_put_bytes(all->buffer, 32, &all->into, text, 0, AMQPV_LONG_STRING, at, 0));
    TRY(AMQPV_NO_ROOM, amqpv_put_bytes(at, 0, &all->into, text, 0, AMQPV_BYTE_ARRAY, at, 0));
    TRY(AMQPV_MORE, amqpv_put_value(all->buffer, 32, &all->into, text, 0, &in));
    TRY(AMQPV_MORE, amqpv_put_value(at, 0, &all->into, text, 0, &tables));
    TRY(AMQPV_OK, amqpv_put_value(all->buffer, 32, &all->into, text, 0, &full));
    TRY(AMQPV_OK, amqpv_open(all->buffer, 32, &all->into, text, 0, AMQPV_TABLE, &all->body));
    TRY(AMQPV_NO_ROOM, amqpv_open(at, 0, &all->into, text, 0, AMQPV_TABLE, &all->body));
    TRY(AMQPV_INVALID, amqpv_close(at, 0, &all->into, &all->into));
    TRY(AMQPV_MORE, amqpv_canonical(&in, all->buffer, 32, &all->length));
    TRY(AMQPV_MORE, amqpv_canonical(&tables, at, 0, &all->length));
    TRY(AMQPV_NO_ROOM, amqpv_canonical(&full, at, 0, &all->length));
    TRY(AMQPV_MORE, amqpv_to_json(&in, (char *)all->buffer, 32, &all->length));
    TRY(AMQPV_NO_ROOM, amqpv_to_json(&full, (char *)at, 0, &all->length));
    TRY(AMQPV_NOT_JSON, amqpv_from_json(text, 0, 9, all->buffer, 32, &all->length, &all->problem));
    TRY(AMQPV_NO_ROOM, amqpv_from_json("[]", 2, 9, at, 0, &all->length, &all->problem));
    TRY(AMQPV_OK, amqpv_warn(&in, 0, 9, &all->warnings));
    TRY(AMQPV_OK, amqpv_warn(&tables, 0, 9, &all->warnings));
    printf("%u calls\n", calls);
    return 0;
}
