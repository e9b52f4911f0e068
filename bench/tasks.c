/* Two tasks of C programs, each by this library, as in docs/C.md, and by librabbitmq, for bench/measure.py. */
#include <amqp.h>
#include <amqp_values.h>

/* The arguments of a queue: a table of two entries, written to a buffer. They return how many bytes it has, or -1. */

int64_t library_arguments(const uint8_t *bytes, size_t length, uint8_t *out, size_t capacity) {
    amqpv_writer w;
    size_t written;
    amqpv_begin(&w, out, capacity);
    amqpv_add_int(&w, AMQPV_STR("x-max-length"), AMQPV_LONG_INT, 10000);
    amqpv_add_string(&w, AMQPV_STR("x-queue-type"), AMQPV_STR("quorum"));
    return amqpv_finish(&w, &written) == AMQPV_OK ? (int64_t)written : -1;
}

static amqp_bytes_t bytes_of(const char *text) {
    amqp_bytes_t bytes = {strlen(text), (void *)text};
    return bytes;
}

int64_t rabbitmq_arguments(const uint8_t *bytes, size_t length, uint8_t *out, size_t capacity) {
    amqp_table_entry_t entries[2];
    amqp_table_t arguments = {2, entries};
    amqp_bytes_t to = {capacity, out};
    size_t offset = 0;
    entries[0].key = bytes_of("x-max-length");
    entries[0].value.kind = AMQP_FIELD_KIND_I32;
    entries[0].value.value.i32 = 10000;
    entries[1].key = bytes_of("x-queue-type");
    entries[1].value.kind = AMQP_FIELD_KIND_UTF8;
    entries[1].value.value.bytes = bytes_of("quorum");
    return amqp_encode_table(to, &arguments, &offset) < 0 ? -1 : (int64_t)offset;
}

/* The count of the first death in message headers, after their type tag, or -1 if they have none. */

int64_t library_deaths(const uint8_t *bytes, size_t length, uint8_t *out, size_t capacity) {
    static const amqpv_step path[] = {AMQPV_KEY("x-death"), AMQPV_INDEX(0), AMQPV_KEY("count")};
    amqpv_input in = amqpv_table(bytes + 1, length - 1);
    amqpv_problem problem;
    int64_t number;
    amqpv_entry table, count;
    in.flags |= AMQPV_FIRST_KEY;
    if (amqpv_read(&in, &table, &problem) == AMQPV_OK && amqpv_find(&in, &table, path, 3, &count) == AMQPV_OK
        && amqpv_as_int(&count, &number) == AMQPV_OK) {
        return number;
    }
    return -1;
}

/* The first entry with a key, if it is of a kind. */
static const amqp_field_value_t *found(const amqp_table_t *table, const char *key, size_t length, uint8_t kind) {
    for (int i = 0; i < table->num_entries; i++) {
        const amqp_table_entry_t *entry = &table->entries[i];
        if (entry->key.len == length && memcmp(entry->key.bytes, key, length) == 0) {
            return entry->value.kind == kind ? &entry->value : NULL;
        }
    }
    return NULL;
}

/* Its pool keeps its pages from call to call. */
int64_t rabbitmq_deaths(const uint8_t *bytes, size_t length, uint8_t *out, size_t capacity) {
    static amqp_pool_t pool;
    amqp_bytes_t from = {length - 1, (void *)(bytes + 1)};
    amqp_table_t headers;
    size_t offset = 0;
    int64_t number = -1;
    if (pool.pagesize == 0) {
        init_amqp_pool(&pool, 4096);
    }
    if (amqp_decode_table(from, &pool, &headers, &offset) == AMQP_STATUS_OK) {
        const amqp_field_value_t *deaths = found(&headers, AMQPV_STR("x-death"), AMQP_FIELD_KIND_ARRAY);
        const amqp_field_value_t *first =
            deaths && deaths->value.array.num_entries > 0 ? deaths->value.array.entries : NULL;
        if (first && first->kind == AMQP_FIELD_KIND_TABLE) {
            const amqp_field_value_t *count = found(&first->value.table, AMQPV_STR("count"), AMQP_FIELD_KIND_I64);
            number = count ? count->value.i64 : -1;
        }
    }
    recycle_amqp_pool(&pool);
    return number;
}
