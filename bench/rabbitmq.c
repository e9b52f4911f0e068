/* librabbitmq as a side of bench/measure.py. It reads the table after the type tag; its strings point into the input. */
#include <amqp.h>
#include <stdint.h>

/* Reads a table, writes it `times` times, and returns how many bytes were written last; of zero times, how many were read. */
int64_t rabbitmq_write(const uint8_t *bytes, size_t length, uint8_t *out, size_t capacity, uint64_t times) {
    amqp_pool_t pool;
    amqp_table_t table;
    size_t offset = 0;
    if (length < 1 || bytes[0] != 'F') {
        return -1;
    }
    amqp_bytes_t from = {length - 1, (void *)(bytes + 1)}, to = {capacity - 1, out + 1};
    init_amqp_pool(&pool, 4096);
    int status = amqp_decode_table(from, &pool, &table, &offset);
    for (uint64_t i = 0; i < times && status >= 0; i++) {
        offset = 0;
        out[0] = 'F';
        status = amqp_encode_table(to, &table, &offset);
    }
    empty_amqp_pool(&pool);
    return status < 0 ? status : (int64_t)offset + 1;
}

int64_t rabbitmq_read(const uint8_t *bytes, size_t length) {
    uint8_t none[1];
    return rabbitmq_write(bytes, length, none, 1, 0);
}
