/*
 * Prints how often a message was dead-lettered: the header `count` of the first table in the array
 * `x-death`, or -1 if the headers have none. The headers are a table without its type tag, as content
 * headers have it, in hexadecimal on standard input.
 */
#include "amqp_values.h"
#include "hexadecimal.h"

#include <inttypes.h>

static int64_t deaths(const uint8_t *headers, size_t length) {
    static const amqpv_step path[] = {AMQPV_KEY("x-death"), AMQPV_INDEX(0), AMQPV_KEY("count")};
    amqpv_input in = amqpv_table(headers, length);
    amqpv_entry table, count;
    int64_t number;
    in.flags |= AMQPV_FIRST_KEY; /* of equal keys, as RabbitMQ does for arguments */
    if (amqpv_read(&in, &table, NULL) == AMQPV_OK && amqpv_find(&in, &table, path, 3, &count) == AMQPV_OK
        && amqpv_as_int(&count, &number) == AMQPV_OK) {
        return number;
    }
    return -1;
}

int main(void) {
    static uint8_t bytes[AMQPV_MAX_BYTES];
    size_t length = read_hexadecimal(stdin, bytes, sizeof bytes);
    printf("%" PRId64 "\n", deaths(bytes, length));
    return 0;
}
