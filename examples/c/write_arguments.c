/*
 * Writes the arguments of a queue, a table without its type tag as the method `queue.declare` has it,
 * and prints its bytes in hexadecimal. A number as argument is the buffer's capacity: if that is too
 * small, it prints how much is needed.
 */
#include "amqp_values.h"

#include <stdio.h>
#include <stdlib.h>

static amqpv_result write_arguments(uint8_t *buffer, size_t capacity, size_t *length) {
    amqpv_writer w;
    amqpv_begin(&w, buffer, capacity);
    amqpv_add_int(&w, AMQPV_STR("x-max-length"), AMQPV_LONG_INT, 10000);
    amqpv_add_string(&w, AMQPV_STR("x-queue-type"), AMQPV_STR("quorum"));
    amqpv_add_table(&w, AMQPV_STR("limits"));
    amqpv_add_int(&w, AMQPV_STR("low"), AMQPV_SHORT_INT, -5);
    amqpv_add_bool(&w, AMQPV_STR("strict"), 1);
    amqpv_end(&w);
    amqpv_add_array(&w, AMQPV_STR("hosts"));
    amqpv_add_string(&w, NULL, 0, AMQPV_STR("a"));
    amqpv_add_void(&w, NULL, 0);
    amqpv_end(&w);
    return amqpv_finish(&w, length);
}

int main(int count, char **words) {
    static uint8_t buffer[256];
    size_t length, capacity = count > 1 ? strtoul(words[1], NULL, 10) : sizeof buffer;
    amqpv_result result = write_arguments(buffer, capacity < sizeof buffer ? capacity : sizeof buffer, &length);
    if (result == AMQPV_NO_ROOM) {
        printf("%s: %zu bytes are needed\n", amqpv_strerror(result), length);
        return 1;
    }
    if (result != AMQPV_OK) {
        printf("%s\n", amqpv_strerror(result));
        return 1;
    }
    for (size_t i = 0; i < length; i++) {
        printf("%02x", buffer[i]);
    }
    putchar('\n');
    return 0;
}
