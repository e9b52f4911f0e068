/*
 * Reads tables from standard input as a client reads them from a socket: one after another, in the
 * pieces that come. The tables have no type tag. Prints how many entries each has.
 *
 * The buffer grows by what is missing, so no byte after a table is read. A table that says that it
 * is longer than in.max_bytes is rejected by its first four bytes.
 */
#include "amqp_values.h"
#include <stdio.h>
#include <stdlib.h>
#include <unistd.h>

static size_t count_entries(const amqpv_input *in, const amqpv_entry *table) {
    size_t count = 0;
    amqpv_cursor cursor;
    amqpv_entry entry;
    if (amqpv_enter(table, &cursor) == AMQPV_OK) {
        while (amqpv_next(in, &cursor, &entry) == AMQPV_OK) {
            count++;
        }
    }
    return count;
}

int main(void) {
    uint8_t *buffer = NULL;
    size_t length = 0, capacity = 0;
    for (;;) {
        amqpv_input in = amqpv_table(buffer, length);
        amqpv_entry table;
        amqpv_problem problem;
        amqpv_result result = amqpv_read(&in, &table, &problem);
        if (result == AMQPV_OK) {
            printf("a table of %zu entries, %zu bytes\n", count_entries(&in, &table), length);
            length = 0;
            continue;
        }
        if (result != AMQPV_MORE) {
            printf("%s, at byte %zu of the table\n", amqpv_strerror(result), problem.offset);
            break; /* a client closes its connection now */
        }
        if (capacity - length < problem.missing) {
            capacity = length + problem.missing;
            uint8_t *larger = (uint8_t *)realloc(buffer, capacity);
            if (larger == NULL) {
                printf("no memory for a table of %zu bytes\n", capacity);
                break;
            }
            buffer = larger;
        }
        ssize_t count = read(STDIN_FILENO, buffer + length, problem.missing);
        if (count <= 0) {
            if (length > 0) {
                printf("the input ends inside a table\n");
            }
            free(buffer);
            return length > 0;
        }
        length += (size_t)count;
    }
    free(buffer);
    return 1;
}
