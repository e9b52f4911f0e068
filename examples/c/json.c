/*
 * Prints the JSON of a value, which is in hexadecimal on standard input. With the argument `back` it
 * reads JSON, and prints the canonical encoding of the value in hexadecimal.
 *
 * Each call is made twice: with a capacity of 0, to learn the length, and with a buffer of that length.
 */
#include "amqp_values.h"
#include "hexadecimal.h"

static uint8_t given[AMQPV_MAX_BYTES];
static size_t given_length;
static amqpv_problem problem = {SIZE_MAX, 0, 0, 0}; /* set if the JSON is wrong */

static amqpv_result write_json(uint8_t *buffer, size_t capacity, size_t *length) {
    amqpv_input in = amqpv_value(given, given_length);
    return amqpv_to_json(&in, (char *)buffer, capacity, length);
}

static amqpv_result write_encoding(uint8_t *buffer, size_t capacity, size_t *length) {
    return amqpv_from_json((const char *)given, given_length, AMQPV_MAX_DEPTH, buffer, capacity, length, &problem);
}

int main(int count, char **words) {
    int is_back = count > 1 && strcmp(words[1], "back") == 0;
    given_length = is_back ? fread(given, 1, sizeof given, stdin) : read_hexadecimal(stdin, given, sizeof given);

    uint8_t none, *buffer = NULL;
    size_t length;
    amqpv_result (*write)(uint8_t *, size_t, size_t *) = is_back ? write_encoding : write_json;
    amqpv_result result = write(&none, 0, &length);
    if (result == AMQPV_NO_ROOM) {
        buffer = (uint8_t *)malloc(length);
        result = buffer == NULL ? AMQPV_NO_MEMORY : write(buffer, length, &length);
    }
    if (result != AMQPV_OK) {
        printf("%s", amqpv_strerror(result));
        if (problem.offset != SIZE_MAX) {
            printf(", at %zu", problem.offset);
        }
        if (problem.reason != 0) {
            printf(": %s", amqpv_reason_text(problem.reason));
        }
        putchar('\n');
        return 1;
    }
    for (size_t i = 0; i < length; i++) {
        printf(is_back ? "%02x" : "%c", buffer[i]);
    }
    putchar('\n');
    free(buffer);
    return 0;
}
