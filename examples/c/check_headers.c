/*
 * Checks the headers of a message before they are sent: prints why RabbitMQ would close the connection,
 * or what clients may not read; with the argument `streams` also what a stream queue may not. The
 * headers are a table without its type tag, in hexadecimal on standard input.
 */
#include "amqp_values.h"
#include "hexadecimal.h"

static void print_warning(const char *what, size_t offset) {
    if (offset != SIZE_MAX) {
        printf("%s, at %zu\n", what, offset);
    }
}

int main(int count, char **words) {
    static uint8_t bytes[AMQPV_MAX_BYTES];
    amqpv_input in = amqpv_table(bytes, read_hexadecimal(stdin, bytes, sizeof bytes));
    amqpv_entry table;
    amqpv_problem problem;
    amqpv_warnings warnings;
    in.flags |= AMQPV_RABBITMQ;
    if (count > 1 && strcmp(words[1], "streams") == 0) {
        in.flags |= AMQPV_STREAMS;
    }
    amqpv_result result = amqpv_read(&in, &table, &problem);
    if (result != AMQPV_OK) {
        printf("not accepted: %s, at %zu\n", amqpv_strerror(result), problem.offset);
        return 1;
    }
    result = amqpv_warn(&in, 131072, AMQPV_MAX_DEPTH, &warnings);
    if (result != AMQPV_OK) {
        printf("%s\n", amqpv_strerror(result));
        return 1;
    }
    if (warnings.count > 0) {
        print_warning("a repeated key", warnings.repeated_key);
        print_warning("a key that is not UTF-8", warnings.key_not_utf8);
        print_warning("an empty key", warnings.empty_key);
        print_warning("a container that nests too deep", warnings.too_deep);
        print_warning("a decimal, which a stream does not take", warnings.decimal);
        print_warning("a container, which a stream drops", warnings.nested_header);
        if (warnings.exceeds_frame) {
            printf("more bytes than fit a frame\n");
        }
        return 1;
    }
    printf("no warnings\n");
    return 0;
}
