/*
 * Prints a value, which is in hexadecimal on standard input: a line for each entry, indented by two
 * spaces for each container that it is in.
 */
#include "amqp_values.h"
#include "hexadecimal.h"

#include <inttypes.h>

/* Prints bytes in quotes, and those that are not printable ASCII as `\xNN`. */
static void print_text(const char *text, size_t length) {
    putchar('"');
    for (size_t i = 0; i < length; i++) {
        unsigned byte = (unsigned char)text[i];
        if (byte >= ' ' && byte < 127 && byte != '"' && byte != '\\') {
            putchar((int)byte);
        } else {
            printf("\\x%02x", byte);
        }
    }
    putchar('"');
}

/* Prints the type of an entry, and its value unless it is a container. */
static void print_entry(const amqpv_input *in, const amqpv_entry *entry) {
    int64_t number;
    uint64_t seconds;
    uint32_t digits;
    uint8_t scale;
    double real;
    int truth;
    const char *text;
    size_t length;
    printf("%s", amqpv_tag_name(entry->tag));
    if (amqpv_as_int(entry, &number) == AMQPV_OK) {
        printf(" %" PRId64, number);
    } else if (amqpv_as_bool(entry, &truth) == AMQPV_OK) {
        printf(" %s", truth ? "true" : "false");
    } else if (amqpv_as_double(entry, &real) == AMQPV_OK) {
        printf(" %g", real);
    } else if (amqpv_as_decimal(entry, &digits, &scale) == AMQPV_OK) {
        printf(" %" PRIu32 "e-%d", digits, scale);
    } else if (amqpv_as_timestamp(entry, &seconds) == AMQPV_OK) {
        printf(" %" PRIu64, seconds);
    } else if (amqpv_as_string(in, entry, &text, &length) == AMQPV_OK) {
        putchar(' ');
        print_text(text, length);
    }
    putchar('\n');
}

int main(void) {
    static uint8_t bytes[2 * AMQPV_MAX_BYTES];
    amqpv_cursor open[AMQPV_MAX_DEPTH + 1]; /* of the containers that the entry is in, and one to try */
    amqpv_input in = amqpv_value(bytes, read_hexadecimal(stdin, bytes, sizeof bytes));
    amqpv_entry entry;
    amqpv_problem problem;
    size_t depth = 0;
    amqpv_result result = amqpv_read(&in, &entry, &problem);
    if (result == AMQPV_MORE) {
        printf("%zu more bytes are needed\n", problem.missing);
        return 1;
    }
    if (result != AMQPV_OK) {
        printf("%s, at %zu\n", amqpv_strerror(result), problem.offset);
        return 1;
    }
    printf("%zu bytes\n", entry.value.length);
    while (result == AMQPV_OK) {
        printf("%*s", (int)(2 * depth), "");
        if (depth > 0 && open[depth - 1].tag == AMQPV_TABLE) {
            print_text(amqpv_key(&in, &entry), entry.key.length);
            printf(": ");
        }
        print_entry(&in, &entry);
        /* (amqpv_read has checked that no more than AMQPV_MAX_DEPTH containers nest) */
        depth += amqpv_enter(&entry, &open[depth]) == AMQPV_OK;
        result = AMQPV_NONE;
        while (depth > 0 && (result = amqpv_next(&in, &open[depth - 1], &entry)) == AMQPV_NONE) {
            depth--;
        }
    }
    return result != AMQPV_NONE;
}
