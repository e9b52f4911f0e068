/*
 * Calls the inline functions of amqp_values.h as the lines of standard input say, and prints what they return:
 * test_inline.py writes the lines and judges the output. Keys and bytes are hexadecimal digits after a `.`, and a key
 * that is NULL is `-`. All that is passed is in blocks of its size, so that sanitizers see each access outside.
 */
#include "amqp_values.h"

#include <inttypes.h>
#include <stdio.h>
#include <stdlib.h>

/* The next word of the line, and as a number. */
static char *word(void) {
    char *found = strtok(NULL, " \n");
    return found != NULL ? found : (char *)"-";
}

static uint64_t number(void) { return strtoull(word(), NULL, 0); }

/* The bytes of the next word; NULL for `-`. */
static uint8_t *bytes(size_t *length) {
    const char *digits = word();
    *length = strlen(digits) / 2;
    if (digits[0] == '-') {
        return NULL;
    }
    uint8_t *found = (uint8_t *)calloc(*length, 1);
    for (size_t i = 0; i < *length; i++) {
        unsigned byte = 0;
        sscanf(digits + 1 + 2 * i, "%2x", &byte);
        found[i] = (uint8_t)byte;
    }
    return found;
}

static void add(amqpv_writer *w, const char *what) {
    size_t length, key_length;
    char *key = (char *)bytes(&key_length);
    if (strcmp(what, "int") == 0 || strcmp(what, "uint") == 0) {
        uint8_t tag = (uint8_t)number();
        uint64_t n = number();
        what[0] == 'i' ? amqpv_add_int(w, key, key_length, tag, (int64_t)n)
                       : amqpv_add_uint(w, key, key_length, tag, n);
    } else if (strcmp(what, "bool") == 0) {
        amqpv_add_bool(w, key, key_length, (int)(int64_t)number());
    } else if (strcmp(what, "timestamp") == 0) {
        amqpv_add_timestamp(w, key, key_length, number());
    } else if (strcmp(what, "decimal") == 0) {
        uint32_t n = (uint32_t)number();
        amqpv_add_decimal(w, key, key_length, n, (uint8_t)number());
    } else if (strcmp(what, "void") == 0) {
        amqpv_add_void(w, key, key_length);
    } else if (strcmp(what, "float") == 0) {
        uint32_t bits = (uint32_t)number();
        float real;
        memcpy(&real, &bits, sizeof real);
        amqpv_add_float(w, key, key_length, real);
    } else if (strcmp(what, "double") == 0) {
        uint64_t bits = number();
        double real;
        memcpy(&real, &bits, sizeof real);
        amqpv_add_double(w, key, key_length, real);
    } else if (strcmp(what, "array") == 0) {
        amqpv_add_array(w, key, key_length);
    } else if (strcmp(what, "table") == 0) {
        amqpv_add_table(w, key, key_length);
    } else {
        uint8_t *content = bytes(&length);
        if (strcmp(what, "string") == 0) {
            amqpv_add_string(w, key, key_length, (const char *)content, length);
        } else if (strcmp(what, "bytes") == 0) {
            amqpv_add_bytes(w, key, key_length, content, length);
        } else {
            amqpv_input in = amqpv_value(content, length);
            in.flags = (uint32_t)number();
            amqpv_add_value(w, key, key_length, &in);
        }
        free(content);
    }
    free(key);
}

/* Adds an entry of the bytes, whose key and value are at these places; any numbers are given. */
static void add_entry(amqpv_writer *w) {
    size_t length;
    uint8_t *given = bytes(&length);
    amqpv_input in = amqpv_value(given, length);
    amqpv_entry entry = {{0, 0}, {0, 0}, {0, 0}, 0, 0, 0};
    in.flags = (uint32_t)number();
    entry.key.offset = number();
    entry.key.length = number();
    entry.value.offset = number();
    entry.value.length = number();
    entry.tag = (uint8_t)number();
    entry.content.offset = entry.value.offset + number();
    amqpv_add_entry(w, &in, &entry);
    free(given);
}

/* Ends the table, and prints the result, the length, what was counted, and the bytes. */
static void finish(amqpv_writer *w) {
    size_t length = 77;
    amqpv_result result = amqpv_finish(w, &length);
    printf("%d %zu %zu %zu ", result, length, result == AMQPV_NO_ROOM ? w->needed : 0, w->adds);
    for (size_t i = 0; result == AMQPV_OK && i < length; i++) {
        printf("%02x", w->buffer[i]);
    }
    printf("\n");
}

/* What an entry is in C: each result, and the number or what was there before. */
static void convert(void) {
    amqpv_entry entry = {{0, 0}, {0, 0}, {0, 0}, 0, 0, 0};
    int truth = 77;
    uint64_t seconds = 77, bits;
    uint32_t digits = 77;
    uint8_t scale = 77;
    double real = 77;
    entry.tag = (uint8_t)number();
    entry.bits = number();
    entry.scale = (uint8_t)number();
    amqpv_result results[] = {amqpv_as_bool(&entry, &truth), amqpv_as_timestamp(&entry, &seconds),
                              amqpv_as_decimal(&entry, &digits, &scale), amqpv_as_double(&entry, &real)};
    memcpy(&bits, &real, sizeof bits);
    printf("%d %d %d %" PRIu64 " %d %" PRIu32 " %d %d %" PRIu64 "\n", results[0], truth, results[1], seconds,
           results[2], digits, scale, results[3], bits);
}

/* The places of an entry's key, content and value, of which any numbers are given, in so many bytes. */
static void place(void) {
    size_t length = number();
    uint8_t *all = (uint8_t *)malloc(length);
    amqpv_input in = amqpv_value(length > 0 ? all : NULL, length);
    amqpv_entry entry = {{0, 0}, {0, 0}, {0, 0}, 0, 0, 0};
    entry.key.offset = entry.content.length = number();
    entry.key.length = entry.content.offset = number();
    entry.tag = (uint8_t)number();
    entry.value = entry.key;
    const char *key = amqpv_key(&in, &entry), *text = amqpv_text(&in, &entry), *start = (const char *)in.bytes,
               *found = start;
    amqpv_result result = amqpv_as_string(&in, &entry, &found, &length);
    in.flags = (uint32_t)number();
    amqpv_input value = amqpv_of(&in, &entry);
    ptrdiff_t at = value.bytes != NULL ? (const char *)value.bytes - start : -1;
    printf("%td %td %d %td %zu ", key != NULL ? key - start : -1, text != NULL ? text - start : -1, result,
           found != NULL ? found - start : 0, length);
    printf("%td %zu %u\n", at, value.length, (unsigned)value.flags);
    free(all);
}

/* The entries of a container, at that many places, and what is found at the key of each. */
static void list(void) {
    size_t length, places, count = 77;
    uint8_t *given = bytes(&length);
    amqpv_input in = amqpv_value(given, length);
    amqpv_entry outer, found, behind;
    in.flags = (uint32_t)number();
    places = number();
    /* the library writes the entries, which the sanitizer doesn't see: what is behind the last place is compared */
    amqpv_entry *entries = (amqpv_entry *)malloc((places + 1) * sizeof *entries);
    memset(&behind, 90, sizeof behind);
    memcpy(&entries[places], &behind, sizeof behind);
    amqpv_result result = amqpv_peek(&in, &outer);
    result = result == AMQPV_OK ? amqpv_entries(&in, &outer, entries, places, &count) : result;
    printf("%d %zu%s", result, count,
           memcmp(&entries[places], &behind, sizeof behind) ? " and behind the last place" : "");
    for (size_t i = 0; (result == AMQPV_OK || result == AMQPV_NO_ROOM) && i < places && i < count; i++) {
        amqpv_result of_key = amqpv_get(&in, &outer, amqpv_key(&in, &entries[i]), entries[i].key.length, &found);
        printf(" %zu:%d:%zu", entries[i].value.offset, of_key, of_key == AMQPV_OK ? found.value.offset : 0);
    }
    printf("\n");
    free(entries);
    free(given);
}

int main(void) {
    static char line[1 << 16];
    static amqpv_writer w;
    uint8_t *buffer = NULL;
    while (fgets(line, sizeof line, stdin) != NULL) {
        const char *what = strtok(line, " \n");
        if (strcmp(what, "begin") == 0) {
            size_t capacity = number();
            free(buffer);
            buffer = (uint8_t *)malloc(capacity);
            amqpv_begin(&w, buffer, capacity);
            w.open[0].any_keys |= (uint8_t)number();
        } else if (strcmp(what, "end") == 0) {
            amqpv_end(&w);
        } else if (strcmp(what, "entry") == 0) {
            add_entry(&w);
        } else if (strcmp(what, "finish") == 0) {
            finish(&w);
        } else if (strcmp(what, "convert") == 0) {
            convert();
        } else if (strcmp(what, "place") == 0) {
            place();
        } else if (strcmp(what, "list") == 0) {
            list();
        } else if (strcmp(what, "words") == 0) {
            int n = (int)(int64_t)number();
            printf("%s; %s; %s\n", amqpv_strerror((amqpv_result)n), amqpv_tag_name((uint8_t)n),
                   amqpv_reason_text((uint8_t)n));
        } else {
            add(&w, what);
        }
    }
    free(buffer);
    return 0;
}
