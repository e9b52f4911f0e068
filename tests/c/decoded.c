/*
 * Decodes tables by librabbitmq and prints them: decoded [STACK [FRAME DEPTH OPTIONS]]. test_before_librabbitmq.py runs
 * it with libamqp_values_rabbitmq.so, which overrides librabbitmq's amqp_decode_table, and without it.
 *
 * A line of standard input is a table without its type tag, in hexadecimal. Its line of output has the status, how many
 * bytes were taken, and the table. The thread has a stack of STACK bytes. With IS_LIMITED the program sets the limits
 * of what is before librabbitmq.
 *
 * With BY_PROPERTIES librabbitmq decodes the headers of a message, as in a consumer, which doesn't itself call
 * amqp_decode_table. With BY_PLUGIN, the path of librabbitmq, it does that as it is loaded by a plug-in.
 */
#define _GNU_SOURCE
#include <amqp.h>
#include <amqp_framing.h>
#ifdef IS_LIMITED
#include <amqp_values_rabbitmq.h>
#endif
#include <dlfcn.h>
#include <inttypes.h>
#include <pthread.h>
#include <stdio.h>
#include <stdlib.h>
#include <string.h>

#ifdef BY_PLUGIN
#define BY_PROPERTIES
#endif

static void show_table(const amqp_table_t *table);

static void show_bytes(amqp_bytes_t bytes) {
    for (size_t i = 0; i < bytes.len; i++) {
        printf("%02x", ((const uint8_t *)bytes.bytes)[i]);
    }
}

static void show_value(const amqp_field_value_t *it) {
    printf("%c", it->kind);
    switch (it->kind) {
    case AMQP_FIELD_KIND_BOOLEAN: printf("%d", it->value.boolean); break;
    case AMQP_FIELD_KIND_I8: printf("%d", it->value.i8); break;
    case AMQP_FIELD_KIND_U8: printf("%d", it->value.u8); break;
    case AMQP_FIELD_KIND_I16: printf("%d", it->value.i16); break;
    case AMQP_FIELD_KIND_U16: printf("%d", it->value.u16); break;
    case AMQP_FIELD_KIND_I32: printf("%" PRId32, it->value.i32); break;
    case AMQP_FIELD_KIND_U32: printf("%" PRIu32, it->value.u32); break;
    case AMQP_FIELD_KIND_I64: printf("%" PRId64, it->value.i64); break;
    case AMQP_FIELD_KIND_U64:
    case AMQP_FIELD_KIND_TIMESTAMP: printf("%" PRIu64, it->value.u64); break;
    case AMQP_FIELD_KIND_F32: show_bytes((amqp_bytes_t){4, (void *)&it->value.f32}); break;
    case AMQP_FIELD_KIND_F64: show_bytes((amqp_bytes_t){8, (void *)&it->value.f64}); break;
    case AMQP_FIELD_KIND_DECIMAL: printf("%" PRIu32 "e-%d", it->value.decimal.value, it->value.decimal.decimals); break;
    case AMQP_FIELD_KIND_UTF8:
    case AMQP_FIELD_KIND_BYTES: show_bytes(it->value.bytes); break;
    case AMQP_FIELD_KIND_ARRAY:
        printf("[");
        for (int i = 0; i < it->value.array.num_entries; i++) {
            show_value(&it->value.array.entries[i]);
            printf(",");
        }
        printf("]");
        break;
    case AMQP_FIELD_KIND_TABLE: show_table(&it->value.table); break;
    }
}

static void show_table(const amqp_table_t *table) {
    printf("{");
    for (int i = 0; i < table->num_entries; i++) {
        show_bytes(table->entries[i].key);
        printf(":");
        show_value(&table->entries[i].value);
        printf(",");
    }
    printf("}");
}

/* Decodes the table after the first two bytes, which are for the flags of properties. */
static int decode(amqp_pool_t *pool, uint8_t *bytes, size_t length, amqp_table_t *table, size_t *count) {
#ifdef BY_PROPERTIES
    int (*properties)(uint16_t id, amqp_pool_t * pool, amqp_bytes_t encoded, void **decoded);
    void *decoded = NULL;
#ifdef BY_PLUGIN
    void *library = dlopen(BY_PLUGIN, RTLD_NOW | RTLD_LOCAL), *found = dlsym(library, "amqp_decode_properties");
    memcpy(&properties, &found, sizeof properties);
#else
    properties = amqp_decode_properties;
#endif
    bytes[0] = AMQP_BASIC_HEADERS_FLAG >> 8, bytes[1] = AMQP_BASIC_HEADERS_FLAG & 255;
    int status = properties(AMQP_BASIC_CLASS, pool, (amqp_bytes_t){length, bytes}, &decoded);
    *count = 0;
    if (status == AMQP_STATUS_OK) {
        *table = ((amqp_basic_properties_t *)decoded)->headers;
    }
    return status;
#else
    size_t offset = 2;
    int status = amqp_decode_table((amqp_bytes_t){length, bytes}, pool, table, &offset);
    *count = offset - 2;
    return status;
#endif
}

static void *decode_all(void *unused) {
    char *line = NULL;
    size_t capacity = 0;
    ssize_t length;
    while ((length = getline(&line, &capacity, stdin)) > 0) {
        /* exactly so many bytes, so that a tool sees what is read after them */
        size_t count = (size_t)length / 2, taken;
        uint8_t *bytes = malloc(2 + count);
        amqp_table_t table;
        amqp_pool_t pool;
#ifdef BY_PLUGIN
        memset(&pool, 0, sizeof pool);
        pool.pagesize = 4096;
#else
        init_amqp_pool(&pool, 4096);
#endif
        for (size_t i = 0; i < count; i++) {
            unsigned byte;
            sscanf(line + 2 * i, "%2x", &byte);
            bytes[2 + i] = (uint8_t)byte;
        }
        int status = decode(&pool, bytes, 2 + count, &table, &taken);
        printf("%d", status);
        if (status == AMQP_STATUS_OK) {
            printf(" %zu ", taken);
            show_table(&table);
        }
        printf("\n");
#ifndef BY_PLUGIN
        empty_amqp_pool(&pool);
#endif
        free(bytes);
    }
    free(line);
    return unused;
}

int main(int count, char **words) {
    pthread_attr_t attributes;
    pthread_t thread;
#ifdef IS_LIMITED
    if (count > 4) {
        uint32_t numbers[3];
        for (int i = 0; i < 3; i++) {
            numbers[i] = (uint32_t)strtoul(words[2 + i], NULL, 10);
        }
        if (!amqpv_before_rabbitmq(numbers[0], numbers[1], numbers[2])) {
            return 3;
        }
    }
#endif
    pthread_attr_init(&attributes);
    if (pthread_attr_setstacksize(&attributes, count > 1 ? strtoul(words[1], NULL, 10) : 1 << 20) != 0) {
        return 2;
    }
    return pthread_create(&thread, &attributes, decode_all, NULL) != 0 || pthread_join(thread, NULL) != 0;
}
