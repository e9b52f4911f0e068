/*
 * Four calls of the C API that accept more than a function of Rattle can: NULL for `problem`, one struct under two names, and a
 * step with an unknown `into`; and a text that ends with a NUL. Each calls a proved function of crates/amqp_c, whose name has
 * `proved` in it. tests/c tests them.
 *
 * generated/ has these functions compiled together with the proved ones, which are local symbols there.
 */
#include "amqp_values.h"

amqpv_result amqpv_proved_read(const amqpv_input *in, amqpv_entry *entry, amqpv_problem *problem);
amqpv_result amqpv_proved_measure(const amqpv_input *in, amqpv_size *size, amqpv_problem *problem);
amqpv_result amqpv_proved_find(const amqpv_input *in, const amqpv_entry *from, const amqpv_step *path, size_t steps,
                               amqpv_entry *entry);
amqpv_result amqpv_proved_to_json(const amqpv_input *in, char *buffer, size_t capacity, size_t *length);

amqpv_result amqpv_read(const amqpv_input *in, amqpv_entry *entry, amqpv_problem *problem) {
    amqpv_problem unused;
    return amqpv_proved_read(in, entry, problem != NULL ? problem : &unused);
}

amqpv_result amqpv_measure(const amqpv_input *in, amqpv_size *size, amqpv_problem *problem) {
    amqpv_problem unused;
    return amqpv_proved_measure(in, size, problem != NULL ? problem : &unused);
}

amqpv_result amqpv_find(const amqpv_input *in, const amqpv_entry *from, const amqpv_step *path, size_t steps,
                        amqpv_entry *entry) {
    amqpv_entry start;
    for (size_t i = 0; i < steps; i++) {
        if (path[i].into != AMQPV_TABLE && path[i].into != AMQPV_ARRAY) {
            return AMQPV_INVALID;
        }
    }
    if (from == entry) {
        start = *from;
        from = &start;
    }
    return amqpv_proved_find(in, from, path, steps, entry);
}

amqpv_result amqpv_to_json(const amqpv_input *in, char *buffer, size_t capacity, size_t *length) {
    /* (the last byte is for the NUL) */
    amqpv_result result = amqpv_proved_to_json(in, buffer, capacity > 0 ? capacity - 1 : 0, length);
    if (result == AMQPV_OK) {
        buffer[*length] = 0;
    } else if (result == AMQPV_NO_ROOM && *length < SIZE_MAX) {
        ++*length;
    }
    return result;
}
