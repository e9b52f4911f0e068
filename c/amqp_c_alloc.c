/* A call of the C API that accepts more than a function of Rattle can, as c/amqp_c.c has others: NULL for `problem`. */
#include "amqp_values.h"

amqpv_result amqpv_proved_from_json(const char *text, size_t text_length, uint32_t nesting, uint8_t *buffer,
                                    size_t capacity, size_t *length, amqpv_problem *problem);

amqpv_result amqpv_from_json(const char *text, size_t text_length, uint32_t nesting, uint8_t *buffer, size_t capacity,
                             size_t *length, amqpv_problem *problem) {
    amqpv_problem unused;
    return amqpv_proved_from_json(text, text_length, nesting, buffer, capacity, length,
                                  problem != NULL ? problem : &unused);
}
