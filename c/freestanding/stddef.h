/* What amqp_values.h takes of <stddef.h>. */
typedef __SIZE_TYPE__ size_t;
#define NULL ((void *)0)
