/* What amqp_values.h takes of <stdint.h>. */
typedef __UINT8_TYPE__ uint8_t;
typedef __UINT32_TYPE__ uint32_t;
typedef __INT64_TYPE__ int64_t;
typedef __UINT64_TYPE__ uint64_t;
#define UINT32_MAX 4294967295U
#define SIZE_MAX __SIZE_MAX__
