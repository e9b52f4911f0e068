/* What amqp_values.h takes of <string.h>. */
void *memcpy(void *restrict to, const void *restrict from, size_t size);
size_t strlen(const char *text);
