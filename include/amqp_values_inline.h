/*
 * The bodies of the functions that amqp_values.h declares as inline. It includes this file; nothing else should. What ends in
 * an underscore isn't part of the interface.
 */
#ifndef AMQP_VALUES_INLINE_H
#define AMQP_VALUES_INLINE_H

/* ---- Reading ---- */

static inline amqpv_input amqpv_value(const void *bytes, size_t length) {
    amqpv_input in;
    in.bytes = AMQPV_CAST_(const uint8_t *, bytes);
    in.length = length;
    in.max_bytes = AMQPV_MAX_BYTES;
    in.max_depth = AMQPV_MAX_DEPTH;
    in.flags = 0;
    return in;
}

static inline amqpv_input amqpv_table(const void *bytes, size_t length) {
    amqpv_input in = amqpv_value(bytes, length);
    in.flags = AMQPV_UNTAGGED;
    return in;
}

static inline amqpv_result amqpv_enter(const amqpv_entry *entry, amqpv_cursor *cursor) {
    if (entry->tag != AMQPV_ARRAY && entry->tag != AMQPV_TABLE) {
        return AMQPV_BAD_TAG;
    }
    cursor->left = entry->content;
    cursor->tag = entry->tag;
    return AMQPV_OK;
}

static inline amqpv_result amqpv_entries(const amqpv_input *in, const amqpv_entry *container, amqpv_entry *entries,
                                         size_t capacity, size_t *count) {
    amqpv_cursor cursor;
    amqpv_entry spare;
    size_t n = 0;
    amqpv_result result = amqpv_enter(container, &cursor);
    while (result == AMQPV_OK) {
        result = amqpv_next(in, &cursor, n < capacity ? &entries[n] : &spare);
        n += result == AMQPV_OK;
    }
    if (result != AMQPV_NONE) {
        return result;
    }
    *count = n;
    return n <= capacity ? AMQPV_OK : AMQPV_NO_ROOM;
}

/* (the bytes of a span) */
static inline const char *amqpv_bytes_(const amqpv_input *in, amqpv_span span) {
    if (span.offset > in->length || span.length > in->length - span.offset || in->bytes == NULL) {
        return NULL;
    }
    return AMQPV_CAST_(const char *, AMQPV_CAST_(const void *, in->bytes + span.offset));
}

static inline const char *amqpv_key(const amqpv_input *in, const amqpv_entry *entry) {
    return amqpv_bytes_(in, entry->key);
}

static inline const char *amqpv_text(const amqpv_input *in, const amqpv_entry *entry) {
    int is_text = entry->tag == AMQPV_LONG_STRING || entry->tag == AMQPV_BYTE_ARRAY;
    return is_text ? amqpv_bytes_(in, entry->content) : NULL;
}

static inline amqpv_result amqpv_as_string(const amqpv_input *in, const amqpv_entry *entry, const char **text,
                                           size_t *length) {
    const char *found = amqpv_text(in, entry);
    if (entry->tag != AMQPV_LONG_STRING && entry->tag != AMQPV_BYTE_ARRAY) {
        return AMQPV_BAD_TAG;
    }
    if (found == NULL) {
        return AMQPV_INVALID;
    }
    *text = found;
    *length = entry->content.length;
    return AMQPV_OK;
}

static inline amqpv_input amqpv_of(const amqpv_input *in, const amqpv_entry *entry) {
    amqpv_input value = *in;
    const char *bytes = amqpv_bytes_(in, entry->value);
    /* (between the beginning of a container and what is inside is its length, and before that its tag, if it has one) */
    int is_untagged = entry->tag == AMQPV_TABLE && entry->content.offset == entry->value.offset + 4;
    value.bytes = AMQPV_CAST_(const uint8_t *, AMQPV_CAST_(const void *, bytes));
    value.length = bytes != NULL ? entry->value.length : 0;
    value.flags &= ~AMQPV_CAST_(uint32_t, AMQPV_UNTAGGED);
    value.flags |= is_untagged ? AMQPV_CAST_(uint32_t, AMQPV_UNTAGGED) : 0;
    return value;
}

static inline amqpv_result amqpv_as_bool(const amqpv_entry *entry, int *truth) {
    if (entry->tag != AMQPV_BOOLEAN) {
        return AMQPV_BAD_TAG;
    }
    if (entry->bits > 1) {
        return AMQPV_OUT_OF_RANGE;
    }
    *truth = entry->bits == 1;
    return AMQPV_OK;
}

static inline amqpv_result amqpv_as_timestamp(const amqpv_entry *entry, uint64_t *seconds) {
    if (entry->tag != AMQPV_TIMESTAMP) {
        return AMQPV_BAD_TAG;
    }
    *seconds = entry->bits;
    return AMQPV_OK;
}

static inline amqpv_result amqpv_as_decimal(const amqpv_entry *entry, uint32_t *number, uint8_t *scale) {
    if (entry->tag != AMQPV_DECIMAL) {
        return AMQPV_BAD_TAG;
    }
    if (entry->bits > UINT32_MAX) {
        return AMQPV_OUT_OF_RANGE;
    }
    *number = AMQPV_CAST_(uint32_t, entry->bits);
    *scale = entry->scale;
    return AMQPV_OK;
}

static inline amqpv_result amqpv_as_double(const amqpv_entry *entry, double *number) {
    uint32_t bits = AMQPV_CAST_(uint32_t, entry->bits);
    float narrow;
    if (entry->tag == AMQPV_DOUBLE) {
        memcpy(number, &entry->bits, sizeof *number);
        return AMQPV_OK;
    }
    if (entry->tag != AMQPV_FLOAT) {
        return AMQPV_BAD_TAG;
    }
    if (entry->bits > UINT32_MAX) {
        return AMQPV_OUT_OF_RANGE;
    }
    memcpy(&narrow, &bits, sizeof narrow);
    *number = AMQPV_CAST_(double, narrow);
    return AMQPV_OK;
}

static inline amqpv_result amqpv_get(const amqpv_input *in, const amqpv_entry *table, const char *key,
                                     size_t key_length, amqpv_entry *entry) {
    amqpv_step step;
    step.key = key;
    step.key_length = key_length;
    step.index = 0;
    step.into = AMQPV_TABLE;
    return amqpv_find(in, table, &step, 1, entry);
}

/* ---- Writing ---- */

/*
 * (After an entry that has no room, its container is counted as empty, in a buffer of no bytes. So the next has no room either,
 * and needs as much as it has.)
 */
static inline void amqpv_count_(amqpv_writer *w) {
    amqpv_container *into = &w->open[w->level];
    w->capacity = 0;
    into->written.offset = 0;
    into->written.length = 0;
    into->inner = 0;
}

static inline void amqpv_begin(amqpv_writer *w, uint8_t *buffer, size_t capacity) {
    static const amqpv_container table = {{4, 0}, AMQPV_TABLE, 0, 0, 0};
    w->buffer = buffer;
    w->capacity = capacity;
    w->open[0] = table;
    w->level = 0;
    w->result = AMQPV_OK;
    w->needed = 4;
    w->adds = 0;
    if (capacity < 4) {
        w->result = AMQPV_NO_ROOM;
        amqpv_count_(w);
    }
}

/* (whether an entry may be added) */
static inline int amqpv_may_add_(amqpv_writer *w, const char *key) {
    if (w->result != AMQPV_OK && w->result != AMQPV_NO_ROOM) {
        return 0;
    }
    w->adds++;
    if (key == NULL && w->open[w->level].tag == AMQPV_TABLE) {
        w->result = AMQPV_BAD_KEY;
        return 0;
    }
    return 1;
}

/* (what an entry that was put adds to the count, and its error) */
static inline void amqpv_added_(amqpv_writer *w, amqpv_result result) {
    if (result == AMQPV_OK) {
        return;
    }
    if (result == AMQPV_NO_ROOM) {
        w->needed = w->open[w->level].needed + (w->result == AMQPV_OK ? 0 : w->needed);
        amqpv_count_(w);
    }
    w->result = result;
}

/* (what these functions pass on) */
#define AMQPV_INTO_ w->buffer, w->capacity, &w->open[w->level], key, key_length
static inline void amqpv_add_bits_(amqpv_writer *w, const char *key, size_t key_length, uint8_t tag, uint64_t bits,
                                   uint8_t scale) {
    if (amqpv_may_add_(w, key)) {
        amqpv_added_(w, amqpv_put(AMQPV_INTO_, tag, bits, scale));
    }
}

static inline void amqpv_add_int(amqpv_writer *w, const char *key, size_t key_length, uint8_t tag, int64_t number) {
    int is_int =
        tag == AMQPV_SHORT_SHORT_INT || tag == AMQPV_SHORT_INT || tag == AMQPV_LONG_INT || tag == AMQPV_LONG_LONG_INT;
    amqpv_add_bits_(w, key, key_length, is_int ? tag : 0, AMQPV_CAST_(uint64_t, number), 0);
}

static inline void amqpv_add_uint(amqpv_writer *w, const char *key, size_t key_length, uint8_t tag, uint64_t number) {
    int is_uint = tag == AMQPV_SHORT_SHORT_UINT || tag == AMQPV_SHORT_UINT || tag == AMQPV_LONG_UINT;
    amqpv_add_bits_(w, key, key_length, is_uint ? tag : 0, number, 0);
}

static inline void amqpv_add_bool(amqpv_writer *w, const char *key, size_t key_length, int truth) {
    amqpv_add_bits_(w, key, key_length, AMQPV_BOOLEAN, truth != 0, 0);
}

static inline void amqpv_add_timestamp(amqpv_writer *w, const char *key, size_t key_length, uint64_t seconds) {
    amqpv_add_bits_(w, key, key_length, AMQPV_TIMESTAMP, seconds, 0);
}

static inline void amqpv_add_decimal(amqpv_writer *w, const char *key, size_t key_length, uint32_t number,
                                     uint8_t scale) {
    amqpv_add_bits_(w, key, key_length, AMQPV_DECIMAL, number, scale);
}

static inline void amqpv_add_void(amqpv_writer *w, const char *key, size_t key_length) {
    amqpv_add_bits_(w, key, key_length, AMQPV_VOID, 0, 0);
}

static inline void amqpv_add_float(amqpv_writer *w, const char *key, size_t key_length, float number) {
    uint32_t bits;
    memcpy(&bits, &number, sizeof bits);
    amqpv_add_bits_(w, key, key_length, AMQPV_FLOAT, bits, 0);
}

static inline void amqpv_add_double(amqpv_writer *w, const char *key, size_t key_length, double number) {
    uint64_t bits;
    memcpy(&bits, &number, sizeof bits);
    amqpv_add_bits_(w, key, key_length, AMQPV_DOUBLE, bits, 0);
}

static inline void amqpv_add_string(amqpv_writer *w, const char *key, size_t key_length, const char *text,
                                    size_t length) {
    if (amqpv_may_add_(w, key)) {
        amqpv_added_(w, amqpv_put_bytes(AMQPV_INTO_, AMQPV_LONG_STRING, text, length));
    }
}

static inline void amqpv_add_bytes(amqpv_writer *w, const char *key, size_t key_length, const void *bytes,
                                   size_t length) {
    if (amqpv_may_add_(w, key)) {
        amqpv_added_(w, amqpv_put_bytes(AMQPV_INTO_, AMQPV_BYTE_ARRAY, bytes, length));
    }
}

static inline void amqpv_add_value(amqpv_writer *w, const char *key, size_t key_length, const amqpv_input *in) {
    if (amqpv_may_add_(w, key)) {
        amqpv_added_(w, amqpv_put_value(AMQPV_INTO_, in));
    }
}

static inline void amqpv_add_entry(amqpv_writer *w, const amqpv_input *in, const amqpv_entry *entry) {
    amqpv_container *into = &w->open[w->level];
    amqpv_input value = amqpv_of(in, entry);
    const char *key = amqpv_key(in, entry);
    /* (before the key of a pair is its length; an entry without a key has it at 0) */
    int is_pair = entry->key.offset > 0;
    uint8_t any_keys = into->any_keys;
    if (!amqpv_may_add_(w, "")) {
        return;
    }
    if (key == NULL || value.bytes == NULL) {
        w->result = AMQPV_INVALID;
    } else if (is_pair != (into->tag == AMQPV_TABLE)) {
        w->result = AMQPV_BAD_KEY;
    } else {
        into->any_keys = any_keys != 0 || (in->flags & (AMQPV_ANY_KEYS | AMQPV_RABBITMQ)) != 0;
        amqpv_added_(w, amqpv_put_value(w->buffer, w->capacity, into, key, entry->key.length, &value));
        into->any_keys = any_keys;
    }
}

static inline void amqpv_add_container_(amqpv_writer *w, const char *key, size_t key_length, uint8_t tag) {
    if (w->level + 1 == AMQPV_MAX_DEPTH && (w->result == AMQPV_OK || w->result == AMQPV_NO_ROOM)) {
        w->adds++;
        w->result = AMQPV_TOO_DEEP;
    }
    if (amqpv_may_add_(w, key)) {
        amqpv_result result = amqpv_open(AMQPV_INTO_, tag, &w->open[w->level + 1]);
        amqpv_added_(w, result);
        if (result == AMQPV_NO_ROOM) {
            w->open[w->level + 1] = w->open[w->level];
            w->open[w->level + 1].tag = tag;
        }
        w->level += result == AMQPV_OK || result == AMQPV_NO_ROOM ? 1U : 0U;
    }
}

static inline void amqpv_add_array(amqpv_writer *w, const char *key, size_t key_length) {
    amqpv_add_container_(w, key, key_length, AMQPV_ARRAY);
}

static inline void amqpv_add_table(amqpv_writer *w, const char *key, size_t key_length) {
    amqpv_add_container_(w, key, key_length, AMQPV_TABLE);
}

static inline void amqpv_end(amqpv_writer *w) {
    if (w->level == 0) {
        if (w->result == AMQPV_OK || w->result == AMQPV_NO_ROOM) {
            w->result = AMQPV_INVALID;
        }
    } else if (w->result == AMQPV_OK) {
        w->level--;
        w->result = amqpv_close(w->buffer, w->capacity, &w->open[w->level], &w->open[w->level + 1]);
    } else if (w->result == AMQPV_NO_ROOM) {
        /* (that it has less than 2^32 bytes follows from that of the table) */
        w->level--;
        amqpv_count_(w);
    }
}
#undef AMQPV_INTO_

static inline amqpv_result amqpv_finish(amqpv_writer *w, size_t *length) {
    uint8_t *buffer = w->buffer;
    size_t body = w->result == AMQPV_OK ? w->open[0].written.length : w->needed - 4;
    *length = 0;
    if (w->result != AMQPV_OK && w->result != AMQPV_NO_ROOM) {
        return w->result;
    }
    if (w->level != 0 || body > UINT32_MAX) {
        w->result = w->level != 0 ? AMQPV_INVALID : AMQPV_TOO_LARGE;
        return w->result;
    }
    *length = 4 + body;
    if (w->result == AMQPV_OK) {
        buffer[0] = AMQPV_CAST_(uint8_t, body >> 24 & 255);
        buffer[1] = AMQPV_CAST_(uint8_t, body >> 16 & 255);
        buffer[2] = AMQPV_CAST_(uint8_t, body >> 8 & 255);
        buffer[3] = AMQPV_CAST_(uint8_t, body & 255);
    }
    return w->result;
}

/* ---- Names ---- */

static inline const char *amqpv_strerror(amqpv_result result) {
    switch (result) {
    case AMQPV_OK: return "done";
    case AMQPV_NONE: return "none";
    case AMQPV_MORE: return "more bytes are needed";
    case AMQPV_UNKNOWN_TAG: return "unknown type tag";
    case AMQPV_CUT: return "a value is missing or truncated";
    case AMQPV_KEY_CUT: return "a key is truncated";
    case AMQPV_KEY_NOT_UTF8: return "a key is not UTF-8";
    case AMQPV_NOT_FINITE: return "a float is infinite or NaN";
    case AMQPV_TOO_DEEP: return "nested too deep";
    case AMQPV_TOO_LARGE: return "too large";
    case AMQPV_NOT_UTF8: return "not UTF-8";
    case AMQPV_NOT_JSON: return "not JSON";
    case AMQPV_NOT_A_VALUE: return "not the JSON of a value";
    case AMQPV_NO_ENCODING: return "the value has no encoding";
    case AMQPV_INVALID: return "invalid argument";
    case AMQPV_BAD_KEY: return "invalid key";
    case AMQPV_BAD_TAG: return "wrong type";
    case AMQPV_OUT_OF_RANGE: return "number out of range";
    case AMQPV_NO_ROOM: return "buffer too small";
    case AMQPV_NO_MEMORY: return "out of memory";
    }
    return "unknown result";
}

static inline const char *amqpv_reason_text(uint8_t reason) {
    switch (reason) {
    case 0: return "no reason";
    case AMQPV_JSON_UNEXPECTED_END: return "unexpected end";
    case AMQPV_JSON_UNFINISHED_STRING: return "unfinished string";
    case AMQPV_JSON_UNEXPECTED_CHARACTER: return "unexpected character";
    case AMQPV_JSON_CONTROL_CHARACTER: return "control character in a string";
    case AMQPV_JSON_UNKNOWN_ESCAPE: return "unknown escape";
    case AMQPV_JSON_LONE_SURROGATE: return "lone surrogate";
    case AMQPV_JSON_MISSING_COMMA: return "missing comma";
    case AMQPV_JSON_MISSING_COLON: return "missing colon";
    case AMQPV_JSON_TRAILING_COMMA: return "trailing comma";
    case AMQPV_JSON_AFTER_THE_VALUE: return "more text after the value";
    case AMQPV_JSON_BYTE_ORDER_MARK: return "byte order mark";
    case AMQPV_JSON_UNKNOWN_TYPE: return "expected the name of a type after `$`";
    case AMQPV_JSON_NOT_ALONE: return "expected no other key beside a type name";
    case AMQPV_JSON_KEY_TOO_LONG: return "a key of more than 255 bytes";
    case AMQPV_JSON_NOT_A_NUMBER: return "expected a number";
    case AMQPV_JSON_NOT_A_STRING: return "expected a string";
    case AMQPV_JSON_OUT_OF_RANGE: return "expected a number that the type holds";
    case AMQPV_JSON_ODD_DIGITS: return "expected an even number of hexadecimal digits";
    case AMQPV_JSON_NOT_HEXADECIMAL: return "expected only hexadecimal digits";
    case AMQPV_JSON_DIGIT_COUNT: return "expected 8 hexadecimal digits of a Float, or 16 of a Double";
    case AMQPV_JSON_NOT_A_DECIMAL: return "expected a number and a scale, as in 314e-2";
    default: return "unknown reason";
    }
}

static inline const char *amqpv_tag_name(uint8_t tag) {
    switch (tag) {
    case AMQPV_BOOLEAN: return "Boolean";
    case AMQPV_SHORT_SHORT_INT: return "ShortShortInt";
    case AMQPV_SHORT_SHORT_UINT: return "ShortShortUInt";
    case AMQPV_SHORT_INT:
    case 'U': return "ShortInt";
    case AMQPV_SHORT_UINT: return "ShortUInt";
    case AMQPV_LONG_INT: return "LongInt";
    case AMQPV_LONG_UINT: return "LongUInt";
    case AMQPV_LONG_LONG_INT:
    case 'L': return "LongLongInt";
    case AMQPV_FLOAT: return "Float";
    case AMQPV_DOUBLE: return "Double";
    case AMQPV_DECIMAL: return "DecimalValue";
    case AMQPV_LONG_STRING: return "LongString";
    case AMQPV_BYTE_ARRAY: return "ByteArray";
    case AMQPV_ARRAY: return "FieldArray";
    case AMQPV_TABLE: return "FieldTable";
    case AMQPV_TIMESTAMP: return "Timestamp";
    case AMQPV_VOID: return "Void";
    default: return "unknown";
    }
}

#endif
