/* `written` makes the bytes of a Python object in a buffer that grows, as `dumps` returns them. */
#include "values.h"

#include <string.h>

/* What is written. Its first bytes are in the writer itself. */
typedef struct {
    const State *state;
    const Options *how;
    uint8_t *buffer;
    size_t capacity;
    uint8_t small[512];
} Writer;

/* A key, the container that an entry is put into, and how many bytes the key has there. */
typedef struct {
    amqpv_container *into;
    const char *key;
    size_t length, head;
    uint32_t levels;
} Place;

static const char LESS_THAN_4_GIB[] = "less than 4 GiB";

static size_t end_of(const amqpv_container *into) { return into->written.offset + into->written.length; }

/* How many bytes are before what is written next. */
static size_t offset_in(const Writer *writer, const Place *place) {
    size_t end = end_of(place->into) + place->head;
    return writer->how->is_table && end > 0 ? end - 1 : end;
}

/* Grows the buffer for an entry with a content of some bytes. */
static int reserve(Writer *writer, const Place *place, size_t content) {
    size_t end = end_of(place->into), most = PY_SSIZE_T_MAX, head = place->length + 16;
    if (content > most - head - end || content > UINT32_MAX) {
        raise_error(writer->state, "too large", offset_in(writer, place), 0, LESS_THAN_4_GIB);
        return 0;
    }
    size_t needed = end + head + content;
    if (needed <= writer->capacity) {
        return 1;
    }
    size_t capacity = writer->capacity < needed / 2 ? needed
                      : writer->capacity > most / 2 ? most
                                                    : 2 * writer->capacity;
    int is_small = writer->buffer == writer->small;
    uint8_t *grown = is_small ? PyMem_Malloc(capacity) : PyMem_Realloc(writer->buffer, capacity);
    if (grown == NULL) {
        PyErr_NoMemory();
        return 0;
    }
    if (is_small) {
        memcpy(grown, writer->small, end);
    }
    writer->buffer = grown;
    writer->capacity = capacity;
    return 1;
}

/* What a call takes of a writer and a place. */
#define INTO writer->buffer, writer->capacity, place->into, place->key, place->length

/* Whether an entry was put. */
static int is_put(const Writer *writer, const Place *place, amqpv_result result, const char *expected) {
    if (result != AMQPV_OK) {
        const char *kind = result == AMQPV_OUT_OF_RANGE ? "out of range" : "too large";
        raise_error(writer->state, kind, offset_in(writer, place), 0, expected);
        return 0;
    }
    return 1;
}

static int put(Writer *writer, const Place *place, uint8_t tag, uint64_t bits, uint8_t scale, const char *expected) {
    return reserve(writer, place, 0) && is_put(writer, place, amqpv_put(INTO, tag, bits, scale), expected);
}

static int put_bytes(Writer *writer, const Place *place, uint8_t tag, const char *bytes, Py_ssize_t length) {
    size_t count = (size_t)length;
    return reserve(writer, place, count)
           && is_put(writer, place, amqpv_put_bytes(INTO, tag, bytes, count), LESS_THAN_4_GIB);
}

/* Text */

/* Of a str that has no UTF-8 the bytes that it stands for, if it is the str that is read of them. */
static PyObject *escaped_bytes(PyObject *text) {
    PyObject *bytes = PyUnicode_AsEncodedString(text, "utf-8", "surrogateescape");
    char *content;
    Py_ssize_t length;
    if (bytes != NULL && PyBytes_AsStringAndSize(bytes, &content, &length) == 0) {
        PyObject *again = PyUnicode_DecodeUTF8(content, length, "surrogateescape");
        int is_same = again != NULL && PyUnicode_Compare(again, text) == 0 && !PyErr_Occurred();
        Py_XDECREF(again);
        if (is_same) {
            return bytes;
        }
    }
    Py_XDECREF(bytes);
    return NULL;
}

/* The UTF-8 of a str, inside of it; or the bytes that `kept` then is; or NULL, and an Error. */
static const char *text_of(const State *state, uint32_t how, PyObject *text, size_t offset, Py_ssize_t *length,
                           PyObject **kept) {
    char *content = NULL;
    const char *found = PyUnicode_AsUTF8AndSize(text, length);
    *kept = NULL;
    if (found != NULL || !PyErr_ExceptionMatches(PyExc_UnicodeError)) {
        return found;
    }
    PyErr_Clear();
    if (how == ESCAPED) {
        *kept = escaped_bytes(text);
        if (*kept != NULL && PyBytes_AsStringAndSize(*kept, &content, length) == 0) {
            return content;
        }
        if (PyErr_Occurred() && !PyErr_ExceptionMatches(PyExc_UnicodeError)) {
            return NULL;
        }
        PyErr_Clear();
        raise_error(state, "lone surrogate", offset, 0, "text with no surrogates but those of bytes that aren't UTF-8");
        return NULL;
    }
    raise_error(state, "lone surrogate", offset, 0, "text without surrogates, which have no UTF-8");
    return NULL;
}

static int put_text(Writer *writer, const Place *place, PyObject *text) {
    PyObject *kept;
    Py_ssize_t length;
    const char *bytes = text_of(writer->state, writer->how->text, text, offset_in(writer, place), &length, &kept);
    int is_done = bytes != NULL && put_bytes(writer, place, AMQPV_LONG_STRING, bytes, length);
    Py_XDECREF(kept);
    return is_done;
}

PyObject *key_bytes(const State *state, uint32_t how, PyObject *key, size_t offset, const char **bytes,
                    size_t *length) {
    PyObject *kept = NULL;
    Py_ssize_t count = 0;
    char *content;
    if (PyUnicode_Check(key)) {
        *bytes = text_of(state, how, key, offset, &count, &kept);
        if (*bytes == NULL) {
            Py_XDECREF(kept);
            return NULL;
        }
    } else if (PyBytes_Check(key)) {
        if (PyBytes_AsStringAndSize(key, &content, &count) < 0) {
            return NULL;
        }
        *bytes = content;
        PyObject *text = how != AS_BYTES ? PyUnicode_DecodeUTF8(content, count, "strict") : NULL;
        if (text == NULL && how != AS_BYTES) {
            if (PyErr_ExceptionMatches(PyExc_UnicodeError)) {
                PyErr_Clear();
                raise_error(state, "key not UTF-8", offset, 0, "bytes in UTF-8");
            }
            return NULL;
        }
        Py_XDECREF(text);
    } else {
        raise_unsupported(state, offset, "a str or bytes as a key", key);
        return NULL;
    }
    if (kept == NULL) {
        Py_INCREF(key);
        kept = key;
    }
    *length = (size_t)count;
    return kept;
}

/* Numbers */

static int out_of_range(const Writer *writer, const Place *place, const char *expected) {
    PyErr_Clear();
    raise_error(writer->state, "out of range", offset_in(writer, place), 0, expected);
    return 0;
}

static int put_encoded(Writer *writer, const Place *place, const char *bytes, size_t length);

/* The type tag of an integer without class. */
static uint8_t tag_of(uint32_t integers, int64_t number) {
    int is_long = number >= INT32_MIN && number <= INT32_MAX;
    if (integers == AS_PIKA) {
        return is_long ? AMQPV_LONG_INT : AMQPV_LONG_LONG_INT;
    }
    if (integers == AS_PIKA_1_3) {
        return is_long ? AMQPV_LONG_INT : number < 0 ? 'L' : AMQPV_LONG_LONG_INT;
    }
    if (integers == AS_PY_AMQP) {
        /* (by the tag l py-amqp and pika read a number without sign) */
        return is_long && number > INT32_MIN ? AMQPV_LONG_INT : 'L';
    }
    if (integers != SMALLEST) {
        return AMQPV_LONG_LONG_INT;
    }
    return number >= INT8_MIN && number <= INT8_MAX     ? AMQPV_SHORT_SHORT_INT
           : number >= INT16_MIN && number <= INT16_MAX ? AMQPV_SHORT_INT
           : number >= 0 && number <= UINT16_MAX        ? AMQPV_SHORT_UINT
           : is_long                                    ? AMQPV_LONG_INT
           : number >= 0 && number <= UINT32_MAX        ? AMQPV_LONG_UINT
                                                        : AMQPV_LONG_LONG_INT;
}

/* An integer by the place of its tag in INTEGER_TAGS, or one without class. */
static int put_integer(Writer *writer, const Place *place, PyObject *value, int at) {
    static const char *const RANGES[INTEGERS + 1] = {"a number from -128 to 127",
                                                     "a number from 0 to 255",
                                                     "a number from -32768 to 32767",
                                                     "a number from 0 to 65535",
                                                     "a number from -2147483648 to 2147483647",
                                                     "a number from 0 to 4294967295",
                                                     "a number from 0 to 18446744073709551615",
                                                     "a number from -9223372036854775808 to 9223372036854775807"};
    int overflows = 0, is_time = at == INTEGERS - 1;
    uint64_t bits =
        is_time ? PyLong_AsUnsignedLongLong(value) : (uint64_t)PyLong_AsLongLongAndOverflow(value, &overflows);
    if (overflows || (bits == UINT64_MAX && PyErr_Occurred())) {
        return out_of_range(writer, place, RANGES[at]);
    }
    uint8_t tag = at < INTEGERS ? (uint8_t)INTEGER_TAGS[at] : tag_of(writer->how->integers, (int64_t)bits);
    if (tag == 'L') {
        char encoding[9] = {'L'};
        for (int it = 0; it < 8; it++) {
            encoding[8 - it] = (char)(uint8_t)(bits >> 8 * it);
        }
        return put_encoded(writer, place, encoding, sizeof encoding);
    }
    return put(writer, place, tag, bits, 0, RANGES[at]);
}

static int put_any_integer(Writer *writer, const Place *place, PyObject *value) {
    const State *state = writer->state;
    int at = INTEGERS;
    if (PyType_IsSubtype(Py_TYPE(value), (PyTypeObject *)state->integer)) {
        for (at = 0; at < INTEGERS && !PyType_IsSubtype(Py_TYPE(value), (PyTypeObject *)state->integers[at]); at++) {
        }
    }
    return put_integer(writer, place, value, at);
}

static int put_float(Writer *writer, const Place *place, PyObject *value) {
    double wide = PyFloat_AsDouble(value);
    int is_nan = wide != wide, is_finite = wide - wide == 0;
    uint64_t bits;
    memcpy(&bits, &wide, sizeof bits);
    if (writer->how->is_finite && !is_finite) {
        raise_error(writer->state, "not finite", offset_in(writer, place), 0, "a finite number");
        return 0;
    }
    if (!PyType_IsSubtype(Py_TYPE(value), (PyTypeObject *)writer->state->of_float)) {
        return put(writer, place, AMQPV_DOUBLE, bits, 0, "");
    }
    if (is_nan) {
        /* its bits, which a conversion may change; a NaN of 64 bits may have none of them */
        uint64_t payload = bits >> 29 & 0x7fffff;
        return put(writer, place, AMQPV_FLOAT, bits >> 63 << 31 | 0x7f800000 | (payload ? payload : 0x400000), 0, "");
    }
    /* (from the middle between the largest number of 32 bits and 2^128 on a conversion would be undefined, or infinite) */
    if (is_finite && (wide >= 0x1.ffffffp+127 || wide <= -0x1.ffffffp+127)) {
        return out_of_range(writer, place, "a number of 32 bits");
    }
    float narrow = (float)wide;
    uint32_t narrow_bits;
    memcpy(&narrow_bits, &narrow, sizeof narrow_bits);
    return put(writer, place, AMQPV_FLOAT, narrow_bits, 0, "");
}

/* A number of some digits and an exponent, by which it is multiplied with a power of ten; -1 from `most` + 1 on. */
static long long number_of(PyObject *digits, long long exponent, long long most) {
    long long number = 0;
    Py_ssize_t count = PyTuple_Size(digits);
    for (Py_ssize_t at = 0; at < count; at++) {
        number = 10 * number + PyLong_AsLong(PyTuple_GetItem(digits, at));
        if (number < 0 || number > most) {
            return -1;
        }
    }
    for (; exponent > 0 && number > 0; exponent--) {
        number *= 10;
        if (number > most) {
            return -1;
        }
    }
    return number;
}

static int put_decimal(Writer *writer, const Place *place, PyObject *value) {
    int has_sign = writer->how->has_signed_decimals != 0, overflows = 0;
    const char *expected = has_sign
                               ? "a number from -2147483648 to 2147483647, with up to 255 digits of it after the point"
                               : "a number from 0 to 4294967295, with up to 255 digits of it after the point";
    PyObject *parts = PyObject_CallFunctionObjArgs(writer->state->as_tuple, value, NULL);
    if (parts == NULL) {
        raise_foreign(writer->state, offset_in(writer, place));
        return 0;
    }
    if (!PyTuple_Check(parts) || PyTuple_Size(parts) != 3 || !PyTuple_Check(PyTuple_GetItem(parts, 1))
        || !PyLong_Check(PyTuple_GetItem(parts, 2))) {
        /* (an infinity or a NaN, whose exponent is a letter) */
        Py_DECREF(parts);
        return out_of_range(writer, place, expected);
    }
    int is_negative = PyObject_IsTrue(PyTuple_GetItem(parts, 0));
    long long exponent = PyLong_AsLongLongAndOverflow(PyTuple_GetItem(parts, 2), &overflows);
    long long most = !has_sign ? UINT32_MAX : is_negative ? 1LL << 31 : INT32_MAX;
    long long number = number_of(PyTuple_GetItem(parts, 1), exponent, most);
    Py_DECREF(parts);
    if (PyErr_Occurred() || overflows || number < 0 || exponent < -255 || (is_negative && !has_sign)) {
        return out_of_range(writer, place, expected);
    }
    return put(writer, place, AMQPV_DECIMAL, (uint32_t)(is_negative ? -number : number),
               (uint8_t)(exponent < 0 ? -exponent : 0), expected);
}

static int put_datetime(Writer *writer, const Place *place, PyObject *value) {
    const State *state = writer->state;
    /* (first as what it is likely to be) */
    PyObject *delta = state->subtract(value, writer->how->has_naive_datetimes ? state->naive_epoch : state->epoch);
    if (delta == NULL && PyErr_ExceptionMatches(PyExc_TypeError)) {
        PyErr_Clear();
        PyObject *offset = PyObject_CallFunctionObjArgs(state->utc_offset, value, NULL);
        int is_naive = offset == Py_None;
        Py_XDECREF(offset);
        if (is_naive && !writer->how->has_naive_datetimes) {
            raise_error(state, "naive datetime", offset_in(writer, place), 0, "a datetime with a time zone");
            return 0;
        }
        delta = offset == NULL ? NULL : state->subtract(value, is_naive ? state->naive_epoch : state->epoch);
    }
    PyObject *days = delta != NULL ? PyObject_GetAttr(delta, state->days) : NULL;
    PyObject *seconds = days != NULL ? PyObject_GetAttr(delta, state->seconds) : NULL;
    long long number = seconds != NULL ? PyLong_AsLongLong(days) * 86400 + PyLong_AsLongLong(seconds) : 0;
    int is_known = seconds != NULL && !PyErr_Occurred();
    Py_XDECREF(delta);
    Py_XDECREF(days);
    Py_XDECREF(seconds);
    if (!is_known) {
        raise_foreign(state, offset_in(writer, place));
        return 0;
    }
    static const char expected[] = "a time from 1970 on";
    return number < 0 ? out_of_range(writer, place, expected)
                      : put(writer, place, AMQPV_TIMESTAMP, (uint64_t)number, 0, expected);
}

/* Bytes */

static int put_encoded(Writer *writer, const Place *place, const char *bytes, size_t length) {
    amqpv_input in = amqpv_value(bytes, length);
    amqpv_problem problem;
    amqpv_entry entry;
    in.max_bytes = UINT32_MAX;
    in.max_depth = place->levels;
    in.flags = writer->how->keys != STRICT ? AMQPV_ANY_KEYS : 0;
    amqpv_result result = amqpv_read(&in, &entry, &problem);
    if (result != AMQPV_OK) {
        raise_problem(writer->state, &in, offset_in(writer, place), result, &problem, "Encoded(b'F' + table)");
        return 0;
    }
    if (entry.value.length != length) {
        raise_error(writer->state, "trailing bytes", offset_in(writer, place) + entry.value.length, 0,
                    "the end of an encoded value");
        return 0;
    }
    return reserve(writer, place, length) && is_put(writer, place, amqpv_put_value(INTO, &in), LESS_THAN_4_GIB);
}

static int put_any_bytes(Writer *writer, const Place *place, PyObject *value) {
    const State *state = writer->state;
    char *bytes;
    Py_ssize_t length;
    PyObject *kept = PyBytes_Check(value) ? value : PyBytes_FromObject(value);
    int is_done = kept != NULL && PyBytes_AsStringAndSize(kept, &bytes, &length) == 0;
    if (!is_done) {
        /* (a memoryview that was released) */
        raise_foreign(state, offset_in(writer, place));
    } else if (PyType_IsSubtype(Py_TYPE(value), (PyTypeObject *)state->encoded)) {
        is_done = put_encoded(writer, place, bytes, (size_t)length);
    } else {
        int is_text = PyType_IsSubtype(Py_TYPE(value), (PyTypeObject *)state->long_string)
                      || (writer->how->has_text_of_bytes && PyBytes_Check(value));
        is_done = put_bytes(writer, place, is_text ? AMQPV_LONG_STRING : AMQPV_BYTE_ARRAY, bytes, length);
    }
    if (kept != value) {
        Py_XDECREF(kept);
    }
    return is_done;
}

/* Containers */

static int put_value(Writer *writer, const Place *place, PyObject *value);

static int changed(const Writer *writer, const Place *place) {
    raise_error(writer->state, "changed", offset_in(writer, place), 0,
                "a container that stays as it is while it is written");
    return 0;
}

/* Puts a value into an array; it keeps a reference meanwhile. */
static int put_item(Writer *writer, const Place *place, PyObject *value, Py_ssize_t at) {
    Py_INCREF(value);
    int is_done = put_value(writer, place, value);
    Py_DECREF(value);
    if (!is_done) {
        PyObject *type, *error, *trace;
        PyErr_Fetch(&type, &error, &trace);
        PyObject *index = PyLong_FromSsize_t(at);
        PyErr_Clear();
        PyErr_Restore(type, error, trace);
        if (index != NULL) {
            add_step(writer->state, index);
            Py_DECREF(index);
        }
    }
    return is_done;
}

/* Puts a pair into a table, unless `keys`, if there is a set, has its key. */
static int put_pair(Writer *writer, const Place *body, PyObject *key, PyObject *value, PyObject *keys) {
    Place place = *body;
    int is_done = 0;
    Py_INCREF(key);
    Py_INCREF(value);
    PyObject *kept =
        key_bytes(writer->state, writer->how->keys, key, offset_in(writer, body), &place.key, &place.length);
    if (kept != NULL && place.length > 255) {
        raise_error(writer->state, "key too long", offset_in(writer, body), 0, "at most 255 bytes");
    } else if (kept != NULL) {
        int is_new = 1;
        if (keys != NULL) {
            PyObject *bytes = PyBytes_FromStringAndSize(place.key, (Py_ssize_t)place.length);
            int has_it = bytes != NULL ? PySet_Contains(keys, bytes) : -1;
            if (has_it == 1) {
                raise_error(writer->state, "equal keys", offset_in(writer, body), 0, "each key once");
            }
            is_new = has_it == 0 && PySet_Add(keys, bytes) == 0;
            Py_XDECREF(bytes);
        }
        place.head = place.length + 1;
        is_done = is_new && put_value(writer, &place, value);
    }
    if (!is_done && PyErr_Occurred()) {
        add_step(writer->state, key);
    }
    Py_XDECREF(kept);
    Py_DECREF(key);
    Py_DECREF(value);
    return is_done;
}

/* Whether all keys of a dict are str, so that they differ in their bytes as well. */
static int has_plain_keys(PyObject *dict) {
    PyObject *key, *value;
    Py_ssize_t at = 0;
    while (PyDict_Next(dict, &at, &key, &value)) {
        if (!PyUnicode_CheckExact(key)) {
            return 0;
        }
    }
    return 1;
}

static int put_dict(Writer *writer, const Place *body, PyObject *dict, PyObject *keys) {
    PyObject *key, *value;
    Py_ssize_t at = 0, size = PyDict_Size(dict);
    while (PyDict_Next(dict, &at, &key, &value)) {
        if (!put_pair(writer, body, key, value, keys)) {
            return 0;
        }
        if (PyDict_Size(dict) != size) {
            return changed(writer, body);
        }
    }
    return 1;
}

/* Puts an item that a mapping has returned, if it is a pair. */
static int put_item_of_mapping(Writer *writer, const Place *body, PyObject *pair, PyObject *keys) {
    if (PyTuple_Check(pair) && PyTuple_Size(pair) == 2) {
        return put_pair(writer, body, PyTuple_GetItem(pair, 0), PyTuple_GetItem(pair, 1), keys);
    }
    raise_type(writer->state, "an item of a mapping is a tuple of a key and a value", pair);
    return 0;
}

static int put_mapping(Writer *writer, const Place *body, PyObject *mapping, PyObject *keys) {
    PyObject *items = PyObject_CallMethodObjArgs(mapping, writer->state->items, NULL), *pair;
    PyObject *each = items != NULL ? PyObject_GetIter(items) : NULL;
    int is_done = each != NULL;
    Py_XDECREF(items);
    while (is_done && (pair = PyIter_Next(each)) != NULL) {
        is_done = put_item_of_mapping(writer, body, pair, keys);
        Py_DECREF(pair);
    }
    Py_XDECREF(each);
    if (PyErr_Occurred()) {
        raise_foreign(writer->state, offset_in(writer, body));
        return 0;
    }
    return 1;
}

/* Puts the pairs of a mapping by their keys, which may be of one type only. */
static int put_ascending(Writer *writer, const Place *body, PyObject *mapping, PyObject *keys) {
    PyObject *pairs = PyMapping_Items(mapping);
    int is_done = pairs != NULL && PyList_Sort(pairs) == 0;
    if (!is_done) {
        raise_foreign(writer->state, offset_in(writer, body));
    }
    for (Py_ssize_t at = 0; is_done && at < PyList_Size(pairs); at++) {
        is_done = put_item_of_mapping(writer, body, PyList_GetItem(pairs, at), keys);
    }
    Py_XDECREF(pairs);
    return is_done;
}

static int put_list(Writer *writer, const Place *body, PyObject *list) {
    Py_ssize_t size = PyList_Size(list);
    for (Py_ssize_t at = 0; at < size; at++) {
        if (!put_item(writer, body, PyList_GetItem(list, at), at)) {
            return 0;
        }
        if (PyList_Size(list) != size) {
            return changed(writer, body);
        }
    }
    return 1;
}

static int put_tuple(Writer *writer, const Place *body, PyObject *tuple) {
    Py_ssize_t size = PyTuple_Size(tuple), at = 0;
    while (at < size && put_item(writer, body, PyTuple_GetItem(tuple, at), at)) {
        at++;
    }
    return at == size;
}

static int put_sequence(Writer *writer, const Place *body, PyObject *sequence) {
    PyObject *each = PyObject_GetIter(sequence), *value;
    Py_ssize_t at = 0;
    int is_done = each != NULL;
    while (is_done && (value = PyIter_Next(each)) != NULL) {
        is_done = put_item(writer, body, value, at++);
        Py_DECREF(value);
    }
    Py_XDECREF(each);
    if (PyErr_Occurred()) {
        raise_foreign(writer->state, offset_in(writer, body));
        return 0;
    }
    return 1;
}

/* Puts what is in a container; a set of keys is only needed where they may be equal in bytes. */
static int put_contents(Writer *writer, const Place *body, PyObject *value, int is_table) {
    if (!is_table) {
        return PyList_Check(value)    ? put_list(writer, body, value)
               : PyTuple_Check(value) ? put_tuple(writer, body, value)
                                      : put_sequence(writer, body, value);
    }
    int is_dict = PyDict_CheckExact(value), is_plain = is_dict && has_plain_keys(value);
    PyObject *keys = is_plain ? NULL : PySet_New(NULL);
    int is_done = (is_plain || keys != NULL)
                  && (writer->how->is_ascending ? put_ascending
                      : is_dict                 ? put_dict
                                                : put_mapping)(writer, body, value, keys);
    Py_XDECREF(keys);
    return is_done;
}

static int put_container(Writer *writer, const Place *place, PyObject *value, int is_table) {
    amqpv_container body;
    if (place->levels == 0) {
        raise_error(writer->state, "too deep", offset_in(writer, place), 0,
                    "containers nested at most %u deep, none in itself", (unsigned)writer->how->depth);
        return 0;
    }
    if (!reserve(writer, place, 0)) {
        return 0;
    }
    amqpv_result result = amqpv_open(INTO, is_table ? AMQPV_TABLE : AMQPV_ARRAY, &body);
    if (result == AMQPV_OK) {
        Place inside = {&body, "", 0, 0, place->levels - 1};
        if (!put_contents(writer, &inside, value, is_table)) {
            return 0;
        }
        result = amqpv_close(writer->buffer, writer->capacity, place->into, &body);
    }
    return is_put(writer, place, result, LESS_THAN_4_GIB);
}

/* Whether an object is of a class of abc; 0 with an exception too. */
static int is_abstract(const Writer *writer, const Place *place, PyObject *value, PyObject *abstract) {
    int is_it = PyObject_IsInstance(value, abstract);
    if (is_it < 0) {
        raise_foreign(writer->state, offset_in(writer, place));
    }
    return is_it == 1;
}

/* Puts a value of a type that isn't one of the usual ones. */
static int put_other(Writer *writer, const Place *place, PyObject *value) {
    const State *state = writer->state;
    PyTypeObject *type = Py_TYPE(value);
    if (PyUnicode_Check(value)) {
        return put_text(writer, place, value);
    }
    if (PyLong_Check(value)) {
        return put_any_integer(writer, place, value);
    }
    if (PyFloat_Check(value)) {
        return put_float(writer, place, value);
    }
    if (PyBytes_Check(value) || PyByteArray_Check(value) || PyMemoryView_Check(value)) {
        return put_any_bytes(writer, place, value);
    }
    if (PyType_IsSubtype(type, (PyTypeObject *)state->decimal)) {
        return put_decimal(writer, place, value);
    }
    if (PyType_IsSubtype(type, (PyTypeObject *)state->datetime)) {
        return put_datetime(writer, place, value);
    }
    if (PyDict_Check(value) || is_abstract(writer, place, value, state->mapping)) {
        return put_container(writer, place, value, 1);
    }
    if (!PyErr_Occurred()
        && (PyList_Check(value) || PyTuple_Check(value) || is_abstract(writer, place, value, state->sequence))) {
        return put_container(writer, place, value, 0);
    }
    if (!PyErr_Occurred()) {
        raise_unsupported(state, offset_in(writer, place), "a value of a type that AMQP has", value);
    }
    return 0;
}

static int put_value(Writer *writer, const Place *place, PyObject *value) {
    PyTypeObject *type = Py_TYPE(value);
    PyObject *others = writer->how->others;
    if (type == &PyUnicode_Type) {
        return put_text(writer, place, value);
    }
    if (type == &PyLong_Type) {
        return put_integer(writer, place, value, INTEGERS);
    }
    if (type == &PyDict_Type || type == &PyList_Type) {
        return put_container(writer, place, value, type == &PyDict_Type);
    }
    if (value == Py_None) {
        return put(writer, place, AMQPV_VOID, 0, 0, "");
    }
    if (value == Py_True || value == Py_False) {
        return put(writer, place, AMQPV_BOOLEAN, value == Py_True, 0, "");
    }
    if (type == &PyFloat_Type) {
        return put_float(writer, place, value);
    }
    if (others == NULL || type == &PyBytes_Type || type == (PyTypeObject *)writer->state->datetime) {
        return put_other(writer, place, value);
    }
    PyObject *sent = PyObject_CallFunctionObjArgs(others, value, NULL);
    if (sent == NULL) {
        raise_foreign(writer->state, offset_in(writer, place));
        return 0;
    }
    int is_done = put_other(writer, place, sent);
    Py_DECREF(sent);
    return is_done;
}

PyObject *written(const State *state, const Options *how, PyObject *value) {
    Writer writer;
    amqpv_container top = {0};
    Place place = {&top, "", 0, 0, how->depth};
    PyObject *made = NULL;
    top.tag = AMQPV_ARRAY;
    top.any_keys = how->keys != STRICT;
    writer.state = state;
    writer.how = how;
    writer.buffer = writer.small;
    writer.capacity = sizeof writer.small;
    int is_table = how->is_table && (PyDict_Check(value) || is_abstract(&writer, &place, value, state->mapping));
    if (how->is_table && !is_table && !PyErr_Occurred()) {
        raise_type(state, "a table is a mapping", value);
    }
    if (!PyErr_Occurred()
        && (is_table ? put_container(&writer, &place, value, 1) : put_value(&writer, &place, value))) {
        made = PyBytes_FromStringAndSize((const char *)writer.buffer + is_table, (Py_ssize_t)end_of(&top) - is_table);
    }
    if (writer.buffer != writer.small) {
        PyMem_Free(writer.buffer);
    }
    return made;
}
