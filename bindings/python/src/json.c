/* `json_of` makes JSON of a value that was read, and `encoding_of_json` makes the encoding of a JSON text. */
#include "values.h"

/* How many bytes the JSON of a value has at most for each byte of its encoding. */
enum { JSON_FOR_A_BYTE = 12 };
/* How deep amqpv_from_json lets brackets nest at most. */
enum { MOST_BRACKETS = 127 };

/* A buffer that a call writes to; it is called again if it needs more room. */
typedef struct {
    char *bytes;
    size_t capacity, length;
} Buffer;

static int grow(Buffer *buffer, size_t capacity) {
    char *grown = PyMem_Realloc(buffer->bytes, capacity);
    if (grown != NULL) {
        buffer->bytes = grown;
        buffer->capacity = capacity;
    }
    return grown != NULL;
}

/* Puts the JSON of what was read into a buffer. */
static amqpv_result put_json(const amqpv_input *in, Buffer *text) {
    amqpv_result result = AMQPV_NO_ROOM;
    /* (most values have no longer text) */
    text->length = 3 * in->length + 64;
    for (int tries = 0; tries < 2 && result == AMQPV_NO_ROOM && grow(text, text->length + 1); tries++) {
        result = amqpv_to_json(in, text->bytes, text->capacity, &text->length);
    }
    return result;
}

PyObject *json_of(const Reader *reader, const amqpv_entry *entry, int is_canonical) {
    Buffer encoding = {NULL, 0, 0}, text = {NULL, 0, 0};
    amqpv_input in = reader->in;
    amqpv_result result = AMQPV_OK;
    if (is_canonical) {
        /* (no canonical encoding is longer than another of the value) */
        result = AMQPV_NO_MEMORY;
        if (grow(&encoding, entry->value.length)) {
            result = amqpv_canonical(&in, (uint8_t *)encoding.bytes, encoding.capacity, &encoding.length);
        }
        in.bytes = (const uint8_t *)encoding.bytes, in.length = encoding.length;
    }
    if (result == AMQPV_OK) {
        result = put_json(&in, &text);
    }
    PyMem_Free(encoding.bytes);
    /* (the value was read, so that only memory may be missing) */
    PyObject *made =
        result == AMQPV_OK ? PyUnicode_DecodeUTF8(text.bytes, (Py_ssize_t)text.length, "strict") : PyErr_NoMemory();
    PyMem_Free(text.bytes);
    return made;
}

/* Raises that a str has a surrogate, which has no UTF-8, instead of the UnicodeEncodeError. */
static void raise_surrogate(const State *state) {
    PyObject *type, *error, *trace;
    Py_ssize_t at = 0;
    PyErr_Fetch(&type, &error, &trace);
    PyErr_NormalizeException(&type, &error, &trace);
    if (error == NULL || PyUnicodeEncodeError_GetStart(error, &at) < 0) {
        PyErr_Clear();
    }
    Py_XDECREF(type);
    Py_XDECREF(error);
    Py_XDECREF(trace);
    raise_error(state, "lone surrogate", (size_t)at, 0, "text without surrogates, which have no UTF-8");
}

/* The bytes of a text, which the object that is returned keeps. */
static PyObject *text_of(const State *state, PyObject *text, const char **bytes, size_t *length) {
    Py_ssize_t count = 0;
    char *content = NULL;
    PyObject *kept = NULL;
    if (PyUnicode_Check(text)) {
        *bytes = PyUnicode_AsUTF8AndSize(text, &count);
        if (*bytes == NULL && PyErr_ExceptionMatches(PyExc_UnicodeEncodeError)) {
            raise_surrogate(state);
        }
        kept = *bytes != NULL ? text : NULL;
        Py_XINCREF(kept);
    } else if (PyBytes_Check(text) || PyByteArray_Check(text) || PyMemoryView_Check(text)) {
        /* (of a copy nothing changes while it is read) */
        kept = PyBytes_Check(text) ? text : PyBytes_FromObject(text);
        if (kept == text) {
            Py_INCREF(kept);
        }
        if (kept != NULL && PyBytes_AsStringAndSize(kept, &content, &count) < 0) {
            Py_CLEAR(kept);
        }
        *bytes = content;
    } else {
        raise_type(state, "JSON is a str, bytes, a bytearray or a memoryview", text);
    }
    *length = (size_t)count;
    return kept;
}

/* How many characters of a str, or else bytes, are before an offset in the bytes. */
static size_t offset_in(PyObject *text, const char *bytes, size_t offset) {
    size_t count = 0;
    for (size_t at = 0; at < offset; at++) {
        count += !PyUnicode_Check(text) || ((unsigned char)bytes[at] & 0xc0) != 0x80;
    }
    return count;
}

static void raise_wrong_text(const State *state, const Options *how, amqpv_result result, size_t offset,
                             uint8_t reason) {
    const char *why = amqpv_reason_text(reason);
    switch (result) {
    case AMQPV_NOT_JSON: raise_reason(state, "not JSON", offset, "a JSON text", why); break;
    case AMQPV_NOT_A_VALUE: raise_reason(state, "not a value", offset, "the JSON of a value", why); break;
    case AMQPV_NOT_UTF8: raise_error(state, "text not UTF-8", offset, 0, "bytes in UTF-8"); break;
    case AMQPV_TOO_DEEP:
        raise_error(state, "too deep", offset, 0, "brackets nested at most %u deep",
                    (unsigned)(how->depth < MOST_BRACKETS ? how->depth : MOST_BRACKETS));
        break;
    case AMQPV_NO_ENCODING: raise_error(state, "too large", 0, 0, "less than 4 GiB"); break;
    default: PyErr_NoMemory();
    }
}

/* The encoding that was written, or what the options refuse of it; `offset` is where the text's value begins. */
static PyObject *taken(const State *state, const Options *how, const Buffer *buffer, size_t offset) {
    if (buffer->length > how->max_bytes) {
        raise_error(state, "too large", 0, 0, "at most %u bytes, the type tag counted", (unsigned)how->max_bytes);
        return NULL;
    }
    if (how->is_table && buffer->bytes[0] != AMQPV_TABLE) {
        raise_error(state, "not a table", offset, 0, "an object that is a table");
        return NULL;
    }
    return PyBytes_FromStringAndSize(buffer->bytes + how->is_table, (Py_ssize_t)(buffer->length - how->is_table));
}

PyObject *encoding_of_json(const State *state, const Options *how, PyObject *text) {
    const char *bytes = NULL;
    size_t length = 0, blank = 0;
    Buffer buffer = {NULL, 0, 0};
    amqpv_problem problem = {0, 0, 0, 0};
    PyObject *made = NULL, *kept = text_of(state, text, &bytes, &length);
    if (kept == NULL) {
        return NULL;
    }
    unsigned long long most = (unsigned long long)how->max_bytes * JSON_FOR_A_BYTE;
    if (length > most) {
        raise_error(state, "too large", 0, 0, "at most %llu bytes of text", most);
        Py_DECREF(kept);
        return NULL;
    }
    buffer.length = length + 64;
    amqpv_result result = AMQPV_NO_ROOM;
    for (int tries = 0; tries < 2 && result == AMQPV_NO_ROOM && grow(&buffer, buffer.length + 1); tries++) {
        result = amqpv_from_json(bytes, length, how->depth, (uint8_t *)buffer.bytes, buffer.capacity, &buffer.length,
                                 &problem);
    }
    if (result == AMQPV_OK) {
        for (; blank < length && (bytes[blank] == ' ' || (bytes[blank] >= '\t' && bytes[blank] <= '\r')); blank++) {
        }
        made = taken(state, how, &buffer, blank);
    } else {
        raise_wrong_text(state, how, result, offset_in(text, bytes, problem.offset), problem.reason);
    }
    PyMem_Free(buffer.bytes);
    Py_DECREF(kept);
    return made;
}
