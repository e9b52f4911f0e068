/* `read_entry` has the C API read a value, and `build` makes the Python object for it, as `loads` returns it. */
#include "values.h"

#include <stdio.h>
#include <string.h>

/* The last second of the year 9999. */
#define LAST_SECOND 253402300799ULL

PyObject *with_end(PyObject *made, size_t end) {
    PyObject *number = PyLong_FromSize_t(end);
    PyObject *both = number != NULL ? PyTuple_Pack(2, made, number) : NULL;
    Py_XDECREF(number);
    Py_DECREF(made);
    return both;
}

/* Adds a key to those of its table, unless that has it already: then an Error. */
static int add_key(const Reader *reader, amqpv_span span, PyObject *keys) {
    PyObject *key = PyBytes_FromStringAndSize((const char *)reader->in.bytes + span.offset, (Py_ssize_t)span.length);
    int has_it = key != NULL ? PySet_Contains(keys, key) : -1;
    if (has_it == 1) {
        raise_error(reader->state, "equal keys", reader->base + span.offset - 1, 0, "each key once");
    }
    int is_added = has_it == 0 && PySet_Add(keys, key) == 0;
    Py_XDECREF(key);
    return is_added;
}

/* Whether each table of a value, which was read, has each of its keys once; otherwise an Error at the first that comes again. */
static int has_each_key_once(const Reader *reader, const amqpv_entry *entry) {
    amqpv_cursor cursor;
    amqpv_entry it;
    if (entry->tag != AMQPV_ARRAY && entry->tag != AMQPV_TABLE) {
        return 1;
    }
    PyObject *keys = entry->tag == AMQPV_TABLE ? PySet_New(NULL) : NULL;
    int is_well = keys != NULL || entry->tag == AMQPV_ARRAY;
    amqpv_result result = is_well ? amqpv_enter(entry, &cursor) : AMQPV_NONE;
    while (is_well && result == AMQPV_OK && (result = amqpv_next(&reader->in, &cursor, &it)) == AMQPV_OK) {
        is_well = (keys == NULL || add_key(reader, it.key, keys)) && has_each_key_once(reader, &it);
    }
    Py_XDECREF(keys);
    return is_well;
}

int read_entry(const Reader *reader, amqpv_entry *entry) {
    amqpv_problem problem;
    amqpv_result result = amqpv_read(&reader->in, entry, &problem);
    if (result != AMQPV_OK) {
        raise_problem(reader->state, &reader->in, reader->base, result, &problem, "loads_table, or table=True");
        return 0;
    }
    return reader->how->equal_keys != REFUSE_EQUAL_KEYS || has_each_key_once(reader, entry);
}

/* Text, or what the option says of bytes that aren't UTF-8. */
static PyObject *build_text(const Reader *reader, amqpv_span span, uint32_t how, PyObject *of_bytes, const char *what,
                            size_t offset) {
    const char *text = (const char *)reader->in.bytes + span.offset;
    Py_ssize_t length = (Py_ssize_t)span.length;
    PyObject *made = PyUnicode_DecodeUTF8(text, length, how == ESCAPED ? "surrogateescape" : "strict");
    if (made != NULL || !PyErr_ExceptionMatches(PyExc_UnicodeDecodeError)) {
        return made;
    }
    PyErr_Clear();
    if (how == STRICT) {
        raise_error(reader->state, what, reader->base + offset, 0, "bytes in UTF-8");
        return NULL;
    }
    return of_bytes == NULL ? PyBytes_FromStringAndSize(text, length)
                            : PyObject_CallFunction(of_bytes, "y#", text, length);
}

/* An object of a class by the function that its type has for that, which leaves out the checks of the class. */
static PyObject *of_class(newfunc made_by, PyObject *class, PyObject *number) {
    PyObject *made = NULL, *arguments = number != NULL ? PyTuple_Pack(1, number) : NULL;
    if (arguments != NULL) {
        made = made_by((PyTypeObject *)class, arguments, NULL);
        Py_DECREF(arguments);
    }
    Py_XDECREF(number);
    return made;
}

static PyObject *build_decimal(const Reader *reader, const amqpv_entry *entry) {
    char text[40];
    long long number = reader->how->has_signed_decimals ? (int32_t)(uint32_t)entry->bits : (long long)entry->bits;
    unsigned scale = entry->scale;
    if (reader->how->has_short_decimals) {
        /* (without zeros at the end of the digits after the point) */
        for (; scale > 0 && number % 10 == 0; scale--) {
            number /= 10;
        }
    }
    snprintf(text, sizeof text, "%lldE-%u", number, scale);
    return PyObject_CallFunction(reader->state->decimal, "s", text);
}

/* A datetime in UTC, aware, or of a client as that has it: naive or aware, and from 2^32 on maybe of milliseconds. What is later
   than any datetime is a Timestamp then. */
static PyObject *build_timestamp(const Reader *reader, const amqpv_entry *entry) {
    const State *state = reader->state;
    int has_milliseconds = reader->how->has_milliseconds && entry->bits > UINT32_MAX;
    int is_late = (has_milliseconds ? entry->bits / 1000 : entry->bits) > LAST_SECOND;
    if (!reader->how->is_plain || (is_late && reader->how->is_of_client)) {
        return of_class(state->new_integer, state->integers[INTEGERS - 1], PyLong_FromUnsignedLongLong(entry->bits));
    }
    if (is_late) {
        raise_error(state, "out of range", reader->base + entry->value.offset, 0, "a time before the year 10000");
        return NULL;
    }
    if (has_milliseconds) {
        /* (as the client rounds them to microseconds) */
        return PyObject_CallMethod(state->datetime, "fromtimestamp", "dO", (double)entry->bits / 1000, state->utc);
    }
    int is_naive = reader->how->is_of_client && !reader->how->has_aware_datetimes;
    PyObject *parts = Py_BuildValue("(ii)", (int)(entry->bits / 86400), (int)(entry->bits % 86400));
    PyObject *since = parts != NULL ? state->new_timedelta((PyTypeObject *)state->timedelta, parts, NULL) : NULL;
    PyObject *time = since != NULL ? state->add(is_naive ? state->naive_epoch : state->epoch, since) : NULL;
    Py_XDECREF(parts);
    Py_XDECREF(since);
    return time;
}

static PyObject *build_bytes(const Reader *reader, const amqpv_entry *entry) {
    const char *bytes = (const char *)reader->in.bytes + entry->content.offset;
    Py_ssize_t length = (Py_ssize_t)entry->content.length;
    return reader->how->has_bytearrays ? PyByteArray_FromStringAndSize(bytes, length)
                                       : PyBytes_FromStringAndSize(bytes, length);
}

/* A Float, of which a NaN has its bits too, or a float. */
static PyObject *build_float(const Reader *reader, const amqpv_entry *entry) {
    double wide;
    if (entry->tag == AMQPV_FLOAT && (entry->bits & 0x7f800000) == 0x7f800000 && (entry->bits & 0x7fffff) != 0) {
        /* (what converts a NaN may change its bits) */
        uint64_t bits = (entry->bits >> 31) << 63 | (uint64_t)0x7ff << 52 | (entry->bits & 0x7fffff) << 29;
        memcpy(&wide, &bits, sizeof wide);
    } else if (amqpv_as_double(entry, &wide) != AMQPV_OK) {
        wide = 0;
    }
    if (reader->how->is_finite && !(wide - wide == 0)) {
        raise_error(reader->state, "not finite", reader->base + entry->value.offset, 0, "a finite number");
        return NULL;
    }
    PyObject *made = PyFloat_FromDouble(wide);
    int is_own = entry->tag == AMQPV_FLOAT && !reader->how->is_plain;
    return is_own ? of_class(reader->state->new_float, reader->state->of_float, made) : made;
}

/* A container to whose end the entries were read, as they are of bytes that were checked. */
static PyObject *whole(const Reader *reader, PyObject *container, amqpv_result result) {
    if (container != NULL && result != AMQPV_NONE) {
        Py_CLEAR(container);
        raise_error(reader->state, "cut", reader->base, 0, "a whole value");
    }
    return container;
}

static PyObject *build_array(const Reader *reader, const amqpv_entry *entry) {
    amqpv_cursor cursor;
    amqpv_entry it;
    PyObject *list = PyList_New(0);
    amqpv_result result = list == NULL ? AMQPV_NONE : amqpv_enter(entry, &cursor);
    while (result == AMQPV_OK && (result = amqpv_next(&reader->in, &cursor, &it)) == AMQPV_OK) {
        PyObject *value = build(reader, &it);
        int is_put = value != NULL && PyList_Append(list, value) == 0;
        Py_XDECREF(value);
        if (!is_put) {
            Py_CLEAR(list);
            result = AMQPV_NONE;
        }
    }
    return whole(reader, list, result);
}

/* The object for the value of a pair; or an Encoded, if the option asks for it, which only the outermost table has. */
static PyObject *build_value(const Reader *reader, const amqpv_entry *entry) {
    amqpv_input it = amqpv_of(&reader->in, entry);
    return !reader->how->is_encoded
               ? build(reader, entry)
               : PyObject_CallFunction(reader->state->encoded, "y#", it.bytes, (Py_ssize_t)it.length);
}

static int build_pair(const Reader *reader, const amqpv_entry *entry, PyObject *table) {
    const Options *how = reader->how;
    PyObject *key = build_text(reader, entry->key, how->keys, NULL, "key not UTF-8", entry->key.offset - 1);
    PyObject *value = key != NULL ? build_value(reader, entry) : NULL;
    int is_put = value != NULL;
    if (is_put && how->equal_keys == FIRST_OF_EQUAL_KEYS) {
        int has_it = PyDict_Contains(table, key);
        is_put = has_it == 1 || (has_it == 0 && PyDict_SetItem(table, key, value) == 0);
    } else if (is_put) {
        is_put = PyDict_SetItem(table, key, value) == 0;
    }
    Py_XDECREF(value);
    Py_XDECREF(key);
    return is_put;
}

/* Whether the only key of a table is empty, and its entry. */
static int is_of_empty_key(const Reader *reader, const amqpv_entry *entry, amqpv_entry *it) {
    amqpv_cursor cursor;
    return entry->content.length > 1 && reader->in.bytes[entry->content.offset] == 0
           && amqpv_enter(entry, &cursor) == AMQPV_OK && amqpv_next(&reader->in, &cursor, it) == AMQPV_OK
           && cursor.left.length == 0;
}

/* A table whose only key is empty: in itself it has a level in six bytes, of which a dict with keys of its own has 184. */
static PyObject *build_of_empty_key(const Reader *reader, const amqpv_entry *it) {
    PyObject *value = build_value(reader, it);
    PyObject *table = value != NULL ? PyDict_Copy(reader->state->of_empty_key) : NULL;
    if (table != NULL && PyDict_SetItem(table, reader->state->no_text, value) < 0) {
        Py_CLEAR(table);
    }
    Py_XDECREF(value);
    return table;
}

static PyObject *build_table(const Reader *reader, const amqpv_entry *entry) {
    amqpv_entry it;
    return is_of_empty_key(reader, entry, &it) ? build_of_empty_key(reader, &it) : filled(reader, entry, PyDict_New());
}

PyObject *filled(const Reader *reader, const amqpv_entry *entry, PyObject *table) {
    amqpv_cursor cursor;
    amqpv_entry it;
    amqpv_result result = table == NULL ? AMQPV_NONE : amqpv_enter(entry, &cursor);
    while (result == AMQPV_OK && (result = amqpv_next(&reader->in, &cursor, &it)) == AMQPV_OK) {
        if (!build_pair(reader, &it, table)) {
            Py_CLEAR(table);
            result = AMQPV_NONE;
        }
    }
    return whole(reader, table, result);
}

PyObject *build(const Reader *reader, const amqpv_entry *entry) {
    const State *state = reader->state;
    PyObject *number;
    switch (entry->tag) {
    case AMQPV_BOOLEAN: return PyBool_FromLong(entry->bits != 0);
    case AMQPV_LONG_LONG_INT: return PyLong_FromLongLong((int64_t)entry->bits);
    case AMQPV_FLOAT:
    case AMQPV_DOUBLE: return build_float(reader, entry);
    case AMQPV_DECIMAL: return build_decimal(reader, entry);
    case AMQPV_LONG_STRING:
        return build_text(reader, entry->content, reader->how->text, reader->how->is_plain ? NULL : state->long_string,
                          "text not UTF-8", entry->value.offset);
    case AMQPV_BYTE_ARRAY: return build_bytes(reader, entry);
    case AMQPV_ARRAY: return build_array(reader, entry);
    case AMQPV_TABLE: return build_table(reader, entry);
    case AMQPV_TIMESTAMP: return build_timestamp(reader, entry);
    case AMQPV_VOID: Py_RETURN_NONE;
    default: break;
    }
    number = PyLong_FromLongLong((int64_t)entry->bits);
    const char *at = memchr(INTEGER_TAGS, entry->tag, INTEGERS);
    if (at == NULL || reader->how->is_plain) {
        return number;
    }
    return of_class(state->new_integer, state->integers[at - INTEGER_TAGS], number);
}
