/* Raises the extension's exceptions: `raise_error` and others an Error, with its text, and `raise_type` a TypeError. */
#include "values.h"

#include <string.h>

/* Raises an Error of a class, with a reason unless that is NULL. It takes the reference to the text of what was expected, which may
   be NULL after an exception. */
static void raise_of(const State *state, PyObject *class, const char *kind, size_t offset, size_t missing,
                     PyObject *expected, const char *reason) {
    if (expected == NULL) {
        return;
    }
    /* (without a call of Python's, for which the stack may be too deep) */
    static const char *const NAMES[] = {"kind", "offset", "expected", "missing"};
    PyObject *parts = Py_BuildValue("(snNn)", kind, (Py_ssize_t)offset, expected, (Py_ssize_t)missing);
    PyObject *error = parts != NULL ? state->new_error((PyTypeObject *)class, parts, NULL) : NULL;
    int is_made = error != NULL;
    for (Py_ssize_t at = 0; is_made && at < 4; at++) {
        is_made = PyObject_SetAttrString(error, NAMES[at], PyTuple_GetItem(parts, at)) == 0;
    }
    if (is_made && reason != NULL) {
        PyObject *text = PyUnicode_FromString(reason);
        is_made = text != NULL && PyObject_SetAttrString(error, "reason", text) == 0;
        Py_XDECREF(text);
    }
    if (is_made) {
        PyErr_SetObject(class, error);
    }
    Py_XDECREF(error);
    Py_XDECREF(parts);
}

void raise_error(const State *state, const char *kind, size_t offset, size_t missing, const char *format, ...) {
    va_list words;
    va_start(words, format);
    raise_of(state, state->error, kind, offset, missing, PyUnicode_FromFormatV(format, words), NULL);
    va_end(words);
}

void raise_reason(const State *state, const char *kind, size_t offset, const char *expected, const char *reason) {
    raise_of(state, state->error, kind, offset, 0, PyUnicode_FromString(expected), reason);
}

/* "WHAT, not TYPE", by the type of an object, unless a metaclass hides its name. */
static PyObject *with_type(const State *state, const char *what, PyObject *object) {
    PyObject *name = PyObject_GetAttr((PyObject *)Py_TYPE(object), state->name);
    int is_text = name != NULL && PyUnicode_Check(name);
    PyErr_Clear();
    PyObject *text = is_text ? PyUnicode_FromFormat("%s, not %U", what, name) : PyUnicode_FromString(what);
    Py_XDECREF(name);
    return text;
}

void raise_unsupported(const State *state, size_t offset, const char *what, PyObject *object) {
    raise_of(state, state->unsupported, "unsupported type", offset, 0, with_type(state, what, object), NULL);
}

void raise_foreign(const State *state, size_t offset) {
    if (!PyErr_ExceptionMatches(PyExc_Exception) || PyErr_ExceptionMatches(PyExc_TypeError)
        || PyErr_ExceptionMatches(PyExc_MemoryError) || PyErr_ExceptionMatches(state->error)) {
        return;
    }
    PyObject *type, *raised, *trace;
    PyErr_Fetch(&type, &raised, &trace);
    PyErr_NormalizeException(&type, &raised, &trace);
    if (trace != NULL) {
        PyException_SetTraceback(raised, trace);
    }
    raise_error(state, "raised", offset, 0, "an object whose own methods raise nothing");
    PyObject *error_type, *error, *error_trace;
    PyErr_Fetch(&error_type, &error, &error_trace);
    PyErr_NormalizeException(&error_type, &error, &error_trace);
    if (error != NULL && PyObject_IsInstance(error, state->error) == 1) {
        /* (both take the reference) */
        Py_INCREF(raised);
        PyException_SetContext(error, raised);
        PyException_SetCause(error, raised);
        raised = NULL;
    }
    PyErr_Restore(error_type, error, error_trace);
    Py_XDECREF(type);
    Py_XDECREF(raised);
    Py_XDECREF(trace);
}

void add_step(const State *state, PyObject *step) {
    PyObject *type, *error, *trace;
    if (!PyErr_ExceptionMatches(state->error)) {
        return;
    }
    PyErr_Fetch(&type, &error, &trace);
    PyErr_NormalizeException(&type, &error, &trace);
    /* (plain, since a subclass of str may have methods of its own) */
    PyObject *plain = PyUnicode_Check(step) ? PyUnicode_FromObject(step)
                      : PyBytes_Check(step) ? PyBytes_FromObject(step)
                                            : NULL;
    if (plain == NULL && !PyUnicode_Check(step) && !PyBytes_Check(step)) {
        Py_INCREF(step);
        plain = step;
    }
    PyObject *path = PyObject_GetAttr(error, state->path);
    PyObject *longer = plain != NULL && path != NULL ? Py_BuildValue("(O)", plain) : NULL;
    PyObject *whole = longer != NULL ? PySequence_Concat(longer, path) : NULL;
    if (whole == NULL || PyObject_SetAttr(error, state->path, whole) < 0) {
        /* out of memory, so that the path ends here */
        PyErr_Clear();
    }
    Py_XDECREF(whole);
    Py_XDECREF(longer);
    Py_XDECREF(path);
    Py_XDECREF(plain);
    PyErr_Restore(type, error, trace);
}

void raise_type(const State *state, const char *what, PyObject *object) {
    PyObject *text = with_type(state, what, object);
    if (text != NULL) {
        PyErr_SetObject(PyExc_TypeError, text);
        Py_DECREF(text);
    }
}

/* Asks whether an input that doesn't begin as it should is of another form, and says what reads that. (`without_tag` says it of a
   table without its type tag.) */
static const char *other_form(const amqpv_input *in) {
    static const char DIGITS[] = "0123456789abcdefABCDEF";
    int is_table = (in->flags & AMQPV_UNTAGGED) != 0, first = in->length > 0 ? in->bytes[0] : -1;
    if (in->length > 1 && memchr(DIGITS, first, 22) != NULL && memchr(DIGITS, in->bytes[1], 22) != NULL) {
        return ": is this hexadecimal text? bytes.fromhex reads it";
    }
    if (first == '{' || first == '[') {
        return ": is this JSON? from_json reads it";
    }
    if (is_table) {
        return first == AMQPV_TABLE ? ": is this a table with its type tag? loads, or table=False" : "";
    }
    return first == 0 ? ": is this a table without its type tag? " : "";
}

/* Of a table without its type tag the error has the length, which other bytes may have been taken for. */
static void raise_too_large(const State *state, const amqpv_input *in, size_t offset) {
    unsigned most = (unsigned)in->max_bytes, length = 0;
    if ((in->flags & AMQPV_UNTAGGED) == 0) {
        raise_error(state, "too large", offset, 0, "at most %u bytes, the type tag counted", most);
        return;
    }
    for (size_t at = 0; at < 4 && at < in->length; at++) {
        length = length << 8 | in->bytes[at];
    }
    raise_error(state, "too large", offset, 0,
                "at most %u bytes, the type tag counted, but the first four are the length %u%s", most, length,
                other_form(in));
}

void raise_problem(const State *state, const amqpv_input *in, size_t base, amqpv_result result,
                   const amqpv_problem *problem, const char *without_tag) {
    size_t offset = base + problem->offset, missing = problem->missing;
    int is_first = problem->offset == 0;
    switch (result) {
    case AMQPV_MORE:
        raise_error(state, "cut", offset, missing, "%zu more byte%s", missing, missing == 1 ? "" : "s");
        break;
    case AMQPV_UNKNOWN_TAG:
        raise_error(state, "unknown tag", offset, 0, "one of the type tags tbBsUuIilLfdDSxAFTV, not byte %d%s%s",
                    problem->tag, is_first ? other_form(in) : "", is_first && problem->tag == 0 ? without_tag : "");
        break;
    case AMQPV_KEY_CUT: raise_error(state, "key cut", offset, 0, "a whole key inside its table"); break;
    case AMQPV_KEY_NOT_UTF8: raise_error(state, "key not UTF-8", offset, 0, "bytes in UTF-8"); break;
    case AMQPV_TOO_DEEP:
        raise_error(state, "too deep", offset, 0, "containers nested at most %u deep", (unsigned)in->max_depth);
        break;
    case AMQPV_TOO_LARGE: raise_too_large(state, in, offset); break;
    default: raise_error(state, "cut", offset, 0, "a whole value inside its container");
    }
}
