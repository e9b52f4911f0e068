/* The type Codec, whose `read` and `write` adapters put in place of a client's own functions (adapters/shared.py). */
#include "values.h"

typedef struct {
    PyObject_HEAD
    const State *state;
    Options reading, writing;
    /* what is asked about errors, and about tables of the class `kept`, which have their bytes; a class of dict that tables are
       read as, or NULL; and what the options borrow */
    PyObject *owner, *kept, *made, *others;
    newfunc new_made;
} Codec;

/* What a method of the owner returns for the exception that was raised, and one or two objects more. */
static PyObject *by_owner(const Codec *codec, PyObject *method, PyObject *given, PyObject *offset) {
    PyObject *type, *error, *trace;
    PyErr_Fetch(&type, &error, &trace);
    PyErr_NormalizeException(&type, &error, &trace);
    PyObject *found = PyObject_CallMethodObjArgs(codec->owner, method, error, given, offset, NULL);
    Py_XDECREF(type);
    Py_XDECREF(error);
    Py_XDECREF(trace);
    return found;
}

/* A dict of the class that tables are read as, with the bytes that it is of. */
static PyObject *build_kept(const Codec *codec, const Reader *reader, const amqpv_entry *entry, PyObject *content) {
    PyObject *none = PyTuple_New(0);
    PyObject *table = none != NULL ? codec->new_made((PyTypeObject *)codec->made, none, NULL) : NULL;
    Py_XDECREF(none);
    table = table != NULL ? filled(reader, entry, table) : NULL;
    if (table == NULL) {
        return NULL;
    }
    Py_ssize_t length = (Py_ssize_t)entry->value.length;
    int is_all = PyBytes_CheckExact(content) && PyBytes_Size(content) == length;
    PyObject *raw = is_all ? content : PyBytes_FromStringAndSize((const char *)reader->in.bytes, length);
    if (raw == NULL || PyObject_SetAttr(table, codec->state->raw, raw) < 0) {
        Py_CLEAR(table);
    }
    if (!is_all) {
        Py_XDECREF(raw);
    }
    return table;
}

static PyObject *read_table(PyObject *self, PyObject *const *arguments, Py_ssize_t count) {
    const Codec *codec = (const Codec *)self;
    const State *state = codec->state;
    Reader reader;
    PyObject *made = NULL;
    amqpv_entry entry;
    if (count != 2) {
        PyErr_Format(PyExc_TypeError, "read() takes 2 positional arguments, not %zd", count);
        return NULL;
    }
    PyObject *content = begin_reading(&reader, state, &codec->reading, arguments[0]);
    if (content == NULL) {
        return documented(state, NULL);
    }
    if (move_to(&reader, arguments[1]) && read_entry(&reader, &entry)) {
        made = codec->made != NULL ? build_kept(codec, &reader, &entry, content) : build(&reader, &entry);
    }
    if (made != NULL) {
        made = with_end(made, reader.base + entry.value.length);
    } else if (documented(state, NULL) == NULL && PyErr_ExceptionMatches(state->error)) {
        made = by_owner(codec, state->refused, content, arguments[1]);
    }
    Py_DECREF(content);
    return made;
}

static PyObject *write_table(PyObject *self, PyObject *table) {
    const Codec *codec = (const Codec *)self;
    const State *state = codec->state;
    if (PyType_IsSubtype(Py_TYPE(table), (PyTypeObject *)codec->kept)) {
        PyObject *raw = PyObject_CallMethodObjArgs(codec->owner, state->relayed, table, NULL);
        if (raw != Py_None) {
            return raw;
        }
        Py_DECREF(raw);
    }
    PyObject *made = documented(state, written(state, &codec->writing, table));
    if (made == NULL && (PyErr_ExceptionMatches(state->error) || PyErr_ExceptionMatches(PyExc_TypeError))) {
        made = by_owner(codec, state->unsent, table, NULL);
    }
    return made;
}

/* Codec(owner, kept, made, /, **options): `made` is a class of dict, or None. */
static PyObject *new_codec(PyTypeObject *type, PyObject *arguments, PyObject *options) {
    const State *state = PyType_GetModuleState(type);
    Options how = {.is_table = 1, .is_plain = 1, .is_of_client = 1};
    PyObject *owner, *kept, *made, *name, *value;
    Py_ssize_t at = 0;
    take_defaults(&how);
    if (state == NULL || !PyArg_ParseTuple(arguments, "OO!O:Codec", &owner, &PyType_Type, &kept, &made)) {
        return NULL;
    }
    if (made != Py_None && (!PyType_Check(made) || !PyType_IsSubtype((PyTypeObject *)made, &PyDict_Type))) {
        raise_type(state, "tables are read as a class of dict", made);
        return NULL;
    }
    while (options != NULL && PyDict_Next(options, &at, &name, &value)) {
        if (!take_named(state, "Codec", ALL_OF_CLIENT, name, value, &how)) {
            return documented(state, NULL);
        }
    }
    Codec *codec = (Codec *)PyType_GenericAlloc(type, 0);
    if (codec != NULL) {
        how.others = how.others == Py_None ? NULL : how.others;
        codec->state = state;
        codec->reading = codec->writing = how;
        /* (what a client reads may be infinite, since others send that) */
        codec->reading.is_finite = 0;
        codec->owner = owner;
        codec->kept = kept;
        codec->made = made == Py_None ? NULL : made;
        codec->others = how.others;
        Py_INCREF(owner);
        Py_INCREF(kept);
        Py_XINCREF(codec->made);
        Py_XINCREF(codec->others);
        if (codec->made != NULL) {
            codec->new_made = (newfunc)(uintptr_t)PyType_GetSlot((PyTypeObject *)made, Py_tp_new);
        }
    }
    return (PyObject *)codec;
}

static int visit_codec(PyObject *self, visitproc visit, void *arg) {
    Codec *codec = (Codec *)self;
    Py_VISIT(Py_TYPE(self));
    Py_VISIT(codec->owner);
    Py_VISIT(codec->kept);
    Py_VISIT(codec->made);
    Py_VISIT(codec->others);
    return 0;
}

/* (the classes stay, since a method may still be called; no cycle is of them alone) */
static int clear_codec(PyObject *self) {
    Codec *codec = (Codec *)self;
    codec->reading.others = codec->writing.others = NULL;
    Py_CLEAR(codec->others);
    Py_CLEAR(codec->owner);
    return 0;
}

static void free_codec(PyObject *self) {
    Codec *codec = (Codec *)self;
    PyTypeObject *type = Py_TYPE(self);
    PyObject_GC_UnTrack(self);
    clear_codec(self);
    Py_CLEAR(codec->kept);
    Py_CLEAR(codec->made);
    PyObject_GC_Del(self);
    Py_DECREF(type);
}

PyObject *codec_type(PyObject *module) {
    static PyMethodDef methods[] = {
        {"read", (PyCFunction)(void (*)(void))read_table, METH_FASTCALL,
         "read($self, data, offset, /)\n--\n\nThe table without its type tag at an offset, and the offset of its end."},
        {"write", write_table, METH_O, "write($self, table, /)\n--\n\nThe bytes of a table without its type tag."},
        {NULL, NULL, 0, NULL}};
    static PyType_Slot slots[] = {
        {Py_tp_new, (void *)(uintptr_t)new_codec},        {Py_tp_methods, methods},
        {Py_tp_traverse, (void *)(uintptr_t)visit_codec}, {Py_tp_clear, (void *)(uintptr_t)clear_codec},
        {Py_tp_dealloc, (void *)(uintptr_t)free_codec},   {0, NULL}};
    static PyType_Spec spec = {"amqp_values._native.Codec", sizeof(Codec), 0, Py_TPFLAGS_DEFAULT | Py_TPFLAGS_HAVE_GC,
                               slots};
    return PyType_FromModuleAndSpec(module, &spec, NULL);
}
