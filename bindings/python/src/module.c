/* The module amqp_values._native: its functions, their arguments and options, and what it imports. */
#include "values.h"

#include <string.h>

static const char *const NOT_UTF8[] = {"strict", "bytes", "surrogateescape", NULL};
static const char *const EQUAL_KEYS[] = {"last", "first", "refuse", NULL};
static const char *const INTEGERS_OF[] = {"l", "pika", "pika 1.3", "py-amqp", "smallest", NULL};
/* Each option: which functions have it, where it is in Options, and what it may be: one of some words, a number up to another,
   an object, or true or false. */
static const struct {
    const char *name;
    int of;
    size_t at;
    const char *const *words;
    unsigned long long most;
    int is_object;
} OPTIONS[] = {
    {"keys", FOR_BOTH, offsetof(Options, keys), NOT_UTF8, 0, 0},
    {"text", FOR_BOTH, offsetof(Options, text), NOT_UTF8, 0, 0},
    {"plain", READ, offsetof(Options, is_plain), NULL, 0, 0},
    {"encoded", TABLE, offsetof(Options, is_encoded), NULL, 0, 0},
    {"equal_keys", READ, offsetof(Options, equal_keys), EQUAL_KEYS, 0, 0},
    {"signed_decimals", FOR_BOTH, offsetof(Options, has_signed_decimals), NULL, 0, 0},
    {"finite", FOR_BOTH, offsetof(Options, is_finite), NULL, 0, 0},
    {"depth", FOR_BOTH | JSON, offsetof(Options, depth), NULL, MOST_DEPTH, 0},
    {"max_bytes", READ | JSON, offsetof(Options, max_bytes), NULL, UINT32_MAX, 0},
    {"naive_datetimes", WRITE, offsetof(Options, has_naive_datetimes), NULL, 0, 0},
    {"integers", CLIENT, offsetof(Options, integers), INTEGERS_OF, 0, 0},
    {"ascending", CLIENT, offsetof(Options, is_ascending), NULL, 0, 0},
    {"bytes_are_text", CLIENT, offsetof(Options, has_text_of_bytes), NULL, 0, 0},
    {"bytearrays", CLIENT, offsetof(Options, has_bytearrays), NULL, 0, 0},
    {"short_decimals", CLIENT, offsetof(Options, has_short_decimals), NULL, 0, 0},
    {"aware_datetimes", CLIENT, offsetof(Options, has_aware_datetimes), NULL, 0, 0},
    {"milliseconds", CLIENT, offsetof(Options, has_milliseconds), NULL, 0, 0},
    {"others", CLIENT, offsetof(Options, others), NULL, 0, 1},
    {"table", FIND | JSON, offsetof(Options, is_table), NULL, 0, 0},
    {"canonical", TO_JSON, offsetof(Options, is_canonical), NULL, 0, 0},
    {"default", FIND, offsetof(Options, otherwise), NULL, 0, 1},
    {"offset", DECODE, offsetof(Options, offset), NULL, 0, 1},
};
/* The defaults of these. */
enum { DEFAULT_DEPTH = AMQPV_MAX_DEPTH, DEFAULT_MAX_BYTES = AMQPV_MAX_BYTES };

static State *state_of(PyObject *module) { return PyModule_GetState(module); }

/* An integer from 0 to another, whose option has a name. */
static int limit_of(const State *state, const char *name, PyObject *value, unsigned long long most,
                    unsigned long long *limit) {
    int overflows;
    PyObject *number = PyNumber_Index(value);
    if (number == NULL) {
        return 0;
    }
    long long found = PyLong_AsLongLongAndOverflow(number, &overflows);
    Py_DECREF(number);
    if (overflows || found < 0 || (unsigned long long)found > most) {
        raise_error(state, "bad option", 0, 0, "for %s a number from 0 to %llu", name, most);
        return 0;
    }
    *limit = (unsigned long long)found;
    return 1;
}

/* One of some words, by its place. */
static int word_of(const State *state, const char *name, PyObject *value, const char *const *words, uint32_t *at) {
    if (!PyUnicode_Check(value)) {
        raise_type(state, "an option is a str", value);
        return 0;
    }
    for (*at = 0; words[*at] != NULL; ++*at) {
        if (PyUnicode_CompareWithASCIIString(value, words[*at]) == 0) {
            return 1;
        }
    }
    raise_error(state, "bad option", 0, 0, "for %s one of the words that are documented, as \"%s\"", name, words[0]);
    return 0;
}

/* Takes an option by its place in OPTIONS. */
static int take_option(const State *state, size_t option, PyObject *value, Options *how) {
    const char *name = OPTIONS[option].name;
    unsigned long long limit = 0;
    uint32_t found = 0;
    if (OPTIONS[option].is_object) {
        memcpy((char *)how + OPTIONS[option].at, &value, sizeof value);
        return 1;
    }
    if (OPTIONS[option].words != NULL) {
        if (!word_of(state, name, value, OPTIONS[option].words, &found)) {
            return 0;
        }
    } else if (OPTIONS[option].most != 0) {
        if (!limit_of(state, name, value, OPTIONS[option].most, &limit)) {
            return 0;
        }
        found = (uint32_t)limit;
    } else {
        int truth = PyObject_IsTrue(value);
        if (truth < 0) {
            return 0;
        }
        found = (uint32_t)truth;
    }
    memcpy((char *)how + OPTIONS[option].at, &found, sizeof found);
    return 1;
}

int take_named(const State *state, const char *function, int of, PyObject *name, PyObject *value, Options *how) {
    size_t at = 0, all = sizeof OPTIONS / sizeof *OPTIONS;
    while (at < all && ((OPTIONS[at].of & of) == 0 || PyUnicode_CompareWithASCIIString(name, OPTIONS[at].name) != 0)) {
        at++;
    }
    if (at == all || (OPTIONS[at].of == DECODE && how->offset != NULL)) {
        PyErr_Format(PyExc_TypeError, "%s() got an unexpected keyword argument '%U'", function, name);
        return 0;
    }
    return take_option(state, at, value, how);
}

void take_defaults(Options *how) {
    how->depth = DEFAULT_DEPTH;
    how->max_bytes = DEFAULT_MAX_BYTES;
}

/* Takes the arguments of a function: how many there are, and its options. */
static int take(const State *state, const char *name, Py_ssize_t most, int of, PyObject *const *arguments,
                Py_ssize_t count, PyObject *names, Options *how) {
    Py_ssize_t named = names != NULL ? PyTuple_Size(names) : 0;
    take_defaults(how);
    if (count < 1 || count > most) {
        PyErr_Format(PyExc_TypeError, "%s() takes from 1 to %zd positional arguments, not %zd", name, most, count);
        return 0;
    }
    how->offset = count > 1 && (of & DECODE) != 0 ? arguments[1] : NULL;
    for (Py_ssize_t it = 0; it < named; it++) {
        if (!take_named(state, name, of, PyTuple_GetItem(names, it), arguments[count + it], how)) {
            return 0;
        }
    }
    return 1;
}

PyObject *begin_reading(Reader *reader, const State *state, const Options *how, PyObject *data) {
    char *content;
    Py_ssize_t count;
    PyObject *kept = NULL;
    if (PyBytes_Check(data)) {
        Py_INCREF(data);
        kept = data;
    } else if (PyByteArray_Check(data) || PyMemoryView_Check(data)) {
        kept = PyBytes_FromObject(data);
    } else {
        raise_type(state, "data is bytes, a bytearray or a memoryview", data);
    }
    if (kept != NULL && PyBytes_AsStringAndSize(kept, &content, &count) < 0) {
        Py_CLEAR(kept);
    }
    if (kept != NULL) {
        reader->state = state;
        reader->how = how;
        reader->base = 0;
        reader->in = how->is_table ? amqpv_table(content, (size_t)count) : amqpv_value(content, (size_t)count);
        reader->in.max_bytes = how->max_bytes;
        reader->in.max_depth = how->depth;
        reader->in.flags |= how->keys != STRICT ? AMQPV_ANY_KEYS : 0;
        reader->in.flags |= how->equal_keys == FIRST_OF_EQUAL_KEYS ? AMQPV_FIRST_KEY : 0;
    }
    return kept;
}

int move_to(Reader *reader, PyObject *offset) {
    unsigned long long before = 0;
    if (offset != NULL && !limit_of(reader->state, "offset", offset, reader->in.length, &before)) {
        return 0;
    }
    reader->base = (size_t)before;
    reader->in.bytes += reader->base;
    reader->in.length -= reader->base;
    return 1;
}

PyObject *documented(const State *state, PyObject *made) {
    if (made == NULL) {
        raise_foreign(state, 0);
    }
    return made;
}

/* The value that all of the bytes are. */
static int read_whole(const Reader *reader, amqpv_entry *entry) {
    if (!read_entry(reader, entry)) {
        return 0;
    }
    if (entry->value.length != reader->in.length) {
        raise_error(reader->state, "trailing bytes", entry->value.length, 0, "the end of the bytes");
        return 0;
    }
    return 1;
}

static PyObject *loads_by(PyObject *module, PyObject *const *arguments, Py_ssize_t count, PyObject *names,
                          int is_table) {
    const State *state = state_of(module);
    Options how = {.is_table = (uint32_t)is_table};
    Reader reader;
    PyObject *content = NULL, *made = NULL;
    amqpv_entry entry;
    int of = is_table ? READING | TABLE : READING;
    if (take(state, is_table ? "loads_table" : "loads", 1, of, arguments, count, names, &how)) {
        content = begin_reading(&reader, state, &how, arguments[0]);
    }
    if (content != NULL && read_whole(&reader, &entry)) {
        made = build(&reader, &entry);
    }
    Py_XDECREF(content);
    return documented(state, made);
}

static PyObject *loads(PyObject *module, PyObject *const *arguments, Py_ssize_t count, PyObject *names) {
    return loads_by(module, arguments, count, names, 0);
}

static PyObject *loads_table(PyObject *module, PyObject *const *arguments, Py_ssize_t count, PyObject *names) {
    return loads_by(module, arguments, count, names, 1);
}

static PyObject *decode_table(PyObject *module, PyObject *const *arguments, Py_ssize_t count, PyObject *names) {
    const State *state = state_of(module);
    Options how = {.is_table = 1};
    Reader reader;
    PyObject *content = NULL, *made = NULL;
    amqpv_entry entry;
    if (take(state, "decode_table", 2, READING | TABLE | DECODE, arguments, count, names, &how)) {
        content = begin_reading(&reader, state, &how, arguments[0]);
    }
    if (content != NULL && move_to(&reader, how.offset) && read_entry(&reader, &entry)) {
        made = build(&reader, &entry);
    }
    Py_XDECREF(content);
    return documented(state, made != NULL ? with_end(made, reader.base + entry.value.length) : NULL);
}

/* A step of a path; `kept` keeps its key. */
static int step_of(const State *state, const Options *how, PyObject *it, amqpv_step *step, PyObject **kept) {
    unsigned long long index = 0;
    memset(step, 0, sizeof *step);
    step->key = "";
    if (PyUnicode_Check(it) || PyBytes_Check(it)) {
        step->into = AMQPV_TABLE;
        *kept = key_bytes(state, how->keys, it, 0, &step->key, &step->key_length);
        return *kept != NULL;
    }
    step->into = AMQPV_ARRAY;
    if (!PyLong_Check(it)) {
        raise_type(state, "a step of a path is a str, bytes or an int", it);
        return 0;
    }
    if (!limit_of(state, "an index", it, PY_SSIZE_T_MAX, &index)) {
        return 0;
    }
    step->index = (size_t)index;
    return 1;
}

/* The value at a path, which is followed step by step, since a step needs no memory then. */
static PyObject *found_at(const Reader *reader, amqpv_entry *entry, PyObject *const *path, Py_ssize_t count) {
    for (Py_ssize_t it = 0; it < count; it++) {
        amqpv_entry next;
        amqpv_step step;
        PyObject *kept = NULL;
        if (!step_of(reader->state, reader->how, path[it], &step, &kept)) {
            return NULL;
        }
        amqpv_result result = amqpv_find(&reader->in, entry, &step, 1, &next);
        Py_XDECREF(kept);
        if (result != AMQPV_OK) {
            /* (the other steps are looked at too) */
            for (it++; it < count; it++) {
                kept = NULL;
                if (!step_of(reader->state, reader->how, path[it], &step, &kept)) {
                    return NULL;
                }
                Py_XDECREF(kept);
            }
            PyObject *otherwise = reader->how->otherwise != NULL ? reader->how->otherwise : Py_None;
            Py_INCREF(otherwise);
            return otherwise;
        }
        *entry = next;
    }
    return build(reader, entry);
}

static PyObject *find(PyObject *module, PyObject *const *arguments, Py_ssize_t count, PyObject *names) {
    const State *state = state_of(module);
    Options how = {.otherwise = NULL};
    Reader reader;
    PyObject *content = NULL, *made = NULL;
    amqpv_entry entry;
    if (take(state, "find", PY_SSIZE_T_MAX, READING | FIND, arguments, count, names, &how)) {
        content = begin_reading(&reader, state, &how, arguments[0]);
    }
    if (content != NULL) {
        /* (`keys` is about the value that is found, of which `build` checks them) */
        reader.in.flags |= AMQPV_ANY_KEYS;
        made = read_whole(&reader, &entry) ? found_at(&reader, &entry, arguments + 1, count - 1) : NULL;
    }
    Py_XDECREF(content);
    return documented(state, made);
}

static PyObject *dumps_by(PyObject *module, PyObject *const *arguments, Py_ssize_t count, PyObject *names,
                          int is_table) {
    const State *state = state_of(module);
    Options how = {.is_table = (uint32_t)is_table};
    PyObject *made = NULL;
    if (take(state, is_table ? "dumps_table" : "dumps", 1, WRITING, arguments, count, names, &how)) {
        made = written(state, &how, arguments[0]);
    }
    return documented(state, made);
}

static PyObject *dumps(PyObject *module, PyObject *const *arguments, Py_ssize_t count, PyObject *names) {
    return dumps_by(module, arguments, count, names, 0);
}

static PyObject *dumps_table(PyObject *module, PyObject *const *arguments, Py_ssize_t count, PyObject *names) {
    return dumps_by(module, arguments, count, names, 1);
}

static PyObject *to_json(PyObject *module, PyObject *const *arguments, Py_ssize_t count, PyObject *names) {
    const State *state = state_of(module);
    Options how = {.is_table = 0};
    Reader reader;
    PyObject *content = NULL, *made = NULL;
    amqpv_entry entry;
    if (take(state, "to_json", 1, JSON | TO_JSON, arguments, count, names, &how)) {
        content = begin_reading(&reader, state, &how, arguments[0]);
    }
    if (content != NULL && read_whole(&reader, &entry)) {
        made = json_of(&reader, &entry, how.is_canonical != 0);
    }
    Py_XDECREF(content);
    return documented(state, made);
}

static PyObject *from_json(PyObject *module, PyObject *const *arguments, Py_ssize_t count, PyObject *names) {
    const State *state = state_of(module);
    Options how = {.is_table = 0};
    PyObject *made = NULL;
    if (take(state, "from_json", 1, JSON, arguments, count, names, &how)) {
        made = encoding_of_json(state, &how, arguments[0]);
    }
    return documented(state, made);
}

#define READ_OPTIONS \
    "keys='strict', text='strict', plain=False, equal_keys='last', " OPTIONS_OF_BOTH ", max_bytes=1048576"
#define WRITE_OPTIONS "keys='strict', text='strict', naive_datetimes=False, " OPTIONS_OF_BOTH
#define OPTIONS_OF_BOTH "signed_decimals=False, finite=False, depth=32"
#define JSON_OPTIONS "table=False, depth=32, max_bytes=1048576"
#define CALL(name, how, doc) \
    { #name, (PyCFunction)(void (*)(void))name, METH_FASTCALL | METH_KEYWORDS, #name how "\n--\n\n" doc }

/* What help() says of the options, each with its default. */
#define HELP_READING \
    "\nOptions, by name:\n\n" \
    "    keys='strict'          a key that isn't UTF-8 raises an Error; 'bytes' makes it bytes, 'surrogateescape' a str\n" \
    "                           with surrogates, as in the names of files\n" \
    "    text='strict'          the same of a string, which 'bytes' makes a LongString\n" \
    "    plain=False            True for int, float, bytes, and a datetime in UTC for a Timestamp, not own classes\n" \
    "    equal_keys='last'      of equal keys in a table the last counts; 'first', or 'refuse', which raises an Error\n" \
    "    signed_decimals=False  True for decimals that pika or py-amqp wrote, of 32 bits with a sign\n" \
    "    finite=False           True raises an Error for infinities and NaNs, for which RabbitMQ closes the connection\n" \
    "    depth=32               how deep containers nest at most, up to MOST_DEPTH\n" \
    "    max_bytes=1048576      how many bytes the value has at most, the type tag of a table counted\n\n"
#define HELP_WRITING \
    "\nOptions, by name:\n\n" \
    "    keys='strict'          'bytes' allows keys of any bytes, 'surrogateescape' str with such surrogates\n" \
    "    text='strict'          'surrogateescape' allows str with such surrogates\n" \
    "    naive_datetimes=False  True writes a datetime without a time zone, as of UTC\n" \
    "    signed_decimals=False  True writes decimals of 32 bits with a sign, as pika and py-amqp do\n" \
    "    finite=False           True raises an Error for infinities and NaNs\n" \
    "    depth=32               how deep containers nest at most, up to MOST_DEPTH\n\n"
#define HELP_JSON \
    "\nOptions, by name:\n\n" \
    "    table=False            True for a table without its type tag\n" \
    "    canonical=False        True for keys that ascend, each once with its last value: equal values have equal texts\n" \
    "    depth=32               how deep containers nest at most, up to MOST_DEPTH; in a text brackets count, up to 127\n" \
    "    max_bytes=1048576      how many bytes the value has at most, the type tag of a table counted; a text has at most\n" \
    "                           12 times as many\n\n"

static PyMethodDef FUNCTIONS[] = {
    CALL(
        loads, "($module, data, /, *, " READ_OPTIONS ")",
        "Returns the value that the bytes encode, with its type tag. No byte may follow it.\n\n"
        "Raises an Error if the bytes aren't such a value, or if it is beyond the limits: `kind`, `offset` and `expected`\n"
        "say what is wrong and where, and `missing` how many more bytes the cut field needs, or 0 if more bytes can't help.\n"
        "Data that isn't bytes, a bytearray or a memoryview raises a TypeError.\n" HELP_READING
        ">>> loads(b'A\\0\\0\\0\\x0cI\\0\\0\\0\\5t\\1S\\0\\0\\0\\0')\n"
        "[LongInt(5), True, '']\n"),
    CALL(
        loads_table, "($module, data, /, *, encoded=False, " READ_OPTIONS ")",
        "Returns the dict that the bytes encode as a table without its type tag: its length, then its pairs. No byte may\n"
        "follow it. Errors and options are those of loads, and\n\n"
        "    encoded=False          True makes each value of the dict an Encoded, to be written as it is\n\n"
        ">>> loads_table(b'\\0\\0\\0\\4\\1at\\1')\n"
        "{'a': True}\n"
        ">>> loads_table(b'\\0\\0\\0\\4\\1\\xfft\\1', keys='bytes')\n"
        "{b'\\xff': True}\n"),
    CALL(
        decode_table, "($module, data, /, offset=0, *, encoded=False, " READ_OPTIONS ")",
        "Returns the table without its type tag that begins at an offset, and the offset of its end. Other bytes may\n"
        "follow. Errors and options are those of loads_table; the offset of an Error counts from the start of the data.\n\n"
        ">>> decode_table(b'..\\0\\0\\0\\4\\1at\\1..', 2)\n"
        "({'a': True}, 10)\n"),
    CALL(
        find, "($module, data, /, *path, table=False, default=None, " READ_OPTIONS ")",
        "Returns the value at a path: keys into tables, and indexes from 0 into arrays. Returns the default if the path\n"
        "leads nowhere.\n\n"
        "Only this value is built, and checked as loads checks it. Elsewhere in the data find checks type tags, lengths, depth\n"
        "and max_bytes, and with equal_keys='refuse' that no key repeats; keys and strings there may have any bytes, and\n"
        "numbers any value. So headers that an adapter delivers aren't rejected for what you don't ask for. The errors are\n"
        "those of loads.\n\n"
        "Options, by name, and those of loads, of which keys is also about the keys of the path:\n\n"
        "    table=False            True for a table without its type tag, as headers and arguments are\n"
        "    default=None           what is returned if the path leads nowhere\n\n"
        ">>> data = dumps_table({'x-death': [{'queue': 'orders', 'count': 3}]})\n"
        ">>> find(data, 'x-death', 0, 'queue', table=True)\n"
        "'orders'\n"
        ">>> find(data, 'x-death', 1, 'queue', table=True, default='nowhere')\n"
        "'nowhere'\n"),
    CALL(
        dumps, "($module, value, /, *, " WRITE_OPTIONS ")",
        "Returns the bytes of a value, with its type tag. The keys of a table keep their order.\n\n"
        "Raises an Error if the value can't be written: `kind` and `expected` say why, and `path` leads to what can't. Of an\n"
        "object whose type has no encoding it is an UnsupportedType, which is a TypeError too.\n" HELP_WRITING
        ">>> dumps([None, ShortInt(-2)])\n"
        "b'A\\x00\\x00\\x00\\x04Vs\\xff\\xfe'\n"),
    CALL(
        dumps_table, "($module, mapping, /, *, " WRITE_OPTIONS ")",
        "Returns the bytes of a table without its type tag, as methods and content headers have it: its length, then its\n"
        "pairs. Errors and options are those of dumps.\n\n"
        ">>> dumps_table({'a': True})\n"
        "b'\\x00\\x00\\x00\\x04\\x01at\\x01'\n"),
    CALL(
        to_json, "($module, data, /, *, canonical=False, " JSON_OPTIONS ")",
        "Returns the JSON of the value that the bytes encode, or with table=True of the table without its type tag. A\n"
        "type that plain JSON doesn't have is an object with one key. Errors are those of loads.\n\n"
        "Every pair of a table is written, in the order in which it is encoded. A key that comes again is written again: its\n"
        "last value counts, but some JSON parsers take the first, and strict ones reject the text.\n" HELP_JSON
        ">>> data = dumps_table({'b': b'\\1', 'a': [ShortInt(5), 5]})\n"
        ">>> to_json(data, table=True)\n"
        "'{\"b\":{\"$ByteArray\":\"01\"},\"a\":[{\"$ShortInt\":5},5]}'\n"
        ">>> to_json(data, table=True, canonical=True)\n"
        "'{\"a\":[{\"$ShortInt\":5},5],\"b\":{\"$ByteArray\":\"01\"}}'\n"),
    CALL(
        from_json, "($module, text, /, *, " JSON_OPTIONS ")",
        "Returns the encoding of the value that a JSON text means, with its type tag, or with table=True of a table\n"
        "without it. It is the canonical one, in which keys ascend. The bracket of a named value counts for the depth. The\n"
        "options are those of to_json without canonical.\n\n"
        "Raises an Error if the text isn't the JSON of a value or a table, or if that is beyond the limits. Its offset counts\n"
        "the characters of a str, or the bytes of any other text.\n\n"
        ">>> loads_table(from_json('{\"a\": {\"$ShortInt\": 5}}', table=True))\n"
        "{'a': ShortInt(5)}\n"),
    {NULL, NULL, 0, NULL}};

/* Imports an attribute of a module, or one of that. */
static PyObject *imported(const char *name, const char *attribute) {
    PyObject *module = PyImport_ImportModule(name);
    PyObject *found = module != NULL ? PyObject_GetAttrString(module, attribute) : NULL;
    Py_XDECREF(module);
    return found;
}

static int begin(PyObject *module) {
    static const char *const CLASSES[INTEGERS] = {"ShortShortInt", "ShortShortUInt", "ShortInt", "ShortUInt",
                                                  "LongInt",       "LongUInt",       "Timestamp"};
    static const char types[] = "amqp_values._types";
    State *state = state_of(module);
    for (int at = 0; at < INTEGERS; at++) {
        if ((state->integers[at] = imported(types, CLASSES[at])) == NULL) {
            return -1;
        }
    }
    if ((state->error = imported(types, "Error")) == NULL
        || (state->unsupported = imported(types, "UnsupportedType")) == NULL
        || (state->integer = imported(types, "_Integer")) == NULL
        || (state->of_float = imported(types, "Float")) == NULL
        || (state->long_string = imported(types, "LongString")) == NULL
        || (state->encoded = imported(types, "Encoded")) == NULL
        || (state->decimal = imported("decimal", "Decimal")) == NULL
        || (state->as_tuple = PyObject_GetAttrString(state->decimal, "as_tuple")) == NULL
        || (state->datetime = imported("datetime", "datetime")) == NULL
        || (state->utc_offset = PyObject_GetAttrString(state->datetime, "utcoffset")) == NULL
        || (state->timedelta = imported("datetime", "timedelta")) == NULL
        || (state->of_empty_key = imported(types, "_OF_EMPTY_KEY")) == NULL
        || (state->codec = codec_type(module)) == NULL
        || (state->mapping = imported("collections.abc", "Mapping")) == NULL
        || (state->sequence = imported("collections.abc", "Sequence")) == NULL
        || (state->items = PyUnicode_InternFromString("items")) == NULL
        || (state->days = PyUnicode_InternFromString("days")) == NULL
        || (state->seconds = PyUnicode_InternFromString("seconds")) == NULL
        || (state->path = PyUnicode_InternFromString("path")) == NULL
        || (state->name = PyUnicode_InternFromString("__name__")) == NULL
        || (state->raw = PyUnicode_InternFromString("raw")) == NULL
        || (state->refused = PyUnicode_InternFromString("refused")) == NULL
        || (state->relayed = PyUnicode_InternFromString("relayed")) == NULL
        || (state->unsent = PyUnicode_InternFromString("unsent")) == NULL
        || (state->no_text = PyUnicode_InternFromString("")) == NULL) {
        return -1;
    }
    PyObject *zone = imported("datetime", "timezone");
    state->utc = zone != NULL ? PyObject_GetAttrString(zone, "utc") : NULL;
    Py_XDECREF(zone);
    if (state->utc == NULL
        || (state->epoch = PyObject_CallMethod(state->datetime, "fromtimestamp", "iO", 0, state->utc)) == NULL
        || (state->naive_epoch = PyObject_CallFunction(state->datetime, "iii", 1970, 1, 1)) == NULL) {
        return -1;
    }
    state->new_error = (newfunc)(uintptr_t)PyType_GetSlot((PyTypeObject *)PyExc_ValueError, Py_tp_new);
    state->new_integer = (newfunc)(uintptr_t)PyType_GetSlot(&PyLong_Type, Py_tp_new);
    state->new_float = (newfunc)(uintptr_t)PyType_GetSlot(&PyFloat_Type, Py_tp_new);
    state->new_timedelta = (newfunc)(uintptr_t)PyType_GetSlot((PyTypeObject *)state->timedelta, Py_tp_new);
    state->add = (binaryfunc)(uintptr_t)PyType_GetSlot((PyTypeObject *)state->datetime, Py_nb_add);
    state->subtract = (binaryfunc)(uintptr_t)PyType_GetSlot((PyTypeObject *)state->datetime, Py_nb_subtract);
    if (state->new_error == NULL || state->new_integer == NULL || state->new_float == NULL
        || state->new_timedelta == NULL || state->add == NULL || state->subtract == NULL) {
        PyErr_SetString(PyExc_ImportError, "amqp_values needs the types of CPython");
        return -1;
    }
    return PyModule_AddObjectRef(module, "Codec", state->codec) < 0
                   || PyModule_AddIntConstant(module, "MOST_DEPTH", MOST_DEPTH) < 0
                   || PyModule_AddIntConstant(module, "DEPTH", DEFAULT_DEPTH) < 0
                   || PyModule_AddIntConstant(module, "MAX_BYTES", DEFAULT_MAX_BYTES) < 0
                   || PyModule_AddStringConstant(module, "__version__", AMQPV_VERSION) < 0
               ? -1
               : 0;
}

/* The objects of a state, one after another. */
static PyObject **objects_of(State *state, size_t *count) {
    *count = offsetof(State, new_error) / sizeof(PyObject *);
    return &state->error;
}

static int visit_state(PyObject *module, visitproc visit, void *arg) {
    State *state = state_of(module);
    size_t count = 0;
    PyObject **objects = state != NULL ? objects_of(state, &count) : NULL;
    for (size_t at = 0; at < count; at++) {
        Py_VISIT(objects[at]);
    }
    return 0;
}

static int clear_state(PyObject *module) {
    State *state = state_of(module);
    size_t count = 0;
    PyObject **objects = state != NULL ? objects_of(state, &count) : NULL;
    for (size_t at = 0; at < count; at++) {
        Py_CLEAR(objects[at]);
    }
    return 0;
}

static void free_state(void *module) { clear_state(module); }

static PyModuleDef_Slot SLOTS[] = {{Py_mod_exec, (void *)(uintptr_t)begin}, {0, NULL}};
static PyModuleDef MODULE = {.m_base = PyModuleDef_HEAD_INIT,
                             .m_name = "amqp_values._native",
                             .m_size = sizeof(State),
                             .m_methods = FUNCTIONS,
                             .m_slots = SLOTS,
                             .m_traverse = visit_state,
                             .m_clear = clear_state,
                             .m_free = free_state};

PyMODINIT_FUNC PyInit__native(void) { return PyModuleDef_Init(&MODULE); }
