/* What the C files of the extension share: State, Options, Reader, and the functions that one file calls in another. */
#ifndef VALUES_H
#define VALUES_H

#define PY_SSIZE_T_CLEAN
#define Py_LIMITED_API 0x030a0000
#include <Python.h>

#include <amqp_values.h>

/* How deep values nest at most, whatever an option asks for: the stack of a thread of 512 KiB is enough. */
enum { MOST_DEPTH = 512 };

/* The type tags of the classes that are integers, in the order of State.integers. */
#define INTEGER_TAGS "bBsuIiT"
enum { INTEGERS = 7 };

/* What the module has imported: of each interpreter its own. */
typedef struct {
    PyObject *error, *unsupported, *integer, *integers[INTEGERS], *of_float, *long_string, *encoded;
    PyObject *decimal, *as_tuple, *datetime, *utc, *utc_offset, *epoch, *naive_epoch, *timedelta;
    PyObject *mapping, *sequence;
    /* a dict whose only key is empty: CPython has the keys of its copies once */
    PyObject *of_empty_key;
    /* the type that adapters read and write by */
    PyObject *codec;
    /* names of attributes, of which each is one object */
    PyObject *items, *days, *seconds, *path, *name, *raw, *refused, *relayed, *unsent, *no_text;
    newfunc new_error, new_integer, new_float, new_timedelta;
    binaryfunc add, subtract;
} State;

/* What becomes of keys and text that aren't UTF-8. */
enum { STRICT = 0, AS_BYTES = 1, ESCAPED = 2 };

/* Of a table with equal keys the last counts, or the first, or there is an Error. */
enum { LAST_OF_EQUAL_KEYS = 0, FIRST_OF_EQUAL_KEYS = 1, REFUSE_EQUAL_KEYS = 2 };

/* The type of an int that has no class of this package: l; or, as a client writes it, I where that has the number, and otherwise
   l (AS_PIKA), L (AS_PY_AMQP), or l above it and L below it (AS_PIKA_1_3); or the smallest of bsuIil that has the number. */
enum { ALWAYS_L = 0, AS_PIKA = 1, AS_PIKA_1_3 = 2, AS_PY_AMQP = 3, SMALLEST = 4 };

/* The options of a call, as OPTIONS of module.c has them. The objects are borrowed, and may be NULL. */
typedef struct {
    uint32_t keys, text, equal_keys, depth, max_bytes;
    uint32_t is_plain, is_table, is_encoded, is_canonical, is_finite, has_naive_datetimes, has_signed_decimals;
    /* how a client has it: as a Client of the adapters says */
    uint32_t is_of_client, integers, is_ascending, has_text_of_bytes, has_bytearrays, has_short_decimals;
    uint32_t has_aware_datetimes, has_milliseconds;
    PyObject *otherwise, *offset, *others;
} Options;

/* The options as bits, TABLE of reading a table alone, JSON of both ways, and those of reading, of writing, and of a client. */
enum { FOR_BOTH = 1, READ = 2, WRITE = 4, FIND = 8, DECODE = 16, CLIENT = 32, JSON = 64, TABLE = 128, TO_JSON = 256 };
enum { READING = FOR_BOTH | READ, WRITING = FOR_BOTH | WRITE, ALL_OF_CLIENT = READING | WRITE | CLIENT };

/* The options that a call has if none is given. */
void take_defaults(Options *how);

/* Takes an option of a function by its name, if it is one of these. */
int take_named(const State *state, const char *function, int of, PyObject *name, PyObject *value, Options *how);

/* Makes an exception that isn't documented an Error: a RecursionError, what a method of an option raised, or a ValueError since
   a memoryview was released. */
PyObject *documented(const State *state, PyObject *made);

/* Raises an Error: its kind, offset and missing bytes, and in the words of PyUnicode_FromFormat what was expected. */
void raise_error(const State *state, const char *kind, size_t offset, size_t missing, const char *format, ...);
/* The same of a text, with the reason why it is wrong. */
void raise_reason(const State *state, const char *kind, size_t offset, const char *expected, const char *reason);

/* Makes what a caller's own methods have raised an Error, except a TypeError, a MemoryError, an Error, and what is no
   Exception, as KeyboardInterrupt. */
void raise_foreign(const State *state, size_t offset);

/* Puts a step before the path of the Error that was raised, if it is one. */
void add_step(const State *state, PyObject *step);

/* Raises the Error, a TypeError too, that an object which is to be written is of another type than `what` says. */
void raise_unsupported(const State *state, size_t offset, const char *what, PyObject *object);

/* Raises the TypeError that an object is of another type than `what` says. */
void raise_type(const State *state, const char *what, PyObject *object);

/* Raises what is wrong with an input that isn't read, before which there are `base` bytes. `without_tag` says what takes a table
   without its type tag, which the input may be if it begins with a zero. */
void raise_problem(const State *state, const amqpv_input *in, size_t base, amqpv_result result,
                   const amqpv_problem *problem, const char *without_tag);

/* Bytes that are read, how many are before them, and by which options. */
typedef struct {
    const State *state;
    const Options *how;
    amqpv_input in;
    size_t base;
} Reader;

/* Sets up a reader of the bytes of an object, which is returned or copied: of a copy nothing changes while it is read. */
PyObject *begin_reading(Reader *reader, const State *state, const Options *how, PyObject *data);

/* Goes on to an offset in the bytes, unless that is NULL. */
int move_to(Reader *reader, PyObject *offset);

/* Reads the value, or the table without its type tag, at the start of the bytes. */
int read_entry(const Reader *reader, amqpv_entry *entry);

/* The object for a value that was read. */
PyObject *build(const Reader *reader, const amqpv_entry *entry);

/* A dict, a new reference or NULL, with the pairs of a table that was read: the same reference, or NULL. */
PyObject *filled(const Reader *reader, const amqpv_entry *entry, PyObject *table);

/* A tuple of an object, whose reference it takes, and of how many bytes are before the end of what it was read of. */
PyObject *with_end(PyObject *made, size_t end);

/* The bytes of a value, or of a table without its type tag. */
PyObject *written(const State *state, const Options *how, PyObject *value);

/* The JSON of a value that was read, or of its canonical encoding. */
PyObject *json_of(const Reader *reader, const amqpv_entry *entry, int is_canonical);

/* The encoding of the value that a JSON text means, which is a str or bytes; or of a table, without its type tag. */
PyObject *encoding_of_json(const State *state, const Options *how, PyObject *text);

/* The type that adapters read and write by. */
PyObject *codec_type(PyObject *module);

/* The bytes of a key that a str or bytes is, as an object to be kept, or NULL. */
PyObject *key_bytes(const State *state, uint32_t how, PyObject *key, size_t offset, const char **bytes, size_t *length);

#endif
