/*
 * Asserts what compiled programs rely on (the ABI), which stays so within 0.x: the sizes and offsets of structs, and
 * the values of constants, on processors of 64 bits. test_header.py compiles it, and doesn't run it. A line isn't
 * changed or removed once it is in a release. The symbols are in packaging/amqp_values.map.
 */
#include "amqp_values.h"

#define STRUCT(name, size, align) _Static_assert(sizeof(name) == (size) && _Alignof(name) == (align), #name)
#define FIELD(name, field, offset, size) \
    _Static_assert(offsetof(name, field) == (offset) && sizeof(((name *)0)->field) == (size), #name "." #field)
#define CONSTANT(name, value) _Static_assert((name) == (value), #name)

_Static_assert(sizeof(amqpv_result) == 4 && (amqpv_result)-1 < 0, "amqpv_result");

STRUCT(amqpv_input, 32, 8);
FIELD(amqpv_input, bytes, 0, 8);
FIELD(amqpv_input, length, 8, 8);
FIELD(amqpv_input, max_bytes, 16, 4);
FIELD(amqpv_input, max_depth, 20, 4);
FIELD(amqpv_input, flags, 24, 4);

STRUCT(amqpv_span, 16, 8);
FIELD(amqpv_span, offset, 0, 8);
FIELD(amqpv_span, length, 8, 8);

STRUCT(amqpv_entry, 64, 8);
FIELD(amqpv_entry, key, 0, 16);
FIELD(amqpv_entry, value, 16, 16);
FIELD(amqpv_entry, content, 32, 16);
FIELD(amqpv_entry, bits, 48, 8);
FIELD(amqpv_entry, tag, 56, 1);
FIELD(amqpv_entry, scale, 57, 1);

STRUCT(amqpv_cursor, 24, 8);
FIELD(amqpv_cursor, left, 0, 16);
FIELD(amqpv_cursor, tag, 16, 1);

STRUCT(amqpv_problem, 24, 8);
FIELD(amqpv_problem, offset, 0, 8);
FIELD(amqpv_problem, missing, 8, 8);
FIELD(amqpv_problem, tag, 16, 1);
FIELD(amqpv_problem, reason, 17, 1);

STRUCT(amqpv_step, 32, 8);
FIELD(amqpv_step, key, 0, 8);
FIELD(amqpv_step, key_length, 8, 8);
FIELD(amqpv_step, index, 16, 8);
FIELD(amqpv_step, into, 24, 1);

STRUCT(amqpv_size, 24, 8);
FIELD(amqpv_size, bytes, 0, 8);
FIELD(amqpv_size, values, 8, 8);
FIELD(amqpv_size, levels, 16, 8);

STRUCT(amqpv_container, 32, 8);
FIELD(amqpv_container, written, 0, 16);
FIELD(amqpv_container, tag, 16, 1);
FIELD(amqpv_container, inner, 17, 1);
FIELD(amqpv_container, any_keys, 18, 1);
FIELD(amqpv_container, needed, 24, 8);

STRUCT(amqpv_warnings, 96, 8);
FIELD(amqpv_warnings, count, 0, 8);
FIELD(amqpv_warnings, repeated_key, 8, 8);
FIELD(amqpv_warnings, key_not_utf8, 16, 8);
FIELD(amqpv_warnings, empty_key, 24, 8);
FIELD(amqpv_warnings, too_deep, 32, 8);
FIELD(amqpv_warnings, decimal, 40, 8);
FIELD(amqpv_warnings, nested_header, 48, 8);
FIELD(amqpv_warnings, reserved, 56, 32);
FIELD(amqpv_warnings, exceeds_frame, 88, 1);
FIELD(amqpv_warnings, reserved_flags, 89, 7);

STRUCT(amqpv_writer, 1064, 8);
FIELD(amqpv_writer, buffer, 0, 8);
FIELD(amqpv_writer, capacity, 8, 8);
FIELD(amqpv_writer, open, 16, 1024);
FIELD(amqpv_writer, level, 1040, 4);
FIELD(amqpv_writer, result, 1044, 4);
FIELD(amqpv_writer, needed, 1048, 8);
FIELD(amqpv_writer, adds, 1056, 8);

CONSTANT(AMQPV_OK, 0);
CONSTANT(AMQPV_NONE, 1);
CONSTANT(AMQPV_MORE, -1);
CONSTANT(AMQPV_UNKNOWN_TAG, -2);
CONSTANT(AMQPV_CUT, -3);
CONSTANT(AMQPV_KEY_CUT, -4);
CONSTANT(AMQPV_KEY_NOT_UTF8, -5);
CONSTANT(AMQPV_NOT_FINITE, -6);
CONSTANT(AMQPV_TOO_DEEP, -7);
CONSTANT(AMQPV_TOO_LARGE, -8);
CONSTANT(AMQPV_NOT_UTF8, -9);
CONSTANT(AMQPV_NOT_JSON, -10);
CONSTANT(AMQPV_NOT_A_VALUE, -11);
CONSTANT(AMQPV_NO_ENCODING, -12);
CONSTANT(AMQPV_INVALID, -13);
CONSTANT(AMQPV_BAD_KEY, -14);
CONSTANT(AMQPV_BAD_TAG, -15);
CONSTANT(AMQPV_OUT_OF_RANGE, -16);
CONSTANT(AMQPV_NO_ROOM, -17);
CONSTANT(AMQPV_NO_MEMORY, -18);

CONSTANT(AMQPV_UNTAGGED, 1);
CONSTANT(AMQPV_ANY_KEYS, 2);
CONSTANT(AMQPV_RABBITMQ, 4);
CONSTANT(AMQPV_FIRST_KEY, 8);
CONSTANT(AMQPV_STREAMS, 16);

CONSTANT(AMQPV_JSON_UNEXPECTED_END, 1);
CONSTANT(AMQPV_JSON_UNFINISHED_STRING, 2);
CONSTANT(AMQPV_JSON_UNEXPECTED_CHARACTER, 3);
CONSTANT(AMQPV_JSON_CONTROL_CHARACTER, 4);
CONSTANT(AMQPV_JSON_UNKNOWN_ESCAPE, 5);
CONSTANT(AMQPV_JSON_LONE_SURROGATE, 6);
CONSTANT(AMQPV_JSON_MISSING_COMMA, 7);
CONSTANT(AMQPV_JSON_MISSING_COLON, 8);
CONSTANT(AMQPV_JSON_TRAILING_COMMA, 9);
CONSTANT(AMQPV_JSON_AFTER_THE_VALUE, 10);
CONSTANT(AMQPV_JSON_BYTE_ORDER_MARK, 11);
CONSTANT(AMQPV_JSON_UNKNOWN_TYPE, 101);
CONSTANT(AMQPV_JSON_NOT_ALONE, 102);
CONSTANT(AMQPV_JSON_KEY_TOO_LONG, 103);
CONSTANT(AMQPV_JSON_NOT_A_NUMBER, 104);
CONSTANT(AMQPV_JSON_NOT_A_STRING, 105);
CONSTANT(AMQPV_JSON_OUT_OF_RANGE, 106);
CONSTANT(AMQPV_JSON_ODD_DIGITS, 107);
CONSTANT(AMQPV_JSON_NOT_HEXADECIMAL, 108);
CONSTANT(AMQPV_JSON_DIGIT_COUNT, 109);
CONSTANT(AMQPV_JSON_NOT_A_DECIMAL, 110);

CONSTANT(AMQPV_MAX_BYTES, 1048576);
CONSTANT(AMQPV_MAX_DEPTH, 32);

CONSTANT(AMQPV_BOOLEAN, 't');
CONSTANT(AMQPV_SHORT_SHORT_INT, 'b');
CONSTANT(AMQPV_SHORT_SHORT_UINT, 'B');
CONSTANT(AMQPV_SHORT_INT, 's');
CONSTANT(AMQPV_SHORT_UINT, 'u');
CONSTANT(AMQPV_LONG_INT, 'I');
CONSTANT(AMQPV_LONG_UINT, 'i');
CONSTANT(AMQPV_LONG_LONG_INT, 'l');
CONSTANT(AMQPV_FLOAT, 'f');
CONSTANT(AMQPV_DOUBLE, 'd');
CONSTANT(AMQPV_DECIMAL, 'D');
CONSTANT(AMQPV_LONG_STRING, 'S');
CONSTANT(AMQPV_BYTE_ARRAY, 'x');
CONSTANT(AMQPV_ARRAY, 'A');
CONSTANT(AMQPV_TABLE, 'F');
CONSTANT(AMQPV_TIMESTAMP, 'T');
CONSTANT(AMQPV_VOID, 'V');
