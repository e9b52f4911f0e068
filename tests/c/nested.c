/*
 * Makes one call of amqp_values.h that recurses, in a thread with a stack of STACK bytes: nested NAME DEPTH STACK.
 * test_programs.py runs it with the inputs and stacks of tests/memory/stacks.py.
 *
 * Standard input has a digit, the call's flags, and then the input. Before the stack is a page that can't be accessed.
 * DEPTH is the limit. Prints `done`, also if the innermost value isn't canonical or has an unknown type tag, or
 * AMQPV_TOO_DEEP.
 */
#include "check.h"

#include <pthread.h>

static uint8_t given[16 << 20], buffer[1 << 20];
static const char *name;
static amqpv_input in;
static amqpv_result result = AMQPV_INVALID;

static int is_call(const char *other) { return strcmp(name, other) == 0; }

static void *make_call(void *unused) {
    amqpv_container top = {{0, 0}, AMQPV_ARRAY, 0, 0, 0};
    amqpv_entry entry;
    amqpv_size size;
    amqpv_problem problem;
    amqpv_warnings warnings;
    size_t length;
    if (is_call("amqpv_read")) {
        result = amqpv_read(&in, &entry, &problem);
    } else if (is_call("amqpv_measure")) {
        result = amqpv_measure(&in, &size, &problem);
    } else if (is_call("amqpv_is_canonical")) {
        result = amqpv_is_canonical(&in);
    } else if (is_call("amqpv_put_value")) {
        result = amqpv_put_value(buffer, sizeof buffer, &top, "", 0, &in);
    } else if (is_call("amqpv_canonical")) {
        result = amqpv_canonical(&in, buffer, sizeof buffer, &length);
    } else if (is_call("amqpv_to_json")) {
        result = amqpv_to_json(&in, (char *)buffer, sizeof buffer, &length);
    } else if (is_call("amqpv_from_json")) {
        result =
            amqpv_from_json((const char *)given, in.length, in.max_depth, buffer, sizeof buffer, &length, &problem);
    } else if (is_call("amqpv_warn")) {
        result = amqpv_warn(&in, 0, UINT32_MAX, &warnings);
        result = result == AMQPV_OK && warnings.too_deep < in.length ? AMQPV_TOO_DEEP : result;
    }
    return unused;
}

int main(int words, char **word) {
    pthread_attr_t how;
    pthread_t thread;
    CHECK(words == 4);
    name = word[1];
    unsigned flags = (unsigned)getchar() - '0';
    in = amqpv_value(given, fread(given, 1, sizeof given, stdin));
    in.max_bytes = UINT32_MAX;
    in.max_depth = (uint32_t)atol(word[2]);
    in.flags = flags;
    CHECK(in.length < sizeof given && pthread_attr_init(&how) == 0);
    size_t page = (size_t)sysconf(_SC_PAGESIZE), stack = (size_t)atol(word[3]) / page * page;
    /* a thread can't have less than this, of which the lowest can't be accessed either */
    size_t least = (size_t)sysconf(_SC_THREAD_STACK_MIN), unused = stack < least ? least - stack : 0;
    uint8_t *lowest = guarded(unused + stack);
    CHECK(unused == 0 || mprotect(lowest, unused, PROT_NONE) == 0);
    CHECK(pthread_attr_setstack(&how, lowest, unused + stack) == 0);
    CHECK(pthread_create(&thread, &how, make_call, NULL) == 0 && pthread_join(thread, NULL) == 0);
    int is_done = result >= AMQPV_OK || result == AMQPV_UNKNOWN_TAG;
    puts(is_done ? "done" : result == AMQPV_TOO_DEEP ? "AMQPV_TOO_DEEP" : "another result");
    return 0;
}
