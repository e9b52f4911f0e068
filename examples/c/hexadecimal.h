/* `read_hexadecimal`, for the examples: reads digits as a person writes them, with spaces, and comments after `#`. */
#ifndef HEXADECIMAL_H
#define HEXADECIMAL_H

#include <ctype.h>
#include <stdio.h>
#include <stdlib.h>

/* Reads at most `capacity` bytes from a file, and returns how many. Anything else ends the program. */
static size_t read_hexadecimal(FILE *file, unsigned char *bytes, size_t capacity) {
    size_t digits = 0;
    int c;
    while ((c = getc(file)) != EOF) {
        if (c == '#') {
            while ((c = getc(file)) != EOF && c != '\n') {
            }
        } else if (isxdigit(c) && digits / 2 < capacity) {
            unsigned digit = isdigit(c) ? (unsigned)(c - '0') : (unsigned)(tolower(c) - 'a' + 10);
            unsigned char *byte = bytes + digits++ / 2;
            *byte = (unsigned char)(digits % 2 ? digit << 4 : *byte | digit);
        } else if (!isspace(c)) {
            fprintf(stderr, "no hexadecimal digit, or too many: %c\n", c);
            exit(2);
        }
    }
    if (digits % 2) {
        fprintf(stderr, "half a byte\n");
        exit(2);
    }
    return digits / 2;
}

#endif
