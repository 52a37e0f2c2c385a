/* Rules typed as text: a text's characters, the longest table's, and sums within each other. */
#ifndef RULES_H
#define RULES_H

#include <stddef.h>
#include <stdint.h>

enum { LONGEST_MOST = 32768 };

/* The characters of a text, one a byte. Answers their number. */
static inline size_t put_text(uint16_t *to, const char *text) {
    size_t length = 0;
    while (text[length] != 0) {
        to[length] = (unsigned char)text[length];
        length++;
    }
    return length;
}

/*
 * The longest table: 32 rules of 8 positions with 4 ranges each and 8 output
 * characters of 8 terms each, and a default with 8 of one term. Answers the number
 * of characters.
 */
static inline size_t put_longest(uint16_t to[LONGEST_MOST]) {
    size_t length = 0;
    for (int rule = 0; rule < 32; rule++) {
        length += put_text(to + length, "\"");
        for (int position = 0; position < 8; position++) {
            length += put_text(to + length, "[a-bd-eg-hj-k]");
        }
        length += put_text(to + length, "\" ==> [");
        for (int sum = 0; sum < 8; sum++) {
            length += put_text(to + length, sum == 0 ? "" : ", ");
            length += put_text(to + length, "x0 + 2*x1 + 3*x2 + 4*x3 + 5*x4 + 6*x5 + 7*x6 + 8*x7");
        }
        length += put_text(to + length, "];\n");
    }
    length += put_text(to + length, "else ==> [x0, x0, x0, x0, x0, x0, x0, 65535 - x0];\n");
    return length;
}

/* A rule that writes a sum with so many others within each other. Answers the number of characters. */
static inline size_t put_nested(uint16_t to[LONGEST_MOST], int depth) {
    size_t length = put_text(to, "\"a\" ==> [");
    for (int i = 0; i < depth; i++) {
        length += put_text(to + length, "1 * (x0 - ");
    }
    length += put_text(to + length, "x0");
    for (int i = 0; i < depth; i++) {
        length += put_text(to + length, ")");
    }
    return length + put_text(to + length, "];");
}

#endif
