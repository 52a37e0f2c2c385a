/*
 * What the examples share: tables of files, and text from standard input and to
 * standard output, one character a byte.
 */
#ifndef TEXT_H
#define TEXT_H

#include <inttypes.h>
#include <stdbool.h>
#include <stdint.h>
#include <stdio.h>
#include <stdlib.h>

#include "cobbletwill.h"

/* Says why a call was refused. */
static inline void report_refusal(uint32_t answer) {
    fprintf(stderr, "refused %" PRIu32 ": %s\n", answer, cobbletwill_refusal_text(answer));
}

/* Compiles the table of a file; says why not. */
static inline bool compile(const char *path, uint16_t words[COBBLETWILL_WORDS_SIZE]) {
    /* One record more than any accepted table has, so that a longer one is refused. */
    static uint8_t table[COBBLETWILL_TABLE_SIZE + 8];
    FILE *file = fopen(path, "rb");
    if (file == NULL) {
        perror(path);
        return false;
    }
    size_t length = fread(table, 1, sizeof table, file);
    fclose(file);
    uint32_t answer = cobbletwill_compile(table, length, words, COBBLETWILL_WORDS_SIZE);
    if (COBBLETWILL_IS_REFUSAL(answer)) {
        report_refusal(answer);
    }
    return answer == COBBLETWILL_OK;
}

/* Reads a piece of at most so many characters; its length, 0 at the end. */
static inline size_t read_piece(uint16_t *piece, size_t most) {
    size_t length = 0;
    for (int byte; length < most && (byte = getchar()) != EOF; length++) {
        piece[length] = (uint16_t)byte;
    }
    if (ferror(stdin)) {
        perror("standard input");
        exit(1);
    }
    return length;
}

/* Prints output characters; none above 255 is printed as another. */
static inline bool print_text(const uint16_t *output, uint64_t written) {
    for (uint64_t i = 0; i < written; i++) {
        if (output[i] > 255) {
            fputs("an output character above 255\n", stderr);
            return false;
        }
        putchar(output[i]);
    }
    return fflush(stdout) == 0;
}

#endif
