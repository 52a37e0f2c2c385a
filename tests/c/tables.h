/* Records of tables, and the table at the limits. */
#ifndef TABLES_H
#define TABLES_H

#include <stddef.h>
#include <stdint.h>
#include <string.h>

/* The bytes of a record of each kind. */
#define LOW(number) ((number) & 255)
#define HIGH(number) ((number) >> 8 & 255)
#define RULE(length, anchored) 1, (length), (anchored), 0, 0, 0, 0, 0
#define RANGE(position, lowest, highest) \
    2, (position), 0, 0, LOW(lowest), HIGH(lowest), LOW(highest), HIGH(highest)
#define OUTPUT(constant) 3, 0, 0, 0, LOW(constant), HIGH(constant), LOW((constant) >> 16), HIGH((constant) >> 16)
#define TERM(position, coefficient) 4, (position), 0, 0, LOW(coefficient), HIGH(coefficient), 0, 0
#define DEFAULT MARKED(0)
#define MARKED(mark) 5, (mark), 0, 0, 0, 0, 0, 0
#define DIGIT(position, shift) 6, (position), (shift), 0, 0, 0, 0, 0

/* The records of T1 of document 01, and these with other terms of its sum. */
#define T1 T1_WITH(TERM(2, 10), TERM(3, 1))
#define T1_WITH(...)                                                                                                  \
    RULE(5, 0), RANGE(0, '&', '&'), RANGE(1, '#', '#'), RANGE(2, '0', '0'), RANGE(3, '0', '0'), RANGE(4, ';', ';'),       \
        OUTPUT('&'), OUTPUT('#'), OUTPUT('0'), OUTPUT('0'), OUTPUT(';'),                                                \
        RULE(5, 0), RANGE(0, '&', '&'), RANGE(1, '#', '#'), RANGE(2, '0', '9'), RANGE(3, '0', '9'), RANGE(4, ';', ';'),   \
        OUTPUT(-528), __VA_ARGS__,                                                                                      \
        RULE(2, 1), RANGE(0, '&', '&'), RANGE(1, '#', '#'), OUTPUT('&'), OUTPUT('#'),                                   \
        DEFAULT, OUTPUT(0), TERM(0, 1)

enum { RECORD = 8, LARGE_RULES = 32, LARGE_MOST = RECORD * LARGE_RULES * (1 + 8) };

/*
 * 32 rules of 8 positions, the last of `last_length`. Rule i takes the character
 * `first` + 2 * i, then any. Answers the length in bytes.
 *
 * From 0 it has 64 classes, from 1 one more; with a last length of 7 it has 256
 * states, with 8 one more.
 */
static inline size_t put_large(uint8_t table[LARGE_MOST], uint16_t first, uint8_t last_length) {
    size_t length = 0;
    for (int number = 0; number < LARGE_RULES; number++) {
        uint8_t positions = number == LARGE_RULES - 1 ? last_length : 8;
        uint16_t character = (uint16_t)(first + 2 * number);
        const uint8_t head[] = {RULE(positions, 0), RANGE(0, character, character)};
        memcpy(table + length, head, sizeof head);
        length += sizeof head;
        for (uint8_t position = 1; position < positions; position++) {
            const uint8_t any[] = {RANGE(position, 0, 65535)};
            memcpy(table + length, any, sizeof any);
            length += sizeof any;
        }
    }
    return length;
}

#endif
