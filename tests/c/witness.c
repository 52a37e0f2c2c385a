/*
 * Live rules and dead ones: an input is one on which the rule is the first choice, a
 * dead rule has none, and the words are those of compile.
 */
#include <stdbool.h>

#include "cobbletwill.h"
#include "expect.h"
#include "tables.h"

enum { FOUND = 0x5a, BEYOND = 3, ROOM = COBBLETWILL_WORDS_SIZE + BEYOND };

static uint16_t words[ROOM], compiled[ROOM];
static cobbletwill_input input;

/* What is said of a rule; the words are those of compile, and those beyond as found. */
static uint32_t witness(const uint8_t *table, size_t table_length, uint32_t rule) {
    memset(words, FOUND, sizeof words);
    memset(compiled, FOUND, sizeof compiled);
    memset(&input, FOUND, sizeof input);
    EXPECT(cobbletwill_compile(table, table_length, compiled, ROOM) == COBBLETWILL_OK);
    uint32_t answer = cobbletwill_witness(table, table_length, words, ROOM, rule, &input);
    EXPECT(memcmp(words, compiled, sizeof words) == 0);
    return answer;
}

/* A rule is live; its input has 1 to 9 characters, and places not in use are 0. */
static void live(const uint8_t *table, size_t table_length, uint32_t rule) {
    EXPECT(witness(table, table_length, rule) == COBBLETWILL_OK);
    EXPECT(input.length >= 1 && input.length <= COBBLETWILL_INPUT_SIZE);
    for (int i = input.length; i < COBBLETWILL_INPUT_SIZE; i++) {
        EXPECT(input.characters[i] == 0);
    }
}

/* A rule is dead, and has no input. */
static void dead(const uint8_t *table, size_t table_length, uint32_t rule) {
    static const cobbletwill_input none;
    EXPECT(witness(table, table_length, rule) == COBBLETWILL_DEAD);
    EXPECT(memcmp(&input, &none, sizeof none) == 0);
}

/* Whether the input begins with a text. */
static bool begins(const char *text) {
    size_t length = strlen(text);
    for (size_t i = 0; i < length; i++) {
        if (i >= input.length || input.characters[i] != (unsigned char)text[i]) {
            return false;
        }
    }
    return true;
}

/* Numbers that no rule of a table has, from the number of its rules on. */
static void no_rule(const uint8_t *table, size_t table_length, uint32_t rules) {
    const uint32_t numbers[] = {rules, 32, 33, 255, 256, 65535, 65536, UINT32_C(1) << 31, UINT32_MAX};
    for (size_t i = 0; i < sizeof numbers / sizeof numbers[0]; i++) {
        dead(table, table_length, numbers[i]);
    }
}

/* "T3's second rule is dead": `ab` goes before `aba`. */
static void test_t3(void) {
    static const uint8_t table[] = {
        RULE(2, 0), RANGE(0, 'a', 'a'), RANGE(1, 'b', 'b'), OUTPUT('1'),
        RULE(3, 0), RANGE(0, 'a', 'a'), RANGE(1, 'b', 'b'), RANGE(2, 'a', 'a'), OUTPUT('2'),
        DEFAULT,    OUTPUT(0),          TERM(0, 1),
    };
    live(table, sizeof table, 0);
    EXPECT(begins("ab"));
    dead(table, sizeof table, 1);
    no_rule(table, sizeof table, 2);
}

/* T2: the anchored rule is chosen for the last `a`, the other one for an `a` with a character behind it. */
static void test_t2(void) {
    static const uint8_t table[] = {
        RULE(1, 1), RANGE(0, 'a', 'a'), OUTPUT('X'), RULE(1, 0), RANGE(0, 'a', 'a'), OUTPUT('Y'),
    };
    live(table, sizeof table, 0);
    EXPECT(begins("a") && input.length == 1);
    live(table, sizeof table, 1);
    EXPECT(begins("a") && input.length > 1);
    no_rule(table, sizeof table, 2);
    /* In the other order the anchored rule is dead. */
    uint8_t turned[sizeof table];
    memcpy(turned, table + sizeof table / 2, sizeof table / 2);
    memcpy(turned + sizeof table / 2, table, sizeof table / 2);
    live(turned, sizeof turned, 0);
    EXPECT(begins("a"));
    dead(turned, sizeof turned, 1);
}

/* T1: `&#00;` goes before its second rule, whose input has other digits; `&#` has to end the input of the third. */
static void test_t1(void) {
    static const uint8_t table[] = {T1};
    live(table, sizeof table, 0);
    EXPECT(begins("&#00;"));
    live(table, sizeof table, 1);
    EXPECT(begins("&#") && !begins("&#00") && input.length >= 5 && input.characters[4] == ';');
    for (int i = 2; i < 4; i++) {
        EXPECT(input.characters[i] >= '0' && input.characters[i] <= '9');
    }
    live(table, sizeof table, 2);
    EXPECT(begins("&#") && input.length == 2);
    no_rule(table, sizeof table, 3);
}

/* Eight characters at the input's end, and before the end: nine characters, of which no fewer do. */
static void test_nine(void) {
#define EIGHT                                                                                          \
    RANGE(0, 'h', 'h'), RANGE(1, 'i', 'i'), RANGE(2, 'g', 'g'), RANGE(3, 'h', 'h'), RANGE(4, 'f', 'f'), \
        RANGE(5, 'l', 'l'), RANGE(6, 'o', 'o'), RANGE(7, 'w', 'w')
    static const uint8_t table[] = {RULE(8, 1), EIGHT, RULE(8, 0), EIGHT, RULE(8, 0), EIGHT};
#undef EIGHT
    live(table, sizeof table, 0);
    EXPECT(begins("highflow") && input.length == 8);
    live(table, sizeof table, 1);
    EXPECT(begins("highflow") && input.length == 9);
    dead(table, sizeof table, 2);
    no_rule(table, sizeof table, 3);
}

/* 64 classes and 256 states: rule i takes 2 * i and then any characters. */
static void test_large(void) {
    static uint8_t table[LARGE_MOST];
    size_t length = put_large(table, 0, 7);
    for (uint32_t rule = 0; rule < LARGE_RULES; rule++) {
        live(table, length, rule);
        EXPECT(input.characters[0] == 2 * rule);
        EXPECT(input.length >= (rule == LARGE_RULES - 1 ? 7 : 8));
    }
    no_rule(table, length, LARGE_RULES);
}

int main(void) {
    test_t1();
    test_t2();
    test_t3();
    test_nine();
    test_large();
    REPORT("witness");
    return 0;
}
