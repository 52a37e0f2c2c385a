/*
 * Rules typed as text that are accepted: their records and the length of these, in
 * buffers of just that length and longer ones; and buffers of no length.
 */
#include "cobbletwill.h"
#include "expect.h"
#include "rules.h"
#include "tables.h"

enum { FOUND = 0x5a, BEYOND = 16 };

static uint16_t text[LONGEST_MOST];
static size_t text_length;
static uint8_t table[COBBLETWILL_TABLE_SIZE + BEYOND];
static uint64_t length;

/* Reads the text into so many bytes; nothing is written beyond them. */
static uint32_t read_into(size_t table_length) {
    memset(table, FOUND, sizeof table);
    length = FOUND;
    const uint32_t answer = cobbletwill_from_text(text, text_length, table, table_length, &length);
    for (size_t i = answer == COBBLETWILL_OK ? length : 0; i < sizeof table; i++) {
        EXPECT(table[i] == FOUND);
    }
    EXPECT(answer == COBBLETWILL_OK || length == FOUND);
    return answer;
}

/* The text has these records. */
static void expect_records(const uint8_t *records, size_t records_length) {
    for (size_t more = 0; more <= BEYOND; more++) {
        EXPECT(read_into(records_length + more) == COBBLETWILL_OK);
        EXPECT(length == records_length && memcmp(table, records, records_length) == 0);
    }
    EXPECT(cobbletwill_check(records, records_length) == COBBLETWILL_OK);
}

/* T1 of document 01, which makes `A&` of `A&#38;`. */
static void test_t1(void) {
    static const uint8_t records[] = {T1};
    text_length = put_text(text, "\"&#00;\" ==> [38, 35, 48, 48, 59];\n"
                                 "\"&#[0-9][0-9];\" ==> [10 * x2 + x3 - 528];\r\n"
                                 "\"&#$\"==>[38,35];else==>[(x0)];");
    expect_records(records, sizeof records);

    static const uint16_t input[] = {'A', '&', '#', '3', '8', ';'};
    uint16_t output[8 * 6];
    uint64_t place, written;
    EXPECT(cobbletwill_convert(table, length, input, 6, output, 8 * 6, &place, &written) == COBBLETWILL_OK);
    EXPECT(place == 6 && written == 2 && output[0] == 'A' && output[1] == '&');
}

/* Characters of two bytes, 0 and 65535; a coefficient of 0, which gives no term of the position that the rule lacks. */
static void test_characters(void) {
    static const uint8_t records[] = {
        RULE(3, 0), RANGE(0, 0, 3), RANGE(1, 65535, 65535), RANGE(2, 0xd800, 0xd800), OUTPUT(3), TERM(0, -1), OUTPUT(0),
    };
    static const uint16_t pattern[] = {'"', '[', 0, '-', 3, ']', 65535, 0xd800, '"'};
    memcpy(text, pattern, sizeof pattern);
    text_length = sizeof pattern / sizeof pattern[0];
    text_length += put_text(text + text_length, " ==> [1 - x0 + 2, 7 * x5 - 7 * x5];");
    expect_records(records, sizeof records);
}

/* The longest table has COBBLETWILL_TABLE_SIZE bytes, and doesn't fit in one less. */
static void test_longest(void) {
    text_length = put_longest(text);
    EXPECT(read_into(sizeof table) == COBBLETWILL_OK && length == COBBLETWILL_TABLE_SIZE);
    EXPECT(cobbletwill_check(table, length) == COBBLETWILL_OK);
    EXPECT(read_into(COBBLETWILL_TABLE_SIZE) == COBBLETWILL_OK && length == COBBLETWILL_TABLE_SIZE);
    EXPECT(read_into(COBBLETWILL_TABLE_SIZE - 1) == COBBLETWILL_REFUSED_SHORT_OUTPUT);
}

/* "With the number 0 the pointer is not used and may be null." */
static void test_null(void) {
    length = FOUND;
    EXPECT(cobbletwill_from_text(NULL, 0, NULL, 0, &length) == COBBLETWILL_REFUSED_NO_RULE);
    EXPECT(cobbletwill_from_text(NULL, 0, table, sizeof table, &length) == COBBLETWILL_REFUSED_NO_RULE);
    text_length = put_text(text, "\"a\" ==> [];");
    EXPECT(cobbletwill_from_text(text, text_length, NULL, 0, &length) == COBBLETWILL_REFUSED_SHORT_OUTPUT);
    EXPECT(length == FOUND);
}

int main(void) {
    test_t1();
    test_characters();
    test_longest();
    test_null();
    REPORT("typed");
    return 0;
}
