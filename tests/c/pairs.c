/*
 * Pairs outside the basic plane under a marked default: directly, whole, and unit by
 * unit with an empty feed and a preview before each. Texts, steps and counts are
 * worked out by hand: a unit that goes back is a step, a take another, an emit and
 * the close one each.
 */
#include "cobbletwill.h"
#include "expect.h"
#include "tables.h"

enum { LONGEST = 4, ROOM = LONGEST + COBBLETWILL_HELD_SIZE };

/* The least and the greatest of each sort of unit, and the one that a rule takes. */
enum { FIRST = 0xd800, LAST_FIRST = 0xdbff, SECOND = 0xdc00, LAST_SECOND = 0xdfff, RULED = 0xd83d };

/* `ab` writes X, `c`, a first unit and `d` write Y; the default writes a point for one unit. */
static const uint8_t marked[] = {
    RULE(2, 0), RANGE(0, 'a', 'a'), RANGE(1, 'b', 'b'),           OUTPUT('X'),
    RULE(3, 0), RANGE(0, 'c', 'c'), RANGE(1, FIRST, LAST_FIRST), RANGE(2, 'd', 'd'), OUTPUT('Y'),
    MARKED(1),  OUTPUT('.'),
};

/* One first unit alone writes R. A second unit writes S; the default writes nothing. */
static const uint8_t ruled[] = {
    RULE(1, 0), RANGE(0, RULED, RULED),       OUTPUT('R'),
    RULE(1, 0), RANGE(0, SECOND, LAST_SECOND), OUTPUT('S'),
    MARKED(1),
};

/* As the first, without the mark. */
static const uint8_t unmarked[] = {
    RULE(2, 0), RANGE(0, 'a', 'a'), RANGE(1, 'b', 'b'), OUTPUT('X'), DEFAULT, OUTPUT('.'),
};

/* After the units up to one, fed one by one: steps, units held, and units written in all. */
struct after {
    uint64_t steps, held, written;
};

struct row {
    const uint8_t *table;
    size_t table_length, length;
    uint16_t input[LONGEST], text[LONGEST];
    struct after fed[LONGEST], closed;
    uint64_t pairs, singles;
};

#define UNDER(table) table, sizeof table

static const struct row rows[] = {
    {UNDER(marked), 0, {0}, {0}, {{0, 0, 0}}, {1, 0, 0}, 0, 0},
    {UNDER(marked), 2, {FIRST, SECOND}, {FIRST, SECOND}, {{1, 1, 0}, {4, 0, 2}}, {5, 0, 2}, 1, 0},
    {UNDER(marked), 2, {LAST_FIRST, LAST_SECOND}, {LAST_FIRST, LAST_SECOND}, {{1, 1, 0}, {4, 0, 2}}, {5, 0, 2}, 1, 0},
    {UNDER(marked), 1, {FIRST}, {'.'}, {{1, 1, 0}}, {4, 0, 1}, 0, 1},
    {UNDER(marked), 1, {SECOND}, {'.'}, {{3, 0, 1}}, {4, 0, 1}, 0, 1},
    {UNDER(marked), 2, {SECOND, FIRST}, {'.', '.'}, {{3, 0, 1}, {4, 1, 1}}, {7, 0, 2}, 0, 2},
    {UNDER(marked), 2, {FIRST, 'z'}, {'.', '.'}, {{1, 1, 0}, {6, 0, 2}}, {7, 0, 2}, 0, 2},
    {UNDER(marked), 2, {FIRST, LAST_SECOND + 1}, {'.', '.'}, {{1, 1, 0}, {6, 0, 2}}, {7, 0, 2}, 0, 2},
    {UNDER(marked), 2, {FIRST - 1, SECOND}, {'.', '.'}, {{3, 0, 1}, {6, 0, 2}}, {7, 0, 2}, 0, 2},
    {UNDER(marked), 3, {'a', FIRST, SECOND}, {'.', FIRST, SECOND}, {{1, 1, 0}, {5, 1, 1}, {8, 0, 3}}, {9, 0, 3}, 1, 1},
    {UNDER(marked), 3, {FIRST, FIRST, SECOND}, {'.', FIRST, SECOND}, {{1, 1, 0}, {4, 1, 1}, {7, 0, 3}}, {8, 0, 3}, 1, 1},
    /* A first unit that is given back, with its second in the piece or at the input's end. */
    {UNDER(marked), 3, {'c', FIRST, SECOND}, {'.', FIRST, SECOND}, {{1, 1, 0}, {2, 2, 0}, {9, 0, 3}}, {10, 0, 3}, 1, 1},
    {UNDER(marked), 2, {'c', FIRST}, {'.', '.'}, {{1, 1, 0}, {2, 2, 0}}, {9, 0, 2}, 0, 2},
    {UNDER(marked), 3, {'c', FIRST, 'd'}, {'Y'}, {{1, 1, 0}, {2, 2, 0}, {4, 0, 1}}, {5, 0, 1}, 0, 0},
    /* A rule that fits goes first, also one that takes a first unit alone; a pair goes before a rule for its second unit. */
    {UNDER(ruled), 2, {RULED, SECOND}, {'R', 'S'}, {{2, 0, 1}, {4, 0, 2}}, {5, 0, 2}, 0, 0},
    {UNDER(ruled), 3, {FIRST, SECOND, SECOND}, {FIRST, SECOND, 'S'}, {{1, 1, 0}, {4, 0, 2}, {6, 0, 3}}, {7, 0, 3}, 1, 0},
    {UNDER(ruled), 2, {FIRST, RULED}, {'R'}, {{1, 1, 0}, {5, 0, 1}}, {6, 0, 1}, 0, 1},
    /* Without the mark each unit goes alone, and none waits. */
    {UNDER(unmarked), 2, {FIRST, SECOND}, {'.', '.'}, {{3, 0, 1}, {6, 0, 2}}, {7, 0, 2}, 0, 2},
    {UNDER(unmarked), 2, {'a', FIRST}, {'.', '.'}, {{1, 1, 0}, {7, 0, 2}}, {8, 0, 2}, 0, 2},
};

static uint16_t words[COBBLETWILL_WORDS_SIZE];
static uint16_t text[LONGEST + ROOM];

/* A feed, which a preview has seen before. Answers the number of units written. */
static size_t feed(cobbletwill_session *session, const uint16_t *piece, size_t length, uint16_t *output) {
    cobbletwill_session later;
    uint64_t seen, written;
    EXPECT(cobbletwill_preview(words, COBBLETWILL_WORDS_SIZE, session, piece, length, &later, &seen) == COBBLETWILL_OPEN);
    EXPECT(cobbletwill_feed(words, COBBLETWILL_WORDS_SIZE, session, piece, length, output, ROOM, &written) ==
           COBBLETWILL_OPEN);
    EXPECT(seen == written && memcmp(&later, session, sizeof later) == 0);
    return written;
}

/* What a session has counted and holds after so many units, and that it holds the last of them. */
static void expect_after(const cobbletwill_session *session, const struct row *row, size_t units, struct after after) {
    EXPECT(session->received == units && session->tally.steps == after.steps);
    EXPECT(session->held_count == after.held && session->tally.produced == after.written);
    EXPECT(memcmp(session->held, row->input + units - after.held, after.held * sizeof row->input[0]) == 0);
}

static void expect_closed(cobbletwill_session *session, const struct row *row, size_t count) {
    uint64_t written;
    EXPECT(cobbletwill_finish(words, COBBLETWILL_WORDS_SIZE, session, text + count, ROOM, &written) == COBBLETWILL_OK);
    EXPECT(count + written == row->closed.written);
    EXPECT(memcmp(text, row->text, row->closed.written * sizeof text[0]) == 0);
    expect_after(session, row, row->length, row->closed);
    EXPECT(session->uses[COBBLETWILL_PAIRS] == row->pairs);
    EXPECT(session->uses[COBBLETWILL_USES_DEFAULT] == row->singles);
}

static void expect_row(const struct row *row) {
    const cobbletwill_session fresh = COBBLETWILL_FRESH;
    cobbletwill_session whole = fresh, parted = fresh;
    uint64_t place, written;
    EXPECT(cobbletwill_convert(row->table, row->table_length, row->input, row->length, text, ROOM, &place, &written) ==
           COBBLETWILL_OK);
    EXPECT(place == row->length && written == row->closed.written);
    EXPECT(memcmp(text, row->text, written * sizeof text[0]) == 0);

    EXPECT(cobbletwill_compile(row->table, row->table_length, words, COBBLETWILL_WORDS_SIZE) == COBBLETWILL_OK);
    expect_closed(&whole, row, feed(&whole, row->input, row->length, text));

    size_t count = 0;
    for (size_t i = 0; i < row->length; i++) {
        const cobbletwill_session found = parted;
        EXPECT(feed(&parted, NULL, 0, text + count) == 0);
        EXPECT(memcmp(&found, &parted, sizeof found) == 0);
        count += feed(&parted, row->input + i, 1, text + count);
        expect_after(&parted, row, i + 1, row->fed[i]);
    }
    expect_closed(&parted, row, count);
    EXPECT(memcmp(&whole, &parted, sizeof whole) == 0);
}

int main(void) {
    for (size_t i = 0; i < sizeof rows / sizeof rows[0]; i++) {
        expect_row(&rows[i]);
    }
    REPORT("pairs");
    return 0;
}
