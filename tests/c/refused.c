/* A refused call changes nothing. Calls of a chain are tried by chain.c. */
#define _GNU_SOURCE
#include <stdbool.h>

#include "cobbletwill.h"
#include "expect.h"
#include "lent.h"
#include "rules.h"
#include "tables.h"

enum { ROOM = 32, BEYOND = 3 };

/* All that a call may write, and the words, which compile and witness write. */
struct lent {
    uint8_t before[8];
    cobbletwill_session session, later;
    cobbletwill_input shown;
    uint64_t place, written, length;
    uint8_t records[COBBLETWILL_TABLE_SIZE];
    uint16_t output[ROOM];
    uint16_t words[COBBLETWILL_WORDS_SIZE + BEYOND];
    uint8_t after[8];
};

static struct lent *lent;
static int made;

/* `ab` writes X and the upper digit of b, `acc` at the input's end nothing; the default writes what it took. */
static const uint8_t table[] = {
    RULE(2, 0), RANGE(0, 'a', 'a'), RANGE(1, 'b', 'b'), OUTPUT('X'), DIGIT(1, 4),
    RULE(3, 1), RANGE(0, 'a', 'a'), RANGE(1, 'c', 'c'), RANGE(2, 'c', 'c'),
    DEFAULT,    OUTPUT(0),          TERM(0, 1),
};

/* The call that is tried, with its arguments beside those lent. */
struct call {
    enum { CHECK, CONVERT, FROM_TEXT, COMPILE, WITNESS, FEED, FINISH, PREVIEW } of;
    const uint8_t *table;
    size_t table_length;
    const uint16_t *input;
    size_t input_length, output_length, words_length;
};

static uint32_t make(const struct call *call) {
    made++;
    switch (call->of) {
    case CHECK:
        return cobbletwill_check(call->table, call->table_length);
    case CONVERT:
        return cobbletwill_convert(call->table, call->table_length, call->input, call->input_length,
                                   lent->output, call->output_length, &lent->place, &lent->written);
    case FROM_TEXT:
        return cobbletwill_from_text(call->input, call->input_length, lent->records, call->output_length,
                                     &lent->length);
    case COMPILE:
        return cobbletwill_compile(call->table, call->table_length, lent->words, call->words_length);
    case WITNESS:
        return cobbletwill_witness(call->table, call->table_length, lent->words, call->words_length, 0, &lent->shown);
    case FEED:
        return cobbletwill_feed(lent->words, call->words_length, &lent->session, call->input,
                                call->input_length, lent->output, call->output_length, &lent->written);
    case FINISH:
        return cobbletwill_finish(lent->words, call->words_length, &lent->session, lent->output,
                                  call->output_length, &lent->written);
    default:
        return cobbletwill_preview(lent->words, call->words_length, &lent->session, call->input,
                                   call->input_length, &lent->later, &lent->written);
    }
}

/* A call is refused by a number, and changes nothing. */
static void refused(const struct call *call, uint32_t number) { EXPECT_REFUSED(lent, make(call), number); }

/* All of it 0x5a, but for the words of a table and a session. */
static void lend_under(const uint8_t *bytes, size_t length, cobbletwill_session session) {
    memset(lent, 0x5a, sizeof *lent);
    EXPECT(cobbletwill_compile(bytes, length, lent->words, COBBLETWILL_WORDS_SIZE) == COBBLETWILL_OK);
    lent->session = session;
}

static void lend(cobbletwill_session session) { lend_under(table, sizeof table, session); }

static const cobbletwill_session fresh = COBBLETWILL_FRESH;
static const uint16_t text[] = {'z', 'z', 'a'};
static const struct call feed = {FEED, NULL, 0, text, 3, ROOM, COBBLETWILL_WORDS_SIZE};
static const struct call finish = {FINISH, NULL, 0, NULL, 0, ROOM, COBBLETWILL_WORDS_SIZE};
static const struct call preview = {PREVIEW, NULL, 0, text, 3, 0, COBBLETWILL_WORDS_SIZE};

/* The session after a feed of `zza`: two characters written by the default, one held. */
static cobbletwill_session fed(void) {
    lend(fresh);
    EXPECT(make(&feed) == COBBLETWILL_OPEN);
    EXPECT(lent->written == 2 && lent->session.received == 3 && lent->session.held_count == 1);
    EXPECT(lent->session.uses[COBBLETWILL_USES_DEFAULT] == 2);
    return lent->session;
}

/* A feed, a finish and a preview of what is lent are refused by a number. */
static void lent_refused(uint32_t number) {
    refused(&feed, number);
    refused(&finish, number);
    refused(&preview, number);
}

static void all_refused(cobbletwill_session session, uint32_t number) {
    lend(session);
    lent_refused(number);
}

/* Each refusal by 12 has the session after `zza` with one thing changed. L is 3
 * and E is 2; two characters are consumed. */
static void test_unsound_sessions(void) {
    const cobbletwill_session sound = fed();
    cobbletwill_session session;
#define UNSOUND(change) (session = sound, change, all_refused(session, COBBLETWILL_REFUSED_UNSOUND_SESSION))
    UNSOUND(session.received = UINT64_C(1099511627777));
    UNSOUND(session.received = 0);
    UNSOUND(session.tally.produced = 2 * 2 + 1);
    UNSOUND(session.tally.steps = (3 + 3) * 2 + 1 + 1);
    UNSOUND(session.status = 1);
    UNSOUND(session.status = 2);
    UNSOUND(session.status = 3);
    UNSOUND(session.status = 65536);
    UNSOUND(session.status = UINT32_MAX);
    UNSOUND(session.state = 0);
    UNSOUND(session.state = UINT16_MAX);
    UNSOUND(session.held_count = 0);
    UNSOUND(session.held_count = 9);
    UNSOUND(session.held[0] = 'z');
    UNSOUND(session.held[1] = 1);
    UNSOUND(session.held[7] = 1);
    /* The rules have K 2 and 3, and there are no others. 2^63 uses of the first add 0 modulo 2^64. */
    for (int i = 0; i < COBBLETWILL_USES_SIZE; i++) {
        UNSOUND(session.uses[i] += 1);
        UNSOUND(session.uses[i] -= 1);
        UNSOUND(session.uses[i] += UINT64_C(1) << 63);
    }
    UNSOUND((session.uses[1] = 1, session.uses[COBBLETWILL_USES_DEFAULT] = 0));
    UNSOUND((session.uses[0] = 1, session.uses[COBBLETWILL_USES_DEFAULT] = 1));
#undef UNSOUND
    /* Two uses of the default are as many characters as one of the first rule. */
    session = sound;
    session.uses[0] = 1;
    session.uses[COBBLETWILL_USES_DEFAULT] = 0;
    lend(session);
    EXPECT(make(&finish) == COBBLETWILL_OK);
    EXPECT(lent->session.uses[0] == 1 && lent->session.uses[COBBLETWILL_USES_DEFAULT] == 1);
}

/* Counts that stand elsewhere than in the session, whose own are then not touched. */
static void test_parts(void) {
    lend(fresh);
    static const unsigned char found[sizeof fresh.uses] = {1, 2, 3};
    memcpy(lent->session.uses, found, sizeof found);
    uint64_t uses[COBBLETWILL_USES_SIZE] = {0};
    EXPECT(cobbletwill_feed_parts(lent->words, COBBLETWILL_WORDS_SIZE, &lent->session, uses, text, 3, lent->output,
                                  ROOM, &lent->written) == COBBLETWILL_OPEN);
    EXPECT(uses[COBBLETWILL_USES_DEFAULT] == 2);
    EXPECT(cobbletwill_finish_parts(lent->words, COBBLETWILL_WORDS_SIZE, &lent->session, uses, lent->output, ROOM,
                                    &lent->written) == COBBLETWILL_OK);
    EXPECT(uses[COBBLETWILL_USES_DEFAULT] == 3 && uses[0] == 0 && uses[1] == 0);
    EXPECT(memcmp(lent->session.uses, found, sizeof found) == 0);
}

/* Each refusal by 11 has the words of the table with one of the digit's changed. Block 0 stands at 17,222, the digit is
 * its second entry of 10 words, K is 2 and E is 2. */
static void test_unsound_digits(void) {
    enum { SORT = 17222 + 3 + 10, SHIFT, POSITION_0, POSITION_1, POSITION_2, UNUSED = SORT + 10 };
    static const struct {
        int at;
        uint16_t word;
    } damages[] = {
        {SORT, 2},       {SORT, UINT16_MAX},       {SHIFT, 1},      {SHIFT, 16},      {SHIFT, UINT16_MAX},
        {POSITION_0, 1}, {POSITION_0, UINT16_MAX}, {POSITION_1, 0}, {POSITION_1, 2},
    };
    for (size_t i = 0; i < sizeof damages / sizeof damages[0]; i++) {
        lend(fresh);
        lent->words[damages[i].at] = damages[i].word;
        EXPECT(cobbletwill_is_sound(lent->words, COBBLETWILL_WORDS_SIZE) == 0);
        lent_refused(COBBLETWILL_REFUSED_UNSOUND_WORDS);
    }
    /* Coefficients from K on and entries beyond the output count are not looked at. */
    lend(fresh);
    lent->words[POSITION_2] = 1;
    lent->words[UNUSED] = 2;
    EXPECT(cobbletwill_is_sound(lent->words, COBBLETWILL_WORDS_SIZE) == 1);
}

/* A first unit of a pair and `b` write nothing, and so does the marked default: E is 1 for the pairs. */
static const uint8_t marked[] = {
    RULE(2, 0), RANGE(0, 0xd83d, 0xd83d), RANGE(1, 'b', 'b'), MARKED(1),
};

static void lend_marked(cobbletwill_session session) { lend_under(marked, sizeof marked, session); }

/* Word 5 is 0, 1 or 2, and with 2 word 3, which is E, is at least 1. */
static void test_unsound_marks(void) {
    static const uint16_t beyond[] = {3, 4, 255, 256, UINT16_MAX};
    for (size_t i = 0; i < sizeof beyond / sizeof beyond[0]; i++) {
        lend_marked(fresh);
        lent->words[5] = beyond[i];
        EXPECT(cobbletwill_is_sound(lent->words, COBBLETWILL_WORDS_SIZE) == 0);
        lent_refused(COBBLETWILL_REFUSED_UNSOUND_WORDS);
    }
    lend_marked(fresh);
    EXPECT(lent->words[3] == 1 && lent->words[5] == 2);
    EXPECT(cobbletwill_is_sound(lent->words, COBBLETWILL_WORDS_SIZE) == 1);
    lent->words[3] = 0;
    EXPECT(cobbletwill_is_sound(lent->words, COBBLETWILL_WORDS_SIZE) == 0);
    lent_refused(COBBLETWILL_REFUSED_UNSOUND_WORDS);
    /* Without the mark nothing is written, and E may be 0. */
    lent->words[5] = 1;
    EXPECT(cobbletwill_is_sound(lent->words, COBBLETWILL_WORDS_SIZE) == 1);
}

/* Each has the session of a first unit that waits with one thing changed. No rule begins with the unit, the back is
 * counted, and nothing is consumed. */
static void test_waiting_units(void) {
    static const uint16_t first[] = {0xd800, 0xd83c, 0xd83e, 0xdbff};
    static const uint16_t others[] = {0xd83d, 0xdc00, 0xdfff, 0xd7ff, 0xe000, 'b', 0};
    cobbletwill_session waiting = COBBLETWILL_FRESH, session;
    waiting.received = waiting.tally.steps = waiting.held_count = 1;
    for (size_t i = 0; i < sizeof first / sizeof first[0]; i++) {
        waiting.held[0] = first[i];
        lend_marked(waiting);
        EXPECT(make(&finish) == COBBLETWILL_OK && lent->session.tally.steps == 4);
        /* Without the mark nothing waits so. */
        lend_marked(waiting);
        lent->words[5] = 1;
        lent_refused(COBBLETWILL_REFUSED_UNSOUND_SESSION);
    }
#define UNSOUND(change) \
    (session = waiting, change, lend_marked(session), lent_refused(COBBLETWILL_REFUSED_UNSOUND_SESSION))
    for (size_t i = 0; i < sizeof others / sizeof others[0]; i++) {
        UNSOUND(session.held[0] = others[i]);
    }
    UNSOUND(session.state = 1);
    UNSOUND(session.held_count = 0);
    UNSOUND((session.received = session.held_count = 2, session.held[1] = 0xdc00));
    UNSOUND((session.received = session.held_count = 2, session.held[1] = 0xdbff));
    UNSOUND(session.tally.steps = 2);
    UNSOUND(session.tally.produced = 1);
    UNSOUND(session.uses[COBBLETWILL_PAIRS] = 1);
    UNSOUND(session.uses[COBBLETWILL_USES_DEFAULT] = 1);
    UNSOUND(session.status = 1);
    UNSOUND(session.status = 2);
#undef UNSOUND
}

/* Two characters consumed are one pair or two units, and 2^63 pairs would add 0 modulo 2^64. Without the mark there are
 * no pairs. */
static void test_unsound_pairs(void) {
    static const uint64_t pairs[] = {0, 2, UINT64_MAX, (UINT64_C(1) << 63) + 1};
    cobbletwill_session session = COBBLETWILL_FRESH;
    session.received = session.tally.produced = 2;
    for (size_t i = 0; i < sizeof pairs / sizeof pairs[0]; i++) {
        session.uses[COBBLETWILL_PAIRS] = pairs[i];
        lend_marked(session);
        lent_refused(COBBLETWILL_REFUSED_UNSOUND_SESSION);
    }
    session.uses[COBBLETWILL_PAIRS] = 1;
    all_refused(session, COBBLETWILL_REFUSED_UNSOUND_SESSION);
    lend_marked(session);
    EXPECT(make(&finish) == COBBLETWILL_OK);
    session.uses[COBBLETWILL_PAIRS] = 0;
    session.uses[COBBLETWILL_USES_DEFAULT] = 2;
    lend_marked(session);
    EXPECT(make(&finish) == COBBLETWILL_OK);
}

/* Room for pairs, which are written one for one, though no group writes anything. */
static void test_room_of_pairs(void) {
    struct call short_output = feed;
    lend_marked(fresh);
    short_output.output_length = 2;
    refused(&short_output, COBBLETWILL_REFUSED_SHORT_OUTPUT);
    const struct call convert = {CONVERT, marked, sizeof marked, text, 3, 2, 0};
    refused(&convert, COBBLETWILL_REFUSED_SHORT_OUTPUT);
    lent->session.received = lent->session.tally.steps = lent->session.held_count = 1;
    lent->session.held[0] = 0xd800;
    short_output.of = FINISH;
    short_output.output_length = 0;
    refused(&short_output, COBBLETWILL_REFUSED_SHORT_OUTPUT);
}

static void test_sessions(void) {
    const cobbletwill_session open = fed();

    struct call short_words = feed, short_output = feed;
    lend(open);
    short_words.words_length = COBBLETWILL_WORDS_SIZE - 1;
    refused(&short_words, COBBLETWILL_REFUSED_UNSOUND_WORDS);
    short_words.of = FINISH;
    refused(&short_words, COBBLETWILL_REFUSED_UNSOUND_WORDS);
    short_words.of = PREVIEW;
    refused(&short_words, COBBLETWILL_REFUSED_UNSOUND_WORDS);
    lent->words[0] = 0;
    lent_refused(COBBLETWILL_REFUSED_UNSOUND_WORDS);

    cobbletwill_session ended = {3, {2, 7}, 1, 0, 0, {0}, {0}};
    ended.uses[COBBLETWILL_USES_DEFAULT] = 3;
    all_refused(ended, COBBLETWILL_REFUSED_ENDED);
    ended.status = 2;
    all_refused(ended, COBBLETWILL_REFUSED_ENDED);

    cobbletwill_session full = COBBLETWILL_FRESH;
    full.received = full.uses[COBBLETWILL_USES_DEFAULT] = UINT64_C(1099511627776) - 2;
    lend(full);
    refused(&feed, COBBLETWILL_REFUSED_TOO_LONG);
    refused(&preview, COBBLETWILL_REFUSED_TOO_LONG);

    lend(open);
    short_output.output_length = 2 * (1 + 3) - 1;
    refused(&short_output, COBBLETWILL_REFUSED_SHORT_OUTPUT);
    short_output.of = FINISH;
    short_output.output_length = 2 * 1 - 1;
    refused(&short_output, COBBLETWILL_REFUSED_SHORT_OUTPUT);
}

/* A table that check and convert refuse by a number, and compile and witness too, leaving their words 0. */
static void table_refused(const uint8_t *bytes, size_t length, uint32_t number) {
    lend(fresh);
    const struct call check = {CHECK, bytes, length, NULL, 0, 0, 0};
    const struct call convert = {CONVERT, bytes, length, text, 3, ROOM, 0};
    struct call compiles[] = {
        {COMPILE, bytes, length, NULL, 0, 0, COBBLETWILL_WORDS_SIZE - 1},
        {WITNESS, bytes, length, NULL, 0, 0, COBBLETWILL_WORDS_SIZE - 1},
    };
    if (number < COBBLETWILL_REFUSED_CLASSES) {
        refused(&check, number);
        refused(&convert, number);
    }
    for (size_t i = 0; i < sizeof compiles / sizeof compiles[0]; i++) {
        lend(fresh);
        refused(&compiles[i], COBBLETWILL_REFUSED_SHORT_WORDS);

        static struct lent found;
        memcpy(&found, lent, sizeof found);
        memset(found.words, 0, COBBLETWILL_WORDS_SIZE * sizeof found.words[0]);
        compiles[i].words_length = COBBLETWILL_WORDS_SIZE + BEYOND;
        EXPECT(make(&compiles[i]) == number);
        EXPECT(memcmp(&found, lent, sizeof found) == 0);
    }
}

static void test_tables(void) {
    static const uint8_t field[] = {0, 0, 0, 0, 0, 0, 0, 0};
    static const uint8_t place[] = {OUTPUT(1)};
    static const uint8_t unfilled[] = {RULE(2, 0), RANGE(0, 'a', 'a'), OUTPUT(1)};
    static const uint8_t no_rule[] = {DEFAULT};
    static const uint8_t too_many[] = {
        RULE(1, 0), RANGE(0, 'a', 'a'), OUTPUT(1), OUTPUT(2), OUTPUT(3), OUTPUT(4),
        OUTPUT(5),  OUTPUT(6),          OUTPUT(7), OUTPUT(8), OUTPUT(9),
    };
    static const uint8_t value[] = {RULE(1, 0), RANGE(0, 'a', 'a'), OUTPUT(65536)};
    static const uint8_t shift[] = {RULE(1, 0), RANGE(0, 'a', 'a'), DIGIT(0, 5)};
    static const uint8_t digit_place[] = {RULE(1, 0), RANGE(0, 'a', 'a'), DIGIT(1, 4)};
    static const uint8_t digit_term[] = {RULE(1, 0), RANGE(0, 'a', 'a'), DIGIT(0, 4), TERM(0, 1)};
    static const uint8_t digit_unfilled[] = {RULE(1, 0), DIGIT(0, 4)};
    static const uint8_t digits[] = {
        RULE(1, 0),  RANGE(0, 'a', 'a'), OUTPUT(1),   DIGIT(0, 4), DIGIT(0, 0), OUTPUT(4),
        DIGIT(0, 8), DIGIT(0, 12),       DIGIT(0, 4), OUTPUT(8),   DIGIT(0, 0),
    };
    table_refused(table, sizeof table - 1, COBBLETWILL_REFUSED_TABLE_LENGTH);
    table_refused(field, sizeof field, COBBLETWILL_REFUSED_FIELD);
    table_refused(place, sizeof place, COBBLETWILL_REFUSED_PLACE);
    table_refused(unfilled, sizeof unfilled, COBBLETWILL_REFUSED_UNFILLED);
    table_refused(no_rule, sizeof no_rule, COBBLETWILL_REFUSED_NO_RULE);
    table_refused(too_many, sizeof too_many, COBBLETWILL_REFUSED_TOO_MANY);
    table_refused(value, sizeof value, COBBLETWILL_REFUSED_VALUE);
    table_refused(shift, sizeof shift, COBBLETWILL_REFUSED_FIELD);
    for (int mark = 2; mark <= 255; mark++) {
        const uint8_t unknown[] = {RULE(1, 0), RANGE(0, 'a', 'a'), MARKED((uint8_t)mark)};
        table_refused(unknown, sizeof unknown, COBBLETWILL_REFUSED_FIELD);
    }
    table_refused(digit_place, sizeof digit_place, COBBLETWILL_REFUSED_PLACE);
    table_refused(digit_term, sizeof digit_term, COBBLETWILL_REFUSED_PLACE);
    table_refused(digit_unfilled, sizeof digit_unfilled, COBBLETWILL_REFUSED_UNFILLED);
    table_refused(digits, sizeof digits, COBBLETWILL_REFUSED_TOO_MANY);

    uint8_t large[LARGE_MOST];
    table_refused(large, put_large(large, 1, 7), COBBLETWILL_REFUSED_CLASSES);
    table_refused(large, put_large(large, 0, 8), COBBLETWILL_REFUSED_STATES);
}

/* Terms in any order are not refused, and the words are the same. A position that is repeated is, whatever stands
 * between: the sum's own terms, and all five positions of its rule, first to last and last to first. */
static void test_terms(void) {
    static const uint8_t rising[] = {T1}, falling[] = {T1_WITH(TERM(3, 1), TERM(2, 10))};
    static const uint8_t beside[] = {T1_WITH(TERM(2, 10), TERM(3, 1), TERM(3, 1))};
    static const uint8_t apart[] = {T1_WITH(TERM(2, 10), TERM(3, 1), TERM(2, 10))};
    static const uint8_t first[] = {T1_WITH(TERM(0, 1), TERM(1, 1), TERM(2, 1), TERM(3, 1), TERM(4, 1), TERM(0, 1))};
    static const uint8_t last[] = {T1_WITH(TERM(4, 1), TERM(3, 1), TERM(2, 1), TERM(1, 1), TERM(0, 1), TERM(4, 1))};
    static uint16_t words[COBBLETWILL_WORDS_SIZE];
    EXPECT(cobbletwill_check(falling, sizeof falling) == COBBLETWILL_OK);
    EXPECT(cobbletwill_compile(rising, sizeof rising, words, COBBLETWILL_WORDS_SIZE) == COBBLETWILL_OK);
    lend(fresh);
    EXPECT(cobbletwill_compile(falling, sizeof falling, lent->words, COBBLETWILL_WORDS_SIZE) == COBBLETWILL_OK);
    EXPECT(memcmp(words, lent->words, sizeof words) == 0);
    table_refused(beside, sizeof beside, COBBLETWILL_REFUSED_PLACE);
    table_refused(apart, sizeof apart, COBBLETWILL_REFUSED_PLACE);
    table_refused(first, sizeof first, COBBLETWILL_REFUSED_PLACE);
    table_refused(last, sizeof last, COBBLETWILL_REFUSED_PLACE);
}

/* Refusal 14 takes an input of 2 TiB: addresses without memory, which are not read. */
static void test_inputs(void) {
    const struct call short_output = {CONVERT, table, sizeof table, text, 3, 2 * 3 - 1, 0};
    lend(fresh);
    refused(&short_output, COBBLETWILL_REFUSED_SHORT_OUTPUT);

    const size_t length = (size_t)UINT64_C(1099511627777);
    void *addresses = mmap(NULL, 2 * length, PROT_NONE, MAP_PRIVATE | MAP_ANONYMOUS | MAP_NORESERVE, -1, 0);
    if (addresses == MAP_FAILED) {
        perror("refused.c: refusal 14 of direct conversion is not tried");
        return;
    }
    const struct call long_input = {CONVERT, table, sizeof table, addresses, length, ROOM, 0};
    refused(&long_input, COBBLETWILL_REFUSED_TOO_LONG);
    munmap(addresses, 2 * length);
}

/* Typed rules are refused by a number, if the table has so many bytes. */
static void typed_refused(const char *typed, size_t table_length, uint32_t number) {
    static uint16_t characters[LONGEST_MOST];
    const struct call call = {FROM_TEXT, NULL, 0, characters, put_text(characters, typed), table_length, 0};
    lend(fresh);
    refused(&call, number);
}

/* Each has something that a later number stands for too, where there is such a text. A table without room changes no
 * number but 15. */
static void test_typed(void) {
    static const struct {
        const char *typed;
        uint32_t number;
    } texts[] = {
        {"a", COBBLETWILL_REFUSED_GRAMMAR},
        {"\"a\" ==> [x0 * x0]; \"b\" ==> []", COBBLETWILL_REFUSED_GRAMMAR},
        {"\"a\" ==> [65535 * 65535, hex(x0, 4)];", COBBLETWILL_REFUSED_GRAMMAR},
        {"\"[b-a]\" ==> []; \"a\" ==> [x0 * x0];", COBBLETWILL_REFUSED_EXPRESSION},
        {"else ==> [65535 * 65535 - 65535 * 65535];", COBBLETWILL_REFUSED_EXPRESSION},
        {"\"a\" ==> [32768 * x1];", COBBLETWILL_REFUSED_EXPRESSION},
        {"\"[b-a]\" ==> []; \"[ba]\" ==> [];", COBBLETWILL_REFUSED_FIELD},
        {"\"[ba]\" ==> [0 - 1]; \"[b-a]\" ==> [];", COBBLETWILL_REFUSED_PLACE},
        {"\"a\" ==> [x1];", COBBLETWILL_REFUSED_PLACE},
        {"else ==> []; \"[acegi]\" ==> [];", COBBLETWILL_REFUSED_PLACE},
        {"", COBBLETWILL_REFUSED_NO_RULE},
        {"\n", COBBLETWILL_REFUSED_NO_RULE},
        {"else ==> [x0 + 1];", COBBLETWILL_REFUSED_NO_RULE},
        {"\"[acegi]\" ==> []; \"[b-a]\" ==> [];", COBBLETWILL_REFUSED_TOO_MANY},
        {"\"a\" ==> [1, 2, 3, 4, 5, 6, 7, 8, 0 - 9];", COBBLETWILL_REFUSED_TOO_MANY},
        {"\"[0-9]\" ==> [x0 - 49];", COBBLETWILL_REFUSED_VALUE},
        {"\"a\" ==> [65]; else ==> [x0 + 1];", COBBLETWILL_REFUSED_VALUE},
    };
    for (size_t i = 0; i < sizeof texts / sizeof texts[0]; i++) {
        typed_refused(texts[i].typed, COBBLETWILL_TABLE_SIZE, texts[i].number);
        typed_refused(texts[i].typed, 0, texts[i].number);
    }
    for (size_t length = 0; length < 3 * RECORD; length++) {
        typed_refused("\"a\" ==> [65];", length, COBBLETWILL_REFUSED_SHORT_OUTPUT);
    }
}

int main(void) {
    lent = lend_pages(sizeof *lent);
    test_tables();
    test_terms();
    test_inputs();
    test_sessions();
    test_unsound_sessions();
    test_parts();
    test_unsound_digits();
    test_unsound_marks();
    test_waiting_units();
    test_unsound_pairs();
    test_room_of_pairs();
    test_typed();
    EXPECT(made > 1000);
    REPORT("refused");
    return 0;
}
