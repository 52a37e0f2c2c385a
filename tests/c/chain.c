/*
 * Two machines in a row: feeds and finishes that are accepted, with the least buffers
 * that the header works out, and each refusal for either machine, which changes
 * nothing. Texts are worked out by hand: what the first table makes of the input, and
 * what the second makes of that. A table that has no default stops where no rule fits.
 */
#define _GNU_SOURCE
#include "cobbletwill.h"
#include "expect.h"
#include "lent.h"
#include "rules.h"
#include "tables.h"

enum { LONGEST = 16, MIDDLE = 5 * (8 + LONGEST), ROOM = 5 * (8 + MIDDLE), FOUND = 0x5a };

/* All that a call may write, and the words of both machines. */
struct lent {
    uint8_t before[8];
    cobbletwill_session first, second;
    uint64_t written;
    uint32_t first_status;
    uint16_t middle[MIDDLE], output[ROOM];
    uint16_t first_words[COBBLETWILL_WORDS_SIZE], second_words[COBBLETWILL_WORDS_SIZE];
    uint8_t after[8];
};

static struct lent *lent;
static const cobbletwill_session fresh = COBBLETWILL_FRESH;

/* A table, the length of its records in bytes, and its E. */
struct table {
    const uint8_t *records;
    size_t length, expansion;
};

/* T1 of document 01 undoes references of two digits. T2 writes X for an `a` at the input's end and Y for another, and
 * stops at anything else. */
static const uint8_t t1_records[] = {T1};
static const uint8_t t2_records[] = {
    RULE(1, 1), RANGE(0, 'a', 'a'), OUTPUT('X'), RULE(1, 0), RANGE(0, 'a', 'a'), OUTPUT('Y'),
};
/* `ab` writes 1, any other character itself. */
static const uint8_t one_records[] = {
    RULE(2, 0), RANGE(0, 'a', 'a'), RANGE(1, 'b', 'b'), OUTPUT('1'), DEFAULT, OUTPUT(0), TERM(0, 1),
};
/* `a` writes `x&#`, `bc` writes `ab`, and anything else stops it. */
static const uint8_t start_records[] = {
    RULE(1, 0), RANGE(0, 'a', 'a'), OUTPUT('x'),        OUTPUT('&'), OUTPUT('#'),
    RULE(2, 0), RANGE(0, 'b', 'b'), RANGE(1, 'c', 'c'), OUTPUT('a'), OUTPUT('b'),
};
/* `0` writes nothing, and anything else stops it. */
static const uint8_t none_records[] = {RULE(1, 0), RANGE(0, '0', '0')};

static const struct table t1 = {t1_records, sizeof t1_records, 5}, t2 = {t2_records, sizeof t2_records, 1},
                          one = {one_records, sizeof one_records, 1}, start = {start_records, sizeof start_records, 3},
                          none = {none_records, sizeof none_records, 0};

static void compile(const struct table *table, uint16_t *words) {
    EXPECT(cobbletwill_compile(table->records, table->length, words, COBBLETWILL_WORDS_SIZE) == COBBLETWILL_OK);
    EXPECT(cobbletwill_expansion(words, COBBLETWILL_WORDS_SIZE) == table->expansion);
}

/* All of it 0x5a, but for the words of two tables and fresh sessions. */
static void lend(const struct table *first, const struct table *second) {
    memset(lent, FOUND, sizeof *lent);
    compile(first, lent->first_words);
    compile(second, lent->second_words);
    lent->first = lent->second = fresh;
}

/* A feed of a text, one character a byte, or a finish where there is none, with so much of the buffers and the words. */
struct call {
    const char *piece;
    size_t middle_length, output_length, first_words_length, second_words_length;
};

static uint32_t make(const struct call *call) {
    if (call->piece == NULL) {
        return cobbletwill_chain_finish(lent->first_words, call->first_words_length, &lent->first, lent->second_words,
                                        call->second_words_length, &lent->second, lent->middle, call->middle_length,
                                        lent->output, call->output_length, &lent->written, &lent->first_status);
    }
    uint16_t piece[LONGEST];
    size_t length = put_text(piece, call->piece);
    return cobbletwill_chain_feed(lent->first_words, call->first_words_length, &lent->first, lent->second_words,
                                  call->second_words_length, &lent->second, length > 0 ? piece : NULL, length,
                                  lent->middle, call->middle_length, lent->output, call->output_length, &lent->written,
                                  &lent->first_status);
}

/* A call with the least buffers that the header works out. */
static struct call least(const char *piece) {
    const size_t words = COBBLETWILL_WORDS_SIZE;
    struct call call = {piece, 0, 0, words, words};
    if (piece == NULL) {
        call.middle_length = cobbletwill_chain_finish_middle(lent->first_words, words, &lent->first);
        call.output_length = cobbletwill_chain_finish_room(lent->first_words, words, &lent->first, lent->second_words,
                                                           words, &lent->second);
    } else {
        call.middle_length =
            cobbletwill_chain_feed_middle(lent->first_words, words, &lent->first, strlen(piece));
        call.output_length = cobbletwill_chain_feed_room(lent->first_words, words, &lent->first, lent->second_words,
                                                         words, &lent->second, strlen(piece));
    }
    return call;
}

/* What is accepted with these lengths, and refused by 18 and by 15 with one character less. */
static void expect_least(const struct call *call, size_t middle_length, size_t output_length) {
    EXPECT(call->middle_length == middle_length && call->output_length == output_length);
    struct call shorter = *call;
    if (output_length > 0) {
        shorter.output_length--;
        EXPECT_REFUSED(lent, make(&shorter), COBBLETWILL_REFUSED_SHORT_OUTPUT);
    }
    if (middle_length > 0) {
        shorter.middle_length--;
        EXPECT_REFUSED(lent, make(&shorter), COBBLETWILL_REFUSED_SHORT_MIDDLE);
    }
}

/* So many characters of a buffer were written, and the rest is as found, as it is again afterwards. */
static void expect_written(uint16_t *buffer, size_t size, size_t written) {
    for (size_t i = written; i < size; i++) {
        EXPECT(buffer[i] == (FOUND << 8 | FOUND));
    }
    memset(buffer, FOUND, written * sizeof buffer[0]);
}

/* Both machines are given nothing more. */
static void expect_ended(void) {
    const struct call feed = {"a", MIDDLE, ROOM, COBBLETWILL_WORDS_SIZE, COBBLETWILL_WORDS_SIZE};
    struct call finish = feed;
    finish.piece = NULL;
    EXPECT_REFUSED(lent, make(&feed), COBBLETWILL_REFUSED_ENDED);
    EXPECT_REFUSED(lent, make(&finish), COBBLETWILL_REFUSED_ENDED);
}

/* An input, the first's text of it and the second's of that, and what is answered at last for both: in a feed where
 * that leaves the first or the second stopped, else at the finish. */
struct row {
    const struct table *first, *second;
    const char *input, *passed, *text;
    uint32_t first_status, answer;
};

enum { CLOSED = COBBLETWILL_OK, STOPPED = COBBLETWILL_STOPPED, OPEN = COBBLETWILL_OPEN };

static const struct row rows[] = {
    /* Both close. X shows that T2 was finished, and the last `&#` of T1 that it was fed what T1 wrote at its end. */
    {&t1, &one, "&#97;b&#97;", "aba", "1a", CLOSED, CLOSED},
    {&t1, &t2, "&#97;a&#97;", "aaa", "YYX", CLOSED, CLOSED},
    {&t1, &one, "a&#98;c&#", "abc&#", "1c&#", CLOSED, CLOSED},
    {&t2, &t1, "aa", "YX", "YX", CLOSED, CLOSED},
    {&t1, &t2, "", "", "", CLOSED, CLOSED},
    {&none, &t2, "00", "", "", CLOSED, CLOSED},
    {&t1, &none, "&#48;0", "00", "", CLOSED, CLOSED},
    /* Escaped twice: each machine undoes one escape. */
    {&t1, &t1, "&#38;#38;", "&#38;", "&", CLOSED, CLOSED},
    {&t1, &t1, "&#38;#38;#38;", "&#38;#38;", "&#38;", CLOSED, CLOSED},
    /* The first stops, in a feed or, where `b` may have been `bc`, at the finish. T1 holds `&#` and T2 holds an `a`, and
     * neither is finished: nothing of these is written. */
    {&start, &t1, "az", "x&#", "x", STOPPED, OPEN},
    {&start, &t1, "ab", "x&#", "x", STOPPED, OPEN},
    {&start, &t1, "z", "", "", STOPPED, OPEN},
    {&t2, &t2, "b", "", "", STOPPED, OPEN},
    /* The second stops, in a feed while the first is open, or at the finish, at which T1 writes `&#`. */
    {&t1, &t2, "a&#97;b", "aab", "YY", OPEN, STOPPED},
    {&t1, &t2, "aa&#", "aa&#", "YY", CLOSED, STOPPED},
    {&start, &t2, "bc", "ab", "Y", OPEN, STOPPED},
    {&t1, &none, "&#48;1", "01", "", OPEN, STOPPED},
};

/* The texts of both machines, as far as a list of calls has come. */
struct texts {
    uint16_t passed[ROOM], text[ROOM];
    size_t passed_length, text_length;
};

/* A call with the least buffers, by the E of both machines and the characters that they hold; what it wrote is joined to
 * the texts. */
static uint32_t step(const struct row *row, const char *piece, struct texts *texts) {
    const struct call call = least(piece);
    const size_t middle = row->first->expansion * (lent->first.held_count + (piece == NULL ? 0 : strlen(piece)));
    expect_least(&call, middle, row->second->expansion * (lent->second.held_count + middle));
    const uint64_t produced = lent->first.tally.produced;
    const uint32_t answer = make(&call);
    const size_t passed = lent->first.tally.produced - produced, written = lent->written;
    memcpy(texts->passed + texts->passed_length, lent->middle, passed * sizeof lent->middle[0]);
    memcpy(texts->text + texts->text_length, lent->output, written * sizeof lent->output[0]);
    texts->passed_length += passed;
    texts->text_length += written;
    expect_written(lent->middle, MIDDLE, passed);
    expect_written(lent->output, ROOM, written);
    return answer;
}

static void expect_text(const uint16_t *found, size_t length, const char *text) {
    uint16_t expected[LONGEST];
    EXPECT(put_text(expected, text) == length && memcmp(found, expected, length * sizeof found[0]) == 0);
}

/* A row, its input cut into pieces of so many characters, with an empty piece behind each. */
static void expect_row(const struct row *row, size_t size) {
    struct texts texts = {{0}, {0}, 0, 0};
    uint32_t answer = OPEN;
    lend(row->first, row->second);
    lent->first_status = OPEN;
    for (const char *at = row->input; *at != 0 && answer == OPEN && lent->first_status == OPEN;) {
        char piece[LONGEST + 1] = {0};
        strncpy(piece, at, size);
        at += strlen(piece);
        answer = step(row, piece, &texts);
        if (answer == OPEN && lent->first_status == OPEN) {
            EXPECT(step(row, "", &texts) == OPEN && lent->first_status == OPEN && lent->written == 0);
        }
    }
    if (answer == OPEN && lent->first_status == OPEN) {
        answer = step(row, NULL, &texts);
    }
    EXPECT(answer == row->answer && lent->first_status == row->first_status);
    expect_text(texts.passed, texts.passed_length, row->passed);
    expect_text(texts.text, texts.text_length, row->text);
    EXPECT(lent->second.tally.produced == strlen(row->text) && lent->first.tally.produced == strlen(row->passed));
    expect_ended();
}

static void test_rows(void) {
    for (size_t i = 0; i < sizeof rows / sizeof rows[0]; i++) {
        for (size_t size = 1; size <= LONGEST; size++) {
            expect_row(&rows[i], size);
        }
    }
}

/* Both stop in one feed: `start` writes `ab` for `bc` and stops at z, T2 writes Y and stops at b. */
static void test_both_stop(void) {
    lend(&start, &t2);
    const struct call call = least("bcz");
    EXPECT(make(&call) == STOPPED && lent->first_status == STOPPED);
    EXPECT(lent->written == 1 && lent->output[0] == 'Y');
    EXPECT(lent->first.received == 2 && lent->second.received == 1);
    expect_ended();
}

/* Where the first has stopped, the second may be finished by itself: T1 writes the `&#` that it holds. */
static void test_second_alone(void) {
    uint64_t written;
    lend(&start, &t1);
    const struct call call = least("az");
    EXPECT(make(&call) == OPEN && lent->first_status == STOPPED && lent->written == 1);
    EXPECT(cobbletwill_finish(lent->second_words, COBBLETWILL_WORDS_SIZE, &lent->second, lent->output, ROOM, &written) ==
           CLOSED);
    EXPECT(written == 2 && lent->output[0] == '&' && lent->output[1] == '#');
}

/* One buffer of words for both machines, in memory that can only be read. */
static void test_same_words(void) {
    static const uint16_t input[] = {'&', '#', '3', '8', ';', '#', '3', '8', ';'};
    const size_t size = COBBLETWILL_WORDS_SIZE * sizeof(uint16_t);
    uint16_t *words = mmap(NULL, size, PROT_READ | PROT_WRITE, MAP_PRIVATE | MAP_ANONYMOUS, -1, 0);
    EXPECT(words != MAP_FAILED);
    compile(&t1, words);
    EXPECT(mprotect(words, size, PROT_READ) == 0);
    lend(&t1, &t1);
    EXPECT(cobbletwill_chain_feed(words, COBBLETWILL_WORDS_SIZE, &lent->first, words, COBBLETWILL_WORDS_SIZE,
                                  &lent->second, input, 9, lent->middle, MIDDLE, lent->output, ROOM, &lent->written,
                                  &lent->first_status) == OPEN);
    EXPECT(lent->written == 1 && lent->output[0] == '&' && lent->first.received == 9 && lent->second.received == 5);
    munmap(words, size);
}

/* Each session has the counts of its own machine: T1 uses rule 1 for each reference and the default for b, and for `aba`
 * the second uses its rule once and its default for the last a. */
static void test_uses(void) {
    lend(&t1, &one);
    const struct call feed = least("&#97;b&#97;");
    EXPECT(make(&feed) == OPEN);
    const struct call finish = least(NULL);
    EXPECT(make(&finish) == CLOSED);
    for (int i = 0; i < COBBLETWILL_USES_SIZE; i++) {
        const int is_default = i == COBBLETWILL_USES_DEFAULT;
        EXPECT(lent->first.uses[i] == (i == 1 ? 2 : is_default ? 1 : 0));
        EXPECT(lent->second.uses[i] == (i == 0 || is_default ? 1 : 0));
    }
}

/* Counts that stand elsewhere than in the sessions, whose own are then not touched. */
static void test_parts(void) {
    static const uint16_t piece[] = {'a', 'b', 'c', '&'};
    uint64_t first_uses[COBBLETWILL_USES_SIZE] = {0}, second_uses[COBBLETWILL_USES_SIZE] = {0};
    lend(&t1, &one);
    memset(lent->first.uses, FOUND, sizeof lent->first.uses);
    memset(lent->second.uses, FOUND, sizeof lent->second.uses);
    const cobbletwill_session found = lent->first;
    EXPECT(cobbletwill_chain_feed_parts(lent->first_words, COBBLETWILL_WORDS_SIZE, &lent->first, first_uses,
                                        lent->second_words, COBBLETWILL_WORDS_SIZE, &lent->second, second_uses, piece, 4,
                                        lent->middle, MIDDLE, lent->output, ROOM, &lent->written,
                                        &lent->first_status) == OPEN);
    EXPECT(first_uses[COBBLETWILL_USES_DEFAULT] == 3);
    EXPECT(second_uses[0] == 1 && second_uses[COBBLETWILL_USES_DEFAULT] == 1);
    EXPECT(cobbletwill_chain_finish_parts(lent->first_words, COBBLETWILL_WORDS_SIZE, &lent->first, first_uses,
                                          lent->second_words, COBBLETWILL_WORDS_SIZE, &lent->second, second_uses,
                                          lent->middle, MIDDLE, lent->output, ROOM, &lent->written,
                                          &lent->first_status) == CLOSED);
    EXPECT(first_uses[COBBLETWILL_USES_DEFAULT] == 4);
    EXPECT(second_uses[0] == 1 && second_uses[COBBLETWILL_USES_DEFAULT] == 2);
    EXPECT(memcmp(lent->first.uses, found.uses, sizeof found.uses) == 0);
    EXPECT(memcmp(lent->second.uses, found.uses, sizeof found.uses) == 0);
}

/* A session that has received so many characters less than the limit, those added by the default. */
static void fill(cobbletwill_session *session, uint64_t left) {
    const uint64_t added = COBBLETWILL_MAX_CHARACTERS - left - session->received;
    session->received += added;
    session->uses[COBBLETWILL_USES_DEFAULT] += added;
}

/* A session that ended where it stood, with what it held given back. */
static void end(cobbletwill_session *session, uint32_t status) {
    session->received -= session->held_count;
    session->status = status;
    session->state = session->held_count = 0;
    memset(session->held, 0, sizeof session->held);
}

/* The faults that a call can have, in the order in which they are tested: each of 11 to 14 for the first, then the
 * second, then 18 and 15. */
enum {
    SHORT_FIRST_WORDS,
    UNSOUND_FIRST_WORDS,
    SHORT_SECOND_WORDS,
    UNSOUND_SECOND_WORDS,
    UNSOUND_FIRST,
    NO_FIRST_STATUS,
    UNSOUND_SECOND,
    NO_SECOND_STATUS,
    CLOSED_FIRST,
    STOPPED_FIRST,
    CLOSED_SECOND,
    STOPPED_SECOND,
    FULL_FIRST,
    FULL_SECOND,
    SHORT_MIDDLE,
    SHORT_OUTPUT,
    FAULTS
};

static const uint32_t numbers[FAULTS] = {11, 11, 11, 11, 12, 12, 12, 12, 13, 13, 13, 13, 14, 14, 18, 15};

/* T1 twice, after `&#38;&#`: the first holds two characters, and the second one. A feed of one more has a least middle
 * length of 5 * (2 + 1) = 15 and asks for an output of 5 * (1 + 15) = 80, a finish 5 * 2 = 10 and 5 * (1 + 10) = 55. */
static struct call lend_held(const char *piece) {
    lend(&t1, &t1);
    const struct call held = least("&#38;&#");
    EXPECT(make(&held) == OPEN && lent->first.held_count == 2 && lent->second.held_count == 1);
    lent->written = lent->first_status = FOUND;
    return least(piece);
}

/* Makes a fault in what is lent, of which those behind it were made before. */
static void make_fault(int fault, struct call *call) {
    switch (fault) {
    case SHORT_FIRST_WORDS:
        call->first_words_length--;
        break;
    case UNSOUND_FIRST_WORDS:
        lent->first_words[0] = 0;
        break;
    case SHORT_SECOND_WORDS:
        call->second_words_length--;
        break;
    case UNSOUND_SECOND_WORDS:
        lent->second_words[0] = 0;
        break;
    case UNSOUND_FIRST:
        lent->first.uses[0]++;
        break;
    case NO_FIRST_STATUS:
        lent->first.status = 3;
        break;
    case UNSOUND_SECOND:
        lent->second.held[7] = 1;
        break;
    case NO_SECOND_STATUS:
        lent->second.status = UINT32_MAX;
        break;
    case CLOSED_FIRST:
        end(&lent->first, 1);
        break;
    case STOPPED_FIRST:
        end(&lent->first, 2);
        break;
    case CLOSED_SECOND:
        end(&lent->second, 1);
        break;
    case STOPPED_SECOND:
        end(&lent->second, 2);
        break;
    case FULL_FIRST:
        fill(&lent->first, 0);
        break;
    case FULL_SECOND:
        fill(&lent->second, 9);
        break;
    case SHORT_MIDDLE:
        call->middle_length--;
        break;
    default:
        call->output_length--;
    }
}

/* Each fault by itself, and with any one that is tested later. A full first is no fault of a finish, which has no
 * piece. */
static void test_faults(void) {
    static const char *const pieces[] = {"3", NULL};
    for (int of = 0; of < 2; of++) {
        for (int fault = 0; fault < FAULTS; fault++) {
            if (fault == FULL_FIRST && pieces[of] == NULL) {
                continue;
            }
            for (int later = fault; later < FAULTS; later++) {
                struct call call = lend_held(pieces[of]);
                EXPECT(call.middle_length == (of == 0 ? 15 : 10) && call.output_length == (of == 0 ? 80 : 55));
                if (later > fault) {
                    make_fault(later, &call);
                }
                make_fault(fault, &call);
                EXPECT_REFUSED(lent, make(&call), numbers[fault]);
            }
        }
    }
}

/* 14 by one character: the first's received and the piece, and the second's received and the least middle length. */
static void test_limit(void) {
    struct call call = lend_held("3");
    fill(&lent->first, 1);
    EXPECT(make(&call) == OPEN && lent->first.received == COBBLETWILL_MAX_CHARACTERS);
    EXPECT_REFUSED(lent, make(&call), COBBLETWILL_REFUSED_TOO_LONG);
    call = least(NULL);
    EXPECT(make(&call) == CLOSED);

    call = lend_held("3");
    fill(&lent->second, 14);
    EXPECT_REFUSED(lent, make(&call), COBBLETWILL_REFUSED_TOO_LONG);
    call = lend_held("3");
    fill(&lent->second, 15);
    EXPECT(make(&call) == OPEN);

    call = lend_held(NULL);
    fill(&lent->second, 9);
    EXPECT_REFUSED(lent, make(&call), COBBLETWILL_REFUSED_TOO_LONG);
    call = lend_held(NULL);
    fill(&lent->second, 10);
    EXPECT(make(&call) == CLOSED);
}

/* The longest piece for buffers: with one character more the call is refused, by 18 where the middle buffer is the
 * shorter one of the two, else by 15. */
static void test_longest(void) {
    static const char zeros[] = "0000000000000";
    for (size_t middle = 0; middle <= 60; middle++) {
        for (size_t output = 0; output <= 320; output++) {
            struct call call = lend_held(zeros);
            call.middle_length = middle;
            call.output_length = output;
            const size_t longest = cobbletwill_chain_longest_piece(
                lent->first_words, COBBLETWILL_WORDS_SIZE, &lent->first, lent->second_words, COBBLETWILL_WORDS_SIZE,
                &lent->second, middle, output);
            /* The first holds two characters, so that 5 * (2 + 1) and 5 * (1 + 5 * (2 + 1)) are for a piece of one. */
            const size_t by_middle = middle / 5, by_output = output / 5 < 1 ? 0 : (output / 5 - 1) / 5;
            const size_t characters = by_middle < by_output ? by_middle : by_output;
            EXPECT(longest == (characters < 2 ? 0 : characters - 2));
            call.piece = zeros + strlen(zeros) - longest - 1;
            EXPECT(make(&call) == (by_middle < longest + 3 ? 18u : 15u));
            call.piece++;
            EXPECT(make(&call) == (characters >= 2 ? 65u : by_middle < 2 ? 18u : 15u));
        }
    }
}

int main(void) {
    lent = lend_pages(sizeof *lent);
    test_rows();
    test_both_stop();
    test_second_alone();
    test_same_words();
    test_uses();
    test_parts();
    test_faults();
    test_limit();
    test_longest();
    REPORT("chain");
    return 0;
}
