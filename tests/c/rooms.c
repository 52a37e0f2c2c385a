/*
 * The output that calls need, as the header works it out: with just that much a feed
 * or a finish is accepted, with one character less refused by 15; of the longest
 * piece for a room likewise. And the version of the library is that of the header.
 */
#include "cobbletwill.h"
#include "expect.h"
#include "rules.h"
#include "tables.h"

enum { LONGEST = 40, ROOM = 8 * (8 + LONGEST) };

static uint16_t words[COBBLETWILL_WORDS_SIZE];
static uint16_t output[ROOM];
static uint16_t piece[LONGEST];

/* What a feed of the first characters of the piece answers with so much output. */
static uint32_t fed(cobbletwill_session session, size_t length, size_t room) {
    uint64_t written;
    return cobbletwill_feed(words, COBBLETWILL_WORDS_SIZE, &session, piece, length, output, room, &written);
}

/* What a finish answers with so much output. */
static uint32_t finished(cobbletwill_session session, size_t room) {
    uint64_t written;
    return cobbletwill_finish(words, COBBLETWILL_WORDS_SIZE, &session, output, room, &written);
}

/* The rooms of a session, by E and the characters held. */
static void expect_rooms(const cobbletwill_session *session, size_t expansion) {
    const size_t held = session->held_count;
    for (size_t length = 0; length <= LONGEST - 8; length++) {
        size_t room = cobbletwill_feed_room(words, COBBLETWILL_WORDS_SIZE, session, length);
        EXPECT(room == expansion * (held + length));
        EXPECT(!COBBLETWILL_IS_REFUSAL(fed(*session, length, room)));
        EXPECT(room == 0 || fed(*session, length, room - 1) == COBBLETWILL_REFUSED_SHORT_OUTPUT);
    }
    size_t room = cobbletwill_finish_room(words, COBBLETWILL_WORDS_SIZE, session);
    EXPECT(room == expansion * held);
    EXPECT(!COBBLETWILL_IS_REFUSAL(finished(*session, room)));
    EXPECT(room == 0 || finished(*session, room - 1) == COBBLETWILL_REFUSED_SHORT_OUTPUT);
}

/* The longest pieces for rooms, of which one character more is refused. */
static void expect_pieces(const cobbletwill_session *session, size_t expansion) {
    const size_t held = session->held_count;
    for (size_t room = 0; room < expansion * (LONGEST - 8); room++) {
        size_t length = cobbletwill_longest_piece(words, COBBLETWILL_WORDS_SIZE, session, room);
        if (room < expansion * held) {
            EXPECT(length == 0);
            EXPECT(fed(*session, length, room) == COBBLETWILL_REFUSED_SHORT_OUTPUT);
        } else {
            EXPECT(!COBBLETWILL_IS_REFUSAL(fed(*session, length, room)));
            EXPECT(fed(*session, length + 1, room) == COBBLETWILL_REFUSED_SHORT_OUTPUT);
        }
    }
}

/* The rooms under a table, with its E, of sessions that were fed 0 to 8 characters of a text. The text, over and over,
 * is the piece; it is held until it is whole. */
static void expect_table(const uint8_t *table, size_t table_length, const char *text, uint32_t expansion) {
    EXPECT(cobbletwill_compile(table, table_length, words, COBBLETWILL_WORDS_SIZE) == COBBLETWILL_OK);
    EXPECT(cobbletwill_expansion(words, COBBLETWILL_WORDS_SIZE) == expansion);
    const size_t length = put_text(piece, text);
    for (size_t i = length; i < LONGEST; i++) {
        piece[i] = piece[i - length];
    }
    for (size_t first = 0; first <= 8; first++) {
        cobbletwill_session session = COBBLETWILL_FRESH;
        uint64_t written;
        EXPECT(cobbletwill_feed(words, COBBLETWILL_WORDS_SIZE, &session, piece, first, output, ROOM, &written) ==
               COBBLETWILL_OPEN);
        EXPECT(session.held_count == first % length);
        expect_rooms(&session, expansion);
        expect_pieces(&session, expansion);
    }
}

/* T1 writes up to five characters, and holds up to four. */
static void test_t1(void) {
    static const uint8_t table[] = {T1};
    expect_table(table, sizeof table, "&#00;", 5);
    EXPECT(cobbletwill_longest_pattern(words, COBBLETWILL_WORDS_SIZE) == 5);
    EXPECT(cobbletwill_rule_count(words, COBBLETWILL_WORDS_SIZE) == 3);
    EXPECT(cobbletwill_has_default(words, COBBLETWILL_WORDS_SIZE) == 1);
}

/* The greatest E, and eight characters held until one more follows: `highflow` at the input's end writes eight. */
static void test_eight(void) {
    static const uint8_t table[] = {
        RULE(8, 1),         RANGE(0, 'h', 'h'), RANGE(1, 'i', 'i'), RANGE(2, 'g', 'g'), RANGE(3, 'h', 'h'),
        RANGE(4, 'f', 'f'), RANGE(5, 'l', 'l'), RANGE(6, 'o', 'o'), RANGE(7, 'w', 'w'), OUTPUT('1'),
        OUTPUT('2'),        OUTPUT('3'),        OUTPUT('4'),        OUTPUT('5'),        OUTPUT('6'),
        OUTPUT('7'),        OUTPUT('8'),        DEFAULT,            OUTPUT(0),          TERM(0, 1),
    };
    expect_table(table, sizeof table, "highflowhighflow", 8);
    EXPECT(cobbletwill_longest_pattern(words, COBBLETWILL_WORDS_SIZE) == 8);
    EXPECT(cobbletwill_rule_count(words, COBBLETWILL_WORDS_SIZE) == 1);
}

/* A table that writes nothing, E being 0: no room is needed, and the longest piece is what 14 lets pass. */
static void test_nothing(void) {
    static const uint8_t table[] = {RULE(2, 0), RANGE(0, 'a', 'a'), RANGE(1, 'b', 'b')};
    cobbletwill_session session = COBBLETWILL_FRESH;
    expect_table(table, sizeof table, "ab", 0);
    EXPECT(cobbletwill_has_default(words, COBBLETWILL_WORDS_SIZE) == 0);
    EXPECT(cobbletwill_longest_piece(words, COBBLETWILL_WORDS_SIZE, &session, 0) == COBBLETWILL_MAX_CHARACTERS);
    session.received = COBBLETWILL_MAX_CHARACTERS - 6;
    session.uses[0] = session.received / 2;
    for (size_t room = 0; room < 3; room++) {
        size_t length = cobbletwill_longest_piece(words, COBBLETWILL_WORDS_SIZE, &session, room);
        EXPECT(length == 6);
        EXPECT(fed(session, length, room) == COBBLETWILL_OPEN);
        EXPECT(fed(session, length + 1, room) == COBBLETWILL_REFUSED_TOO_LONG);
    }
}

/* Near the limit of characters 14 decides where there is room for more, and the room where not. */
static void test_limit(void) {
    static const uint8_t table[] = {T1};
    cobbletwill_session session = COBBLETWILL_FRESH;
    expect_table(table, sizeof table, "&#00;", 5);
    session.received = session.uses[COBBLETWILL_USES_DEFAULT] = COBBLETWILL_MAX_CHARACTERS - 4;
    EXPECT(cobbletwill_longest_piece(words, COBBLETWILL_WORDS_SIZE, &session, ROOM) == 4);
    EXPECT(fed(session, 4, ROOM) == COBBLETWILL_OPEN);
    EXPECT(fed(session, 5, ROOM) == COBBLETWILL_REFUSED_TOO_LONG);
    EXPECT(cobbletwill_longest_piece(words, COBBLETWILL_WORDS_SIZE, &session, 19) == 3);
    EXPECT(fed(session, 3, 19) == COBBLETWILL_OPEN);
    EXPECT(fed(session, 4, 19) == COBBLETWILL_REFUSED_SHORT_OUTPUT);
}

/* A station whose flash was erased, or whose session was lost, makes the call with the room and the piece that are
 * worked out, and sees the refusal. */
static void test_refusal_seen(void) {
    static const uint8_t table[] = {T1};
    cobbletwill_session session = COBBLETWILL_FRESH;
    for (int byte = 0; byte < 256; byte += 255) {
        memset(words, byte, sizeof words);
        size_t length = cobbletwill_longest_piece(words, COBBLETWILL_WORDS_SIZE, &session, ROOM);
        size_t room = cobbletwill_feed_room(words, COBBLETWILL_WORDS_SIZE, &session, LONGEST);
        EXPECT(length == 0 && fed(session, length, ROOM) == COBBLETWILL_REFUSED_UNSOUND_WORDS);
        EXPECT(room == 0 && fed(session, LONGEST, room) == COBBLETWILL_REFUSED_UNSOUND_WORDS);
        room = cobbletwill_finish_room(words, COBBLETWILL_WORDS_SIZE, &session);
        EXPECT(room == 0 && finished(session, room) == COBBLETWILL_REFUSED_UNSOUND_WORDS);
    }
    EXPECT(cobbletwill_compile(table, sizeof table, words, COBBLETWILL_WORDS_SIZE) == COBBLETWILL_OK);
    memset(&session, 255, sizeof session);
    size_t length = cobbletwill_longest_piece(words, COBBLETWILL_WORDS_SIZE, &session, ROOM);
    size_t room = cobbletwill_feed_room(words, COBBLETWILL_WORDS_SIZE, &session, LONGEST);
    EXPECT(length == 0 && fed(session, length, ROOM) == COBBLETWILL_REFUSED_UNSOUND_SESSION);
    EXPECT(room == 0 && fed(session, LONGEST, room) == COBBLETWILL_REFUSED_UNSOUND_SESSION);
}

int main(void) {
    EXPECT(cobbletwill_version() == COBBLETWILL_VERSION_NUMBER);
    test_t1();
    test_eight();
    test_nothing();
    test_limit();
    test_refusal_seen();
    REPORT("rooms");
    return 0;
}
