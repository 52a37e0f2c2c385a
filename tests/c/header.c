/*
 * The header by itself, in C99 and later and in C++98 and later: a fresh session,
 * an input, the test for refusals, the version, what is said of words that can't be
 * sound, the rooms of calls, and the texts of refusals, which it prints.
 */
#include <string.h>

#include "cobbletwill.h"
#include "expect.h"

#define TEXT_OF(tokens) #tokens
#define VERSION_OF(major, minor, patch) TEXT_OF(major) "." TEXT_OF(minor) "." TEXT_OF(patch)

static void test_fresh(void) {
    cobbletwill_session fresh = COBBLETWILL_FRESH;
    unsigned char zero[48 + 34 * 8] = {0};
    EXPECT(sizeof fresh == sizeof zero);
    EXPECT(memcmp(&fresh, zero, sizeof zero) == 0);
}

static void test_input(void) {
    cobbletwill_input input = {0, {0}};
    EXPECT(sizeof input == 20);
    EXPECT((char *)&input.characters[COBBLETWILL_INPUT_SIZE - 1] - (char *)&input.length == 18);
}

/* Answers up to 63 are refusals, of later versions too. */
static void test_refused(void) {
    uint32_t answer = COBBLETWILL_OK;
    EXPECT(!COBBLETWILL_IS_REFUSAL(COBBLETWILL_OK));
    EXPECT(!COBBLETWILL_IS_REFUSAL(COBBLETWILL_STOPPED));
    EXPECT(!COBBLETWILL_IS_REFUSAL(COBBLETWILL_OPEN));
    EXPECT(!COBBLETWILL_IS_REFUSAL(COBBLETWILL_DEAD));
    EXPECT(!COBBLETWILL_IS_REFUSAL(answer++));
    EXPECT(answer == 1);
    for (; answer <= COBBLETWILL_REFUSED_SHORT_MIDDLE; answer++) {
        EXPECT(COBBLETWILL_IS_REFUSAL(answer));
        printf("refused %u: %s\n", (unsigned)answer, cobbletwill_refusal_text(answer));
    }
    for (; answer <= 63; answer++) {
        EXPECT(COBBLETWILL_IS_REFUSAL(answer));
        EXPECT(strcmp(cobbletwill_refusal_text(answer), "no refusal") == 0);
    }
    EXPECT(strcmp(cobbletwill_refusal_text(COBBLETWILL_OK), "no refusal") == 0);
    EXPECT(strcmp(cobbletwill_refusal_text(COBBLETWILL_STOPPED), "no refusal") == 0);
}

static void test_version(void) {
    const char *parts =
        VERSION_OF(COBBLETWILL_VERSION_MAJOR, COBBLETWILL_VERSION_MINOR, COBBLETWILL_VERSION_PATCH);
    EXPECT(strcmp(COBBLETWILL_VERSION, parts) == 0);
    EXPECT(COBBLETWILL_VERSION_NUMBER % 256 == COBBLETWILL_VERSION_PATCH);
    EXPECT(COBBLETWILL_VERSION_NUMBER / 256 % 256 == COBBLETWILL_VERSION_MINOR);
    EXPECT(COBBLETWILL_VERSION_NUMBER / 65536 == COBBLETWILL_VERSION_MAJOR);
}

static uint16_t words[COBBLETWILL_WORDS_SIZE];

/* Nothing is said of words that can't be sound, whatever the session is. */
static void nothing_said(const uint16_t *of, size_t length) {
    cobbletwill_session session;
    const int bytes[] = {0, 1, 255};
    EXPECT(cobbletwill_may_be_sound(of, length) == 0);
    EXPECT(cobbletwill_longest_pattern(of, length) == 0);
    EXPECT(cobbletwill_expansion(of, length) == 0);
    EXPECT(cobbletwill_rule_count(of, length) == 0);
    EXPECT(cobbletwill_has_default(of, length) == 0);
    EXPECT(cobbletwill_keeps_pairs(of, length) == 0);
    for (int i = 0; i < 3; i++) {
        memset(&session, bytes[i], sizeof session);
        EXPECT(cobbletwill_feed_room(of, length, &session, 4096) == 0);
        EXPECT(cobbletwill_feed_room(of, length, &session, (size_t)-1) == 0);
        EXPECT(cobbletwill_finish_room(of, length, &session) == 0);
        EXPECT(cobbletwill_longest_piece(of, length, &session, 4096) == 0);
        EXPECT(cobbletwill_longest_piece(of, length, &session, (size_t)-1) == 0);
        EXPECT(cobbletwill_chain_feed_middle(of, length, &session, (size_t)-1) == 0);
        EXPECT(cobbletwill_chain_finish_middle(of, length, &session) == 0);
        EXPECT(cobbletwill_chain_feed_room(of, length, &session, of, length, &session, (size_t)-1) == 0);
        EXPECT(cobbletwill_chain_finish_room(of, length, &session, of, length, &session) == 0);
        EXPECT(cobbletwill_chain_longest_piece(of, length, &session, of, length, &session, 4096, 4096) == 0);
    }
}

/* Erased memory, too few words, and each header word one beyond its limits and at the
 * greatest number, the others as in words that may be sound. */
static void test_erased(void) {
    static const uint16_t least[] = {1, 1, 1, 0, 1, 0}, greatest[] = {256, 64, 8, 8, 32, 2};
    memset(words, 0, sizeof words);
    nothing_said(words, COBBLETWILL_WORDS_SIZE);
    memset(words, 255, sizeof words);
    nothing_said(words, COBBLETWILL_WORDS_SIZE);
    nothing_said(NULL, 0);
    for (int place = 0; place < 6; place++) {
        memcpy(words, greatest, sizeof greatest);
        EXPECT(cobbletwill_may_be_sound(words, COBBLETWILL_WORDS_SIZE) == 1);
        nothing_said(words, COBBLETWILL_WORDS_SIZE - 1);
        nothing_said(words, 6);
        words[place] = (uint16_t)(greatest[place] + 1);
        nothing_said(words, COBBLETWILL_WORDS_SIZE);
        words[place] = 65535;
        nothing_said(words, COBBLETWILL_WORDS_SIZE);
        memcpy(words, least, sizeof least);
        EXPECT(cobbletwill_may_be_sound(words, COBBLETWILL_WORDS_SIZE) == 1);
        if (least[place] > 0) {
            words[place] = 0;
            nothing_said(words, COBBLETWILL_WORDS_SIZE);
        }
    }
}

/* Each sort of default. A marked one has an E of at least 1, the others may have 0. */
static void test_defaults(void) {
    static const uint16_t header[] = {2, 3, 5, 1, 4, 0};
    const size_t length = COBBLETWILL_WORDS_SIZE;
    memcpy(words, header, sizeof header);
    for (uint16_t sort = 0; sort <= 2; sort++) {
        words[5] = sort;
        words[3] = 1;
        EXPECT(cobbletwill_may_be_sound(words, length) == 1);
        EXPECT(cobbletwill_has_default(words, length) == (sort > 0));
        EXPECT(cobbletwill_keeps_pairs(words, length) == (sort == 2));
        words[3] = 0;
        EXPECT(cobbletwill_may_be_sound(words, length) == (sort < 2));
    }
    nothing_said(words, length);
}

/* Of words that may be sound: rooms too long for a size_t, and sessions that can't be sound. */
static void test_rooms(void) {
    static const uint16_t header[] = {2, 3, 5, 7, 4, 1};
    cobbletwill_session session = COBBLETWILL_FRESH;
    const size_t length = COBBLETWILL_WORDS_SIZE, all = (size_t)-1;
    memcpy(words, header, sizeof header);
    EXPECT(cobbletwill_longest_pattern(words, length) == 5);
    EXPECT(cobbletwill_expansion(words, length) == 7);
    EXPECT(cobbletwill_rule_count(words, length) == 4);
    EXPECT(cobbletwill_has_default(words, length) == 1);
    session.held_count = 8;
    EXPECT(cobbletwill_finish_room(words, length, &session) == 56);
    EXPECT(cobbletwill_feed_room(words, length, &session, 100) == 756);
    for (size_t piece = all; piece > all / 2; piece -= all / 16) {
        EXPECT(cobbletwill_feed_room(words, length, &session, piece) == all);
    }
    EXPECT(cobbletwill_longest_piece(words, length, &session, 755) == 99);
    EXPECT(cobbletwill_longest_piece(words, length, &session, 55) == 0);
    EXPECT(cobbletwill_longest_piece(words, length, &session, all) == COBBLETWILL_MAX_CHARACTERS);
    session.received = COBBLETWILL_MAX_CHARACTERS + 1;
    EXPECT(cobbletwill_longest_piece(words, length, &session, 756) == 0);
    session.received = 9;
    session.held_count = 9;
    EXPECT(cobbletwill_feed_room(words, length, &session, 100) == 0);
    EXPECT(cobbletwill_finish_room(words, length, &session) == 0);
    EXPECT(cobbletwill_longest_piece(words, length, &session, 756) == 0);
}

/* Two machines of words that may be sound: the first has an E of 7 and holds 8 characters, the second has an E of 3 and
 * holds 2. */
static void test_chains(void) {
    static const uint16_t header[] = {2, 3, 5, 7, 4, 1};
    static uint16_t others[COBBLETWILL_WORDS_SIZE];
    cobbletwill_session first = COBBLETWILL_FRESH, second = COBBLETWILL_FRESH;
    const size_t length = COBBLETWILL_WORDS_SIZE, all = (size_t)-1;
    memcpy(words, header, sizeof header);
    memcpy(others, header, sizeof header);
    others[3] = 3;
    first.held_count = 8;
    second.held_count = 2;
#define ROOM(piece) cobbletwill_chain_feed_room(words, length, &first, others, length, &second, piece)
#define LONGEST(middle, room) \
    cobbletwill_chain_longest_piece(words, length, &first, others, length, &second, middle, room)
    EXPECT(cobbletwill_chain_feed_middle(words, length, &first, 100) == 7 * 108);
    EXPECT(cobbletwill_chain_finish_middle(words, length, &first) == 56);
    EXPECT(ROOM(100) == 3 * (2 + 7 * 108));
    EXPECT(cobbletwill_chain_finish_room(words, length, &first, others, length, &second) == 3 * (2 + 56));
    for (size_t piece = all; piece > all / 2; piece -= all / 16) {
        EXPECT(cobbletwill_chain_feed_middle(words, length, &first, piece) == all);
        EXPECT(ROOM(piece) == all);
    }
    /* 3 times 7 times (8 + piece) is more than a size_t, but 7 times is not. */
    EXPECT(cobbletwill_chain_feed_middle(words, length, &first, all / 9) != all);
    EXPECT(ROOM(all / 9) == all);
    /* The middle buffer decides, then the output, by one character each. */
    EXPECT(LONGEST(7 * 108, all) == 100);
    EXPECT(LONGEST(7 * 108 - 1, all) == 99);
    EXPECT(LONGEST(all, 3 * (2 + 7 * 108)) == 100);
    EXPECT(LONGEST(all, 3 * (2 + 7 * 108) - 1) == 99);
    EXPECT(LONGEST(55, all) == 0);
    EXPECT(LONGEST(all, 3 * (2 + 56) - 1) == 0);
    /* Then what 14 lets pass of the second, and of the first. */
    second.received = COBBLETWILL_MAX_CHARACTERS - 7 * 108;
    EXPECT(LONGEST(all, all) == 100);
    second.received += 1;
    EXPECT(LONGEST(all, all) == 99);
    first.received = COBBLETWILL_MAX_CHARACTERS - 98;
    EXPECT(LONGEST(all, all) == 98);
    second.held_count = 9;
    EXPECT(ROOM(100) == 0);
    EXPECT(LONGEST(all, all) == 0);
    second.held_count = 2;
    first.held_count = 9;
    EXPECT(ROOM(100) == 3 * 2);
    EXPECT(LONGEST(all, all) == 0);
    /* A first that writes nothing passes nothing on. */
    words[3] = first.held_count = 0;
    EXPECT(cobbletwill_chain_feed_middle(words, length, &first, all) == 0);
    EXPECT(ROOM(all) == 3 * 2);
    EXPECT(LONGEST(0, 0) == 98);
#undef ROOM
#undef LONGEST
}

int main(void) {
    test_fresh();
    test_input();
    test_refused();
    test_version();
    test_erased();
    test_defaults();
    test_rooms();
    test_chains();
    REPORT("header");
    return 0;
}
