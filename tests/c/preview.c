/*
 * Previews that are accepted: they answer what a feed of a copy with enough output
 * answers and leaves, and write nothing else. Words, session and piece lie in memory
 * that can only be read.
 */
#define _GNU_SOURCE
#include <sys/mman.h>

#include "cobbletwill.h"
#include "expect.h"
#include "rules.h"
#include "tables.h"

enum { PIECE = 64, ROOM = 8 * (8 + PIECE), FOUND = 0x5a };

/* What a preview only reads. */
struct lent {
    cobbletwill_session session;
    uint16_t piece[PIECE];
    uint16_t words[COBBLETWILL_WORDS_SIZE];
};

static struct lent *lent;

/* What a preview of the first characters of the text answers and leaves, and that a feed does the same. */
static uint32_t see(const char *text, cobbletwill_session session, cobbletwill_session *later, uint64_t *written) {
    size_t length = put_text(lent->piece, text);
    lent->session = session;
    memset(later, FOUND, sizeof *later);
    EXPECT(mprotect(lent, sizeof *lent, PROT_READ) == 0);
    const uint16_t *piece = length > 0 ? lent->piece : NULL;
    uint32_t answer =
        cobbletwill_preview(lent->words, COBBLETWILL_WORDS_SIZE, &lent->session, piece, length, later, written);
    EXPECT(mprotect(lent, sizeof *lent, PROT_READ | PROT_WRITE) == 0);

    uint16_t output[ROOM];
    uint64_t fed;
    EXPECT(cobbletwill_feed(lent->words, COBBLETWILL_WORDS_SIZE, &session, lent->piece, length, output, ROOM, &fed) ==
           answer);
    EXPECT(fed == *written && memcmp(&session, later, sizeof session) == 0);
    return answer;
}

/* `ab` writes X and Y, `acc` nothing; the default, if there is one, writes what it took. */
static const uint8_t table[] = {
    RULE(2, 0), RANGE(0, 'a', 'a'), RANGE(1, 'b', 'b'), OUTPUT('X'), OUTPUT('Y'),
    RULE(3, 0), RANGE(0, 'a', 'a'), RANGE(1, 'c', 'c'), RANGE(2, 'c', 'c'),
    DEFAULT,    OUTPUT(0),          TERM(0, 1),
};

static void compile(size_t length) {
    EXPECT(cobbletwill_compile(table, length, lent->words, COBBLETWILL_WORDS_SIZE) == COBBLETWILL_OK);
}

static const cobbletwill_session fresh = COBBLETWILL_FRESH;

/* Counts, statuses and held characters by hand. */
static void test_pieces(void) {
    cobbletwill_session later, last;
    uint64_t written;
    compile(sizeof table);
    EXPECT(see("", fresh, &later, &written) == COBBLETWILL_OPEN && written == 0);
    EXPECT(memcmp(&later, &fresh, sizeof fresh) == 0);
    EXPECT(see("zaba", fresh, &later, &written) == COBBLETWILL_OPEN && written == 3);
    EXPECT(later.received == 4 && later.tally.produced == 3 && later.held_count == 1 && later.held[0] == 'a');
    EXPECT(later.uses[0] == 1 && later.uses[1] == 0 && later.uses[COBBLETWILL_USES_DEFAULT] == 1);
    /* From the session that was seen, as from that of the feed. */
    EXPECT(see("ccac", later, &last, &written) == COBBLETWILL_OPEN && written == 0);
    EXPECT(last.received == 8 && last.held_count == 2 && last.uses[1] == 1);
}

/* Without the default the machine stops at z. */
static void test_stop(void) {
    cobbletwill_session later;
    uint64_t written;
    compile(sizeof table - 3 * RECORD);
    EXPECT(see("abz", fresh, &later, &written) == COBBLETWILL_STOPPED && written == 2);
    EXPECT(later.status == 2 && later.received == 2 && later.tally.steps == 5);
}

/* Counts that stand elsewhere than in the sessions, whose own are then not touched. */
static void test_parts(void) {
    cobbletwill_session later;
    uint64_t uses[COBBLETWILL_USES_SIZE] = {0}, later_uses[COBBLETWILL_USES_SIZE], written;
    compile(sizeof table);
    size_t length = put_text(lent->piece, "zz");
    lent->session = fresh;
    lent->session.uses[5] = 17;
    memset(&later, FOUND, sizeof later);
    const cobbletwill_session found = later;
    EXPECT(cobbletwill_preview_parts(lent->words, COBBLETWILL_WORDS_SIZE, &lent->session, uses, lent->piece, length,
                                     &later, later_uses, &written) == COBBLETWILL_OPEN);
    EXPECT(written == 2 && later_uses[COBBLETWILL_USES_DEFAULT] == 2 && later_uses[5] == 0);
    EXPECT(uses[COBBLETWILL_USES_DEFAULT] == 0);
    EXPECT(memcmp(later.uses, found.uses, sizeof found.uses) == 0);
}

int main(void) {
    lent = mmap(NULL, sizeof *lent, PROT_READ | PROT_WRITE, MAP_PRIVATE | MAP_ANONYMOUS, -1, 0);
    EXPECT(lent != MAP_FAILED);
    test_pieces();
    test_stop();
    test_parts();
    REPORT("preview");
    return 0;
}
