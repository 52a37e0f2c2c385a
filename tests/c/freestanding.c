/*
 * The library without a C library: linked with `-nostdlib -ffreestanding`, and
 * with memcpy and memset alone beside it. Ends with 0 if T2 (anchored `a` writes
 * X, `a` writes Y) makes YX of `aa`, in 5 steps and with one use of each rule, if a
 * preview of `aa` saw what the feed wrote and left, if `a` shows the first rule,
 * if of two such machines in a row the second stops at the first one's Y, and if the
 * library is of the header's version.
 */
#include "cobbletwill.h"

void *memcpy(void *restrict to, const void *restrict from, size_t length) {
    unsigned char *at = to;
    const unsigned char *of = from;
    while (length-- > 0) {
        *at++ = *of++;
    }
    return to;
}

void *memset(void *to, int byte, size_t length) {
    unsigned char *at = to;
    while (length-- > 0) {
        *at++ = (unsigned char)byte;
    }
    return to;
}

static const uint8_t table[] = {
    1, 1, 1, 0, 0, 0, 0, 0, 2, 0, 0, 0, 'a', 0, 'a', 0, 3, 0, 0, 0, 'X', 0, 0, 0,
    1, 1, 0, 0, 0, 0, 0, 0, 2, 0, 0, 0, 'a', 0, 'a', 0, 3, 0, 0, 0, 'Y', 0, 0, 0,
};
static uint16_t words[COBBLETWILL_WORDS_SIZE];

static int run(void) {
    static const uint16_t text[] = {'a', 'a'};
    uint16_t output[4];
    uint64_t seen = 0, first = 0, rest = 0;
    cobbletwill_session session = COBBLETWILL_FRESH, later;
    cobbletwill_input shown;
    if (cobbletwill_version() != COBBLETWILL_VERSION_NUMBER) {
        return 11;
    }
    if (cobbletwill_witness(table, sizeof table, words, COBBLETWILL_WORDS_SIZE, 0, &shown) != COBBLETWILL_OK) {
        return 9;
    }
    if (shown.length != 1 || shown.characters[0] != 'a') {
        return 10;
    }
    if (cobbletwill_compile(table, sizeof table, words, COBBLETWILL_WORDS_SIZE) != COBBLETWILL_OK) {
        return 1;
    }
    if (cobbletwill_preview(words, COBBLETWILL_WORDS_SIZE, &session, text, 2, &later, &seen) != COBBLETWILL_OPEN) {
        return 7;
    }
    if (cobbletwill_feed(words, COBBLETWILL_WORDS_SIZE, &session, text, 2, output, 4, &first) != COBBLETWILL_OPEN) {
        return 2;
    }
    if (seen != first || later.held_count != session.held_count || later.tally.steps != session.tally.steps) {
        return 8;
    }
    if (cobbletwill_finish(words, COBBLETWILL_WORDS_SIZE, &session, output + first, 4 - first, &rest) !=
        COBBLETWILL_OK) {
        return 3;
    }
    if (first != 1 || rest != 1 || output[0] != 'Y' || output[1] != 'X') {
        return 4;
    }
    if (session.tally.steps != 5) {
        return 5;
    }
    if (session.uses[0] != 1 || session.uses[1] != 1 || session.uses[COBBLETWILL_USES_DEFAULT] != 0) {
        return 6;
    }
    cobbletwill_session maker = COBBLETWILL_FRESH, writer = COBBLETWILL_FRESH;
    uint16_t middle[2];
    uint32_t status = COBBLETWILL_OK;
    if (cobbletwill_chain_feed(words, COBBLETWILL_WORDS_SIZE, &maker, words, COBBLETWILL_WORDS_SIZE, &writer, text, 2,
                               middle, 2, output, 4, &rest, &status) != COBBLETWILL_STOPPED) {
        return 12;
    }
    return status == COBBLETWILL_OPEN && rest == 0 && middle[0] == 'Y' ? 0 : 13;
}

/* Linux's exit; the stack is aligned as at a call. */
__attribute__((noreturn, force_align_arg_pointer)) void _start(void) {
    long number = 60, status = run();
    for (;;) {
        __asm__ volatile("syscall" : : "a"(number), "D"(status) : "rcx", "r11", "memory");
    }
}
