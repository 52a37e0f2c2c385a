/*
 * The stack of each function, measured on painted stacks under tables at the
 * limits, is within what the header states. Arguments name functions with the
 * most stack that their code can take (frames.awk): `NAME BYTES ...`; what is
 * measured is within that, and that within what the header states.
 */
#define _GNU_SOURCE
#include <stdbool.h>
#include <ucontext.h>

#include "cobbletwill.h"
#include "expect.h"
#include "rules.h"
#include "tables.h"

enum { DEEP = 1 << 13, PIECE = 5001, ROOM = 8 * (8 + PIECE), CHAIN_ROOM = 8 * (8 + ROOM) };

#define PAINT UINT64_C(0xa55aa55aa55aa55a)

/* The stack that calls are made on, in words. */
static uint64_t stack[DEEP];
static ucontext_t caller, callee;

static uint8_t table[LARGE_MOST + 9 * RECORD];
static size_t table_length;
static uint16_t rules[LONGEST_MOST];
static size_t rules_length;
static uint8_t records[COBBLETWILL_TABLE_SIZE];
static uint16_t words[COBBLETWILL_WORDS_SIZE];
static uint16_t text[PIECE];
static uint16_t middle[ROOM];
static uint16_t output[CHAIN_ROOM];
static uint64_t place, written, length;
static cobbletwill_session session, later, first, second;
static uint32_t first_status;
static uint32_t rule;
static cobbletwill_input input;
static uint32_t answer;

/* The bytes of stack that work takes. */
static size_t depth(void (*work)(void)) {
    for (size_t i = 0; i < DEEP; i++) {
        stack[i] = PAINT;
    }
    EXPECT(getcontext(&callee) == 0);
    callee.uc_stack.ss_sp = stack;
    callee.uc_stack.ss_size = sizeof stack;
    callee.uc_link = &caller;
    makecontext(&callee, work, 0);
    EXPECT(swapcontext(&caller, &callee) == 0);
    size_t clean = 0;
    while (clean < DEEP && stack[clean] == PAINT) {
        clean++;
    }
    EXPECT(clean > 0);
    return sizeof stack - clean * sizeof stack[0];
}

/* Each function is called through a pointer, so that a function with the same
 * parameters that takes no more than its return address can stand in for it. */
#define SUBJECT(name, parameters, arguments)                                \
    static uint32_t none_##name parameters { return 0; }                    \
    static uint32_t (*volatile the_##name) parameters = none_##name;        \
    static void call_##name(void) { answer = the_##name arguments; }        \
    static size_t depth_##name(void) {                                      \
        the_##name = none_##name;                                           \
        size_t without = depth(call_##name);                                \
        the_##name = cobbletwill_##name;                                    \
        return depth(call_##name) - without + 8;                            \
    }

#pragma GCC diagnostic push
#pragma GCC diagnostic ignored "-Wunused-parameter"
SUBJECT(version, (void), ())
SUBJECT(check, (const uint8_t *t, size_t tl), (table, table_length))
SUBJECT(convert,
        (const uint8_t *t, size_t tl, const uint16_t *i, size_t il, uint16_t *o, size_t ol, uint64_t *p, uint64_t *w),
        (table, table_length, text, PIECE, output, ROOM, &place, &written))
SUBJECT(from_text, (const uint16_t *t, size_t tl, uint8_t *r, size_t rl, uint64_t *n),
        (rules, rules_length, records, COBBLETWILL_TABLE_SIZE, &length))
SUBJECT(compile, (const uint8_t *t, size_t tl, uint16_t *w, size_t wl),
        (table, table_length, words, COBBLETWILL_WORDS_SIZE))
SUBJECT(witness, (const uint8_t *t, size_t tl, uint16_t *w, size_t wl, uint32_t r, cobbletwill_input *i),
        (table, table_length, words, COBBLETWILL_WORDS_SIZE, rule, &input))
SUBJECT(is_sound, (const uint16_t *w, size_t wl), (words, COBBLETWILL_WORDS_SIZE))
SUBJECT(feed_parts,
        (const uint16_t *w, size_t wl, cobbletwill_session *s, uint64_t *u, const uint16_t *p, size_t pl, uint16_t *o,
         size_t ol, uint64_t *n),
        (words, COBBLETWILL_WORDS_SIZE, &session, session.uses, text, PIECE, output, ROOM, &written))
SUBJECT(finish_parts,
        (const uint16_t *w, size_t wl, cobbletwill_session *s, uint64_t *u, uint16_t *o, size_t ol, uint64_t *n),
        (words, COBBLETWILL_WORDS_SIZE, &session, session.uses, output, ROOM, &written))
SUBJECT(preview_parts,
        (const uint16_t *w, size_t wl, const cobbletwill_session *s, const uint64_t *u, const uint16_t *p, size_t pl,
         cobbletwill_session *l, uint64_t *lu, uint64_t *n),
        (words, COBBLETWILL_WORDS_SIZE, &session, session.uses, text, PIECE, &later, later.uses, &written))
SUBJECT(chain_feed_parts,
        (const uint16_t *fw, size_t fwl, cobbletwill_session *f, uint64_t *fu, const uint16_t *sw, size_t swl,
         cobbletwill_session *s, uint64_t *su, const uint16_t *p, size_t pl, uint16_t *m, size_t ml, uint16_t *o,
         size_t ol, uint64_t *n, uint32_t *fs),
        (words, COBBLETWILL_WORDS_SIZE, &first, first.uses, words, COBBLETWILL_WORDS_SIZE, &second, second.uses, text,
         PIECE, middle, ROOM, output, CHAIN_ROOM, &written, &first_status))
SUBJECT(chain_finish_parts,
        (const uint16_t *fw, size_t fwl, cobbletwill_session *f, uint64_t *fu, const uint16_t *sw, size_t swl,
         cobbletwill_session *s, uint64_t *su, uint16_t *m, size_t ml, uint16_t *o, size_t ol, uint64_t *n,
         uint32_t *fs),
        (words, COBBLETWILL_WORDS_SIZE, &first, first.uses, words, COBBLETWILL_WORDS_SIZE, &second, second.uses, middle,
         ROOM, output, CHAIN_ROOM, &written, &first_status))
#pragma GCC diagnostic pop

enum {
    VERSION,
    CHECK,
    CONVERT,
    FROM_TEXT,
    COMPILE,
    WITNESS,
    IS_SOUND,
    FEED,
    FINISH,
    PREVIEW,
    CHAIN_FEED,
    CHAIN_FINISH,
    SUBJECTS
};

/* A function's name, the stack that it may take, and the most that was measured. */
static struct subject {
    const char *name;
    size_t limit, measured;
} subjects[SUBJECTS] = {
    [VERSION] = {"cobbletwill_version", COBBLETWILL_MAX_STACK_VERSION, 0},
    [CHECK] = {"cobbletwill_check", COBBLETWILL_MAX_STACK_CHECK, 0},
    [CONVERT] = {"cobbletwill_convert", COBBLETWILL_MAX_STACK_CONVERT, 0},
    [FROM_TEXT] = {"cobbletwill_from_text", COBBLETWILL_MAX_STACK_FROM_TEXT, 0},
    [COMPILE] = {"cobbletwill_compile", COBBLETWILL_MAX_STACK_COMPILE, 0},
    [WITNESS] = {"cobbletwill_witness", COBBLETWILL_MAX_STACK_WITNESS, 0},
    [IS_SOUND] = {"cobbletwill_is_sound", COBBLETWILL_MAX_STACK_IS_SOUND, 0},
    [FEED] = {"cobbletwill_feed_parts", COBBLETWILL_MAX_STACK_FEED, 0},
    [FINISH] = {"cobbletwill_finish_parts", COBBLETWILL_MAX_STACK_FINISH, 0},
    [PREVIEW] = {"cobbletwill_preview_parts", COBBLETWILL_MAX_STACK_PREVIEW, 0},
    [CHAIN_FEED] = {"cobbletwill_chain_feed_parts", COBBLETWILL_MAX_STACK_CHAIN_FEED, 0},
    [CHAIN_FINISH] = {"cobbletwill_chain_finish_parts", COBBLETWILL_MAX_STACK_CHAIN_FINISH, 0},
};

static void note(int subject, size_t bytes, uint32_t expected) {
    EXPECT(answer == expected);
    if (bytes > subjects[subject].measured) {
        subjects[subject].measured = bytes;
    }
}

/* Every function of tables and words, on a text that ends in the middle of a pattern. */
static void measure(void) {
    const cobbletwill_session fresh = COBBLETWILL_FRESH;
    session = first = second = fresh;
    note(VERSION, depth_version(), COBBLETWILL_VERSION_NUMBER);
    note(CHECK, depth_check(), COBBLETWILL_OK);
    note(CONVERT, depth_convert(), COBBLETWILL_OK);
    note(COMPILE, depth_compile(), COBBLETWILL_OK);
    note(IS_SOUND, depth_is_sound(), 1);
    note(PREVIEW, depth_preview_parts(), COBBLETWILL_OPEN);
    EXPECT(session.received == 0 && later.held_count > 0);
    note(FEED, depth_feed_parts(), COBBLETWILL_OPEN);
    EXPECT(session.held_count > 0);
    note(FINISH, depth_finish_parts(), COBBLETWILL_OK);
    note(CHAIN_FEED, depth_chain_feed_parts(), COBBLETWILL_OPEN);
    EXPECT(first.held_count > 0);
    note(CHAIN_FINISH, depth_chain_finish_parts(), COBBLETWILL_OK);
}

/* 64 classes and 256 states, and a default that writes eight characters, four of them digits. */
static void put_table(void) {
    table_length = put_large(table, 0, 7);
    const uint8_t head[] = {DEFAULT};
    memcpy(table + table_length, head, sizeof head);
    table_length += sizeof head;
    for (int i = 0; i < 4; i++) {
        const uint8_t characters[] = {OUTPUT('A'), DIGIT(0, 4)};
        memcpy(table + table_length, characters, sizeof characters);
        table_length += sizeof characters;
    }
}

/* Typed rules: the longest ones, and sums within each other up to 16 deep and beyond. */
static void measure_typed(void) {
    rules_length = put_longest(rules);
    note(FROM_TEXT, depth_from_text(), COBBLETWILL_OK);
    for (int depth = 1; depth < 100; depth++) {
        rules_length = put_nested(rules, depth);
        note(FROM_TEXT, depth_from_text(), depth <= 16 ? COBBLETWILL_OK : COBBLETWILL_REFUSED_GRAMMAR);
    }
}

/* Every rule of the table, which all are live, and a number that none has. */
static void measure_rules(void) {
    for (rule = 0; rule <= LARGE_RULES; rule++) {
        note(WITNESS, depth_witness(), rule < LARGE_RULES ? COBBLETWILL_OK : COBBLETWILL_DEAD);
    }
}

/* The subject of a name. */
static struct subject *find(const char *name) {
    for (int i = 0; i < SUBJECTS; i++) {
        if (strcmp(subjects[i].name, name) == 0) {
            return &subjects[i];
        }
    }
    fprintf(stderr, "stack.c: %s has no limit\n", name);
    exit(1);
}

int main(int argc, char **argv) {
    put_table();
    /* Patterns of eight 0, and one 0 more; then characters of the default, and a 0. */
    measure();
    for (size_t i = 0; i < PIECE - 1; i++) {
        text[i] = 1;
    }
    measure();
    measure_typed();
    measure_rules();

    bool held = true;
    for (int i = 0; i < SUBJECTS; i++) {
        printf("%s: %zu bytes of stack, at most %zu\n", subjects[i].name, subjects[i].measured, subjects[i].limit);
        held = held && subjects[i].measured > 0 && subjects[i].measured <= subjects[i].limit;
    }
    EXPECT(argc == 1 + 2 * SUBJECTS);
    for (int i = 1; i < argc; i += 2) {
        size_t most = strtoul(argv[i + 1], NULL, 10);
        struct subject *subject = find(argv[i]);
        printf("%s: %zu bytes by its code\n", argv[i], most);
        held = held && subject->measured <= most && most <= subject->limit;
    }
    return held ? 0 : 1;
}
