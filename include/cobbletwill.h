/*
 * Cobbletwill: conversion of text under a table of rules, tables of rules that are
 * typed as text, compiling a table into machine words, inputs that show which rules
 * can be chosen, and conversion by the words, piece by piece, with a look ahead at
 * what a piece would give, and by two tables in a row.
 *
 * The library is libcobbletwill.a, for x86-64 Linux. docs/FORMAT.md of its sources
 * has tables, typed rules, machine words and sessions character by character and
 * byte by byte. K is the length of a rule's pattern, L the greatest K of a table, and E
 * the greatest number of output characters in a group, which is a rule or the default;
 * under a marked default, at least 1.
 *
 * Pairs. A character is a unit of 16 bits. UTF-16 has two units for a character outside
 * the basic plane: a first, 55296 to 56319, and a second, 56320 to 57343. A default takes
 * one unit and writes its own output. A marked default, whose record has 1 in byte 1,
 * takes both units of such a pair, where no rule fits, and writes both unchanged; any
 * other unit it treats alone, as one without the mark does. A first unit at the end of a
 * piece waits for what follows, and is treated alone at the input's end.
 *
 * Chains. Two machines in a row: the first's text is fed to the second, by way of a
 * middle buffer that is lent. Each has words and a session of its own, its L, E and
 * characters held with them. The least middle length is the first's E times the
 * characters that it holds and those of the piece.
 *
 * Names. COBBLETWILL_REFUSED_... is the number of a refusal, COBBLETWILL_..._SIZE a
 * number of elements, with which an array is declared, and COBBLETWILL_MAX_... a
 * greatest number.
 *
 * Buffers. A buffer is a pointer to its first element and then its number of
 * elements. With the number 0 the pointer is not used and may be null. No other
 * pointer may be null: `session`, `later`, `first`, `second`, `place`, `written`,
 * `first_status`, `length` and the `input` of witness always point to one object,
 * `uses`, `later_uses`, `first_uses` and `second_uses` to 34. Pointers are aligned as
 * their type.
 *
 * Overlaps. What a call may write (the table of from_text, the words of compile
 * and witness, the `*input` of witness, `middle`, `output`, the `*session` and `uses`
 * of feed and finish, `*later`, `later_uses`, `*first`, `first_uses`, `*second`,
 * `second_uses`, `*place`, `*written`, `*first_status`, `*length`) must not overlap
 * anything else that is passed to it. Where counts of uses are passed too, a session
 * is the 48 bytes before its counts. What a call only reads (`text`, `table` but for
 * that of from_text, the `input` of convert, `piece`, the words of feed, finish,
 * preview and a chain, the `*session` and `uses` of preview) may overlap, and may lie
 * in read-only memory: so both machines of a chain may have the same words, and each
 * its own session.
 *
 * A refused call writes nothing, but for a compile or a witness refused by 1 to 9,
 * which leaves its words 0. So at any other refusal what could have been written may
 * lie in read-only memory too.
 *
 * Nothing is kept after a call, no memory is taken from a heap, there is no static
 * data that is written, and calls on buffers of their own may run at once.
 */
#ifndef COBBLETWILL_H
#define COBBLETWILL_H

#include <stddef.h>
#include <stdint.h>

/* The version of this header and its library: record kinds, word and session
 * layout, answers, functions. Words of 0.2, which has no digits, are not for later
 * versions. Tables and words of 0.4, which has no from_text, of 0.5, which has no
 * preview, of 0.6, which has no witness, of 0.7, which takes terms by rising position
 * alone, of 0.8, which has other names of refusals and sizes, of 0.9, which has no
 * marked default, and of 0.10, which has no chains, stay valid. So do sessions of 0.10,
 * and not those of the versions before: in 0.9 a session is 312 bytes and has no count
 * of pairs. */
#define COBBLETWILL_VERSION_MAJOR 0
#define COBBLETWILL_VERSION_MINOR 11
#define COBBLETWILL_VERSION_PATCH 0
#define COBBLETWILL_VERSION "0.11.0"

/* The version as one number, which rises with it; that of the library is what
 * cobbletwill_version() answers. */
#define COBBLETWILL_VERSION_NUMBER                                          \
    (UINT32_C(65536) * COBBLETWILL_VERSION_MAJOR +                          \
     UINT32_C(256) * COBBLETWILL_VERSION_MINOR + COBBLETWILL_VERSION_PATCH)

/* A function whose answer has to be looked at, where the compiler can warn. */
#if (defined(__cplusplus) && __cplusplus >= 201703L) || \
    (defined(__STDC_VERSION__) && __STDC_VERSION__ >= 202311L)
#define COBBLETWILL_ANSWERS [[nodiscard]]
#elif defined(__GNUC__)
#define COBBLETWILL_ANSWERS __attribute__((warn_unused_result))
#else
#define COBBLETWILL_ANSWERS
#endif

#ifdef __cplusplus
extern "C" {
#endif

/* Sizes and limits. */
enum {
    /* The bytes of a buffer for every table that is accepted: 3,377 records of 8. */
    COBBLETWILL_TABLE_SIZE = 27016,
    /* The machine words of a table, of 16 bits each. */
    COBBLETWILL_WORDS_SIZE = 19961,
    /* The characters of an input that shows a rule: those of the longest pattern,
     * and one more. */
    COBBLETWILL_INPUT_SIZE = 9,
    /* The characters that a session can hold. */
    COBBLETWILL_HELD_SIZE = 8,
    /* The counts of uses in a session: a rule's at its number, 0 to 31, the default's
     * on one unit at COBBLETWILL_USES_DEFAULT, and on a pair at COBBLETWILL_PAIRS. */
    COBBLETWILL_USES_SIZE = 34,
    COBBLETWILL_USES_DEFAULT = 32,
    COBBLETWILL_PAIRS = 33,

    /* The greatest numbers of a table and its machine: K or L, E, rules, classes of
     * characters, states. */
    COBBLETWILL_MAX_PATTERN = 8,
    COBBLETWILL_MAX_EXPANSION = 8,
    COBBLETWILL_MAX_RULES = 32,
    COBBLETWILL_MAX_CLASSES = 64,
    COBBLETWILL_MAX_STATES = 256
};

/* The most characters that a session receives and that direct conversion takes. */
#define COBBLETWILL_MAX_CHARACTERS UINT64_C(1099511627776)

/* The most stack that a call takes on x86-64, in bytes: its return address, and
 * all below but for the frames of memcpy and memset. Where these two are bound
 * lazily, the first call of each also takes the dynamic linker's own frames, some
 * 3,000 bytes; a program linked statically or with `-z now` has them bound before.
 * Feed, finish and preview, and feed and finish of a chain, are inline: these are the
 * limits of the functions that they call, and a frame of their own, where the compiler
 * makes one, is the caller's. */
enum {
    COBBLETWILL_MAX_STACK_VERSION = 256,
    COBBLETWILL_MAX_STACK_CHECK = 12288,
    COBBLETWILL_MAX_STACK_CONVERT = 14336,
    COBBLETWILL_MAX_STACK_FROM_TEXT = 32768,
    COBBLETWILL_MAX_STACK_COMPILE = 14336,
    COBBLETWILL_MAX_STACK_WITNESS = 14336,
    COBBLETWILL_MAX_STACK_IS_SOUND = 256,
    COBBLETWILL_MAX_STACK_FEED = 1536,
    COBBLETWILL_MAX_STACK_FINISH = 1536,
    COBBLETWILL_MAX_STACK_PREVIEW = 1536,
    COBBLETWILL_MAX_STACK_CHAIN_FEED = 2304,
    COBBLETWILL_MAX_STACK_CHAIN_FINISH = 2304
};

/* The answers of the check, of conversion, of from_text, of compiling, of witness,
 * of feed, of finish and of preview, and of feed and finish of a chain. A refusal
 * answers its number. */
enum {
    /* The table or the text is accepted; the conversion or the session closed at
     * the input's end; the table is compiled; the rule is live. */
    COBBLETWILL_OK = 0,

    /* 1: the table's length is no multiple of 8. */
    COBBLETWILL_REFUSED_TABLE_LENGTH = 1,
    /* 2: unknown kind, a field outside its own range, as a default's mark above 1, a
     * byte that must be zero and isn't, lowest above highest. */
    COBBLETWILL_REFUSED_FIELD = 2,
    /* 3: a record where its kind can't come, a position not below K, ranges out
     * of order, a term's position repeated. */
    COBBLETWILL_REFUSED_PLACE = 3,
    /* 4: a position skipped, or unfilled when the ranges end. */
    COBBLETWILL_REFUSED_UNFILLED = 4,
    /* 5: no rule. */
    COBBLETWILL_REFUSED_NO_RULE = 5,
    /* 6: a 33rd rule, fifth range of a position, ninth output character. */
    COBBLETWILL_REFUSED_TOO_MANY = 6,
    /* 7: an output value may leave 0 to 65535. */
    COBBLETWILL_REFUSED_VALUE = 7,
    /* 8: a 65th class of characters (compile and witness only). */
    COBBLETWILL_REFUSED_CLASSES = 8,
    /* 9: a 257th state (compile and witness only). */
    COBBLETWILL_REFUSED_STATES = 9,
    /* 10: under 19,961 words for compile or witness. */
    COBBLETWILL_REFUSED_SHORT_WORDS = 10,
    /* 11: under 19,961 words for feed, finish, preview or a chain, or words that are
     * not sound. */
    COBBLETWILL_REFUSED_UNSOUND_WORDS = 11,
    /* 12: a session that is not sound. */
    COBBLETWILL_REFUSED_UNSOUND_SESSION = 12,
    /* 13: a session that is closed or stopped. */
    COBBLETWILL_REFUSED_ENDED = 13,
    /* 14: an input above 1,099,511,627,776 characters; for feed and preview, the
     * characters received with those of the piece. A finish never meets it, but for
     * that of a chain: there the least middle length is the second's piece. */
    COBBLETWILL_REFUSED_TOO_LONG = 14,
    /* 15: an output buffer shorter than E times the input, E being the greatest
     * number of output characters in a group of the table, and at least 1 under a
     * marked default; for feed, shorter than E times the characters held and those
     * of the piece; for finish, shorter than E times the characters held. 8 times as
     * many is enough for every table. For a chain, shorter than the second's E times
     * the characters that it holds and the least middle length. For from_text, a table
     * shorter than the text's records. */
    COBBLETWILL_REFUSED_SHORT_OUTPUT = 15,
    /* 16: a text outside the grammar. */
    COBBLETWILL_REFUSED_GRAMMAR = 16,
    /* 17: a product both of whose factors have a coefficient other than 0, a
     * constant or coefficient of any part outside signed 32 bits, a final
     * coefficient outside signed 16 bits. */
    COBBLETWILL_REFUSED_EXPRESSION = 17,
    /* 18: a middle buffer shorter than the least middle length, which is the first's E
     * times the characters that it holds and those of the piece; for finish, E times
     * the characters that it holds. */
    COBBLETWILL_REFUSED_SHORT_MIDDLE = 18,

    /* No rule fits and there is no default: the conversion or the session
     * stopped. */
    COBBLETWILL_STOPPED = 64,
    /* The call is accepted, and the session waits for more. */
    COBBLETWILL_OPEN = 65,
    /* The table is compiled, and the rule is dead: no input has it chosen
     * anywhere. */
    COBBLETWILL_DEAD = 66
};

/* Whether an answer is a refusal, which is none of 0, 64, 65 and 66: a number from
 * 1 to 63, of which 1 to 18 are in use and the others for later versions. */
#define COBBLETWILL_IS_REFUSAL(answer) ((answer) - UINT32_C(1) < UINT32_C(63))

/* A refusal in words; for any other answer, "no refusal". */
static inline const char *cobbletwill_refusal_text(uint32_t answer) {
    switch (answer) {
    case COBBLETWILL_REFUSED_TABLE_LENGTH:
        return "length no multiple of 8";
    case COBBLETWILL_REFUSED_FIELD:
        return "unknown kind, a field outside its own range, "
               "a byte that must be zero and isn't, lowest above highest";
    case COBBLETWILL_REFUSED_PLACE:
        return "a record where its kind can't come, a position not below K, "
               "ranges out of order, a term's position repeated";
    case COBBLETWILL_REFUSED_UNFILLED:
        return "a position skipped, or unfilled when the ranges end";
    case COBBLETWILL_REFUSED_NO_RULE:
        return "no rule";
    case COBBLETWILL_REFUSED_TOO_MANY:
        return "a 33rd rule, fifth range of a position, ninth output character";
    case COBBLETWILL_REFUSED_VALUE:
        return "an output value may leave 0 to 65535";
    case COBBLETWILL_REFUSED_CLASSES:
        return "a 65th class";
    case COBBLETWILL_REFUSED_STATES:
        return "a 257th state";
    case COBBLETWILL_REFUSED_SHORT_WORDS:
        return "under 19,961 words for compiling";
    case COBBLETWILL_REFUSED_UNSOUND_WORDS:
        return "under 19,961 words or not sound";
    case COBBLETWILL_REFUSED_UNSOUND_SESSION:
        return "session not sound";
    case COBBLETWILL_REFUSED_ENDED:
        return "session closed or stopped";
    case COBBLETWILL_REFUSED_TOO_LONG:
        return "received plus piece (direct: input) above 1,099,511,627,776";
    case COBBLETWILL_REFUSED_SHORT_OUTPUT:
        return "output shorter than E times (held + piece); "
               "finish: E times held; direct: E times input; text: its records; "
               "chain: the second's E times (held + least middle length)";
    case COBBLETWILL_REFUSED_GRAMMAR:
        return "text outside the grammar";
    case COBBLETWILL_REFUSED_EXPRESSION:
        return "a product both of whose factors have a coefficient other than 0, "
               "a constant or coefficient of any part outside signed 32 bits, "
               "a final coefficient outside signed 16 bits";
    case COBBLETWILL_REFUSED_SHORT_MIDDLE:
        return "middle buffer shorter than the least middle length, "
               "the first's E times (held + piece); finish: E times held";
    default:
        return "no refusal";
    }
}

/* The version of the library, as COBBLETWILL_VERSION_NUMBER is that of this header. */
uint32_t cobbletwill_version(void);

/*
 * The table check. `table` has `table_length` bytes, in records of 8, of the kinds
 * 1 to 6.
 *
 * Answers 0 for a table that direct conversion accepts, else the first refusal
 * of 1 to 7 in the order that stands at cobbletwill_compile.
 */
COBBLETWILL_ANSWERS
uint32_t cobbletwill_check(const uint8_t *table, size_t table_length);

/*
 * Direct conversion. `table` has `table_length` bytes, `input` has
 * `input_length` characters of 16 bits, `output` has room for `output_length`
 * characters. `place` and `written` each point to one number.
 *
 * Answers 0 where the input's end was reached, or 64 where the conversion
 * stopped before it. Then `*place` is the place where it ended (at 0, the
 * number of characters of the input), `*written` is the number of characters
 * written from the start of `output`, and the rest of `output` is as found.
 *
 * Else answers the first refusal of the check, then 14, 15 in this order, and
 * `output`, `*place` and `*written` are as found.
 */
COBBLETWILL_ANSWERS
uint32_t cobbletwill_convert(const uint8_t *table, size_t table_length,
                             const uint16_t *input, size_t input_length,
                             uint16_t *output, size_t output_length,
                             uint64_t *place, uint64_t *written);

/*
 * Rules typed as text. `text` has `text_length` characters of 16 bits, as
 *
 *     "&#[0-9][0-9];" ==> [10 * x2 + x3 - 528];
 *     else ==> [x0];
 *
 * `table` has room for `table_length` bytes, of which COBBLETWILL_TABLE_SIZE are enough
 * for every text. `length` points to one number.
 *
 * Answers 0 for a text that is accepted. Then `*length` is the length in bytes of
 * its records, in the text's order, which are written from the start of `table`,
 * and the rest of `table` is as found. The records are of the kinds 1 to 5, the
 * default's without the mark, the check accepts them, and they mean what the text does.
 *
 * Else answers the first refusal in this order, and `table` and `*length` are as
 * found:
 *
 *   16  anywhere in the text, something outside the grammar
 *   17  anywhere in the text, a product both of whose factors have a coefficient
 *       other than 0, a constant or coefficient of any part outside signed 32
 *       bits, a final coefficient outside signed 16 bits
 *   then for the records, what the check answers:
 *    2  lowest above highest
 *    3  a line behind that of `else`, a position not below K, ranges out of order
 *    6  a 33rd rule, fifth range of a position, ninth output character
 *   and after all of them
 *    5  no rule
 *    7  an output value may leave 0 to 65535
 *   then
 *   15  `table_length` below the length of the records
 */
COBBLETWILL_ANSWERS
uint32_t cobbletwill_from_text(const uint16_t *text, size_t text_length,
                               uint8_t *table, size_t table_length,
                               uint64_t *length);

/*
 * Compiling. `table` has `table_length` bytes, in records of 8. `words` has room
 * for `words_length` words, of which the first 19,961 (COBBLETWILL_WORDS_SIZE) are
 * written; those beyond stay as found.
 *
 * Answers 0 for a table that is compiled; the words are then its machine words,
 * words not in use being 0. Else answers the first refusal in this order:
 *
 *   10  fewer than 19,961 words: `words` is as found
 *    1  the table's length is no multiple of 8
 *   then record by record, from the first, the first of
 *    2  unknown kind, a field outside its own range, a byte that must be zero
 *       and isn't, lowest above highest
 *    3  a record where its kind can't come, a position not below K, ranges out
 *       of order, a term's position repeated
 *    4  a position skipped, or unfilled when the ranges end
 *    6  a 33rd rule, fifth range of a position, ninth output character
 *   then for the whole table
 *    4  a position unfilled at the table's end
 *    5  no rule
 *    7  an output value may leave 0 to 65535
 *    8  a 65th class
 *    9  a 257th state
 *
 * Refused by 1 to 9, the first 19,961 words are 0.
 */
COBBLETWILL_ANSWERS
uint32_t cobbletwill_compile(const uint8_t *table, size_t table_length,
                             uint16_t *words, size_t words_length);

/* An input that shows a rule: 20 bytes aligned as a uint16_t, the fields in this
 * order without gaps. */
typedef struct cobbletwill_input {
    /* How many characters it has, at most 9; 0 where no input shows the rule. */
    uint16_t length;
    /* The characters. Places from `length` on are 0. */
    uint16_t characters[COBBLETWILL_INPUT_SIZE];
} cobbletwill_input;

/*
 * Witness: whether a rule can be chosen. The table is compiled first; `table` and
 * `words` are as for cobbletwill_compile, and `words` are left as that leaves them.
 * `rule` is any number; rules are numbered from 0. `input` points to an input of any
 * content.
 *
 * Answers 0 for a live rule. Then `*input` has 1 to 9 characters on which the rule is
 * the first choice: of the rules that fit at the start of this input, it is the
 * shortest and of those the lowest. Which of such inputs it is, is free.
 *
 * Answers 66 for a dead rule: no input of any length has it chosen anywhere. A number
 * that no rule has is dead too. Then `*input` is all 0.
 *
 * Else answers the first refusal of compiling, 10 or 1 to 9, in its order, and
 * `*input` is as found. Refused by 1 to 9, the first 19,961 words are 0.
 */
COBBLETWILL_ANSWERS
uint32_t cobbletwill_witness(const uint8_t *table, size_t table_length,
                             uint16_t *words, size_t words_length, uint32_t rule,
                             cobbletwill_input *input);

/*
 * The test of words. `words` has `words_length` words, which are only read. Only
 * the words in use, of the first 19,961, decide the answer: those of the states,
 * classes, rules, default and output characters that the words have. Any of the
 * 19,961 may be read, and none beyond them. A memory checker that knows which bytes
 * were ever set may show a read of others; no answer depends on them.
 *
 * Answers 1 for sound words, on which a machine may run, and 0 for words that
 * are not sound or fewer than 19,961. Words that cobbletwill_compile has
 * written with the answer 0 are sound, and so are those that cobbletwill_witness has
 * written with the answer 0 or 66.
 */
COBBLETWILL_ANSWERS
uint32_t cobbletwill_is_sound(const uint16_t *words, size_t words_length);

/* What a session has counted. */
typedef struct cobbletwill_tally {
    /* Characters written. */
    uint64_t produced;
    /* Steps of the machine. */
    uint64_t steps;
} cobbletwill_tally;

/*
 * What a feed or a finish leaves for the next one: 320 bytes aligned as a uint64_t,
 * the fields in this order without gaps. With all of it 0 a session is fresh, as
 *
 *     cobbletwill_session session = COBBLETWILL_FRESH;
 *
 * makes it. A session belongs to the words that it was fed by. It may be copied,
 * kept anywhere and lent again later. One that was altered meanwhile is refused
 * by 12 where it is not sound, and else gone on with as it stands.
 */
typedef struct cobbletwill_session {
    /* Characters received; when stopped, those consumed. At most
     * 1,099,511,627,776. */
    uint64_t received;
    /* What was counted. */
    cobbletwill_tally tally;
    /* 0 open, 1 closed, 2 stopped. */
    uint32_t status;
    /* The number of the machine's state. */
    uint16_t state;
    /* How many characters are held, at most 8. Received less this is consumed. */
    uint16_t held_count;
    /* The characters held: received, but not decided yet. Places from
     * `held_count` on are 0. At state 0 none is held, but for a first unit that no
     * pattern begins with, which waits under a marked default. */
    uint16_t held[COBBLETWILL_HELD_SIZE];
    /* How often each rule was used, that is, wrote its output: rule i at i, and
     * the default on one unit at COBBLETWILL_USES_DEFAULT; and how many pairs it let
     * through, at COBBLETWILL_PAIRS. Each count times the length of its pattern, the
     * default's times 1 and that of pairs times 2, add up to the characters consumed.
     * Counts of rules or a default that the table lacks are 0, and that of pairs where
     * its default is not marked. */
    uint64_t uses[COBBLETWILL_USES_SIZE];
} cobbletwill_session;

/* The value that a fresh session is initialized by. */
#define COBBLETWILL_FRESH {0, {0, 0}, 0, 0, 0, {0}, {0}}

/* The layout that the library was built for. */
#if defined(__cplusplus) && __cplusplus >= 201103L
#define COBBLETWILL_HOLDS(condition) static_assert(condition, #condition)
#elif defined(__STDC_VERSION__) && __STDC_VERSION__ >= 202311L
#define COBBLETWILL_HOLDS(condition) static_assert(condition, #condition)
#elif defined(__STDC_VERSION__) && __STDC_VERSION__ >= 201112L
#define COBBLETWILL_HOLDS(condition) _Static_assert(condition, #condition)
#endif
#ifdef COBBLETWILL_HOLDS
COBBLETWILL_HOLDS(COBBLETWILL_TABLE_SIZE == 8 * (32 * (1 + 8 * 4 + 8 * 9) + 1 + 8 * 2));
COBBLETWILL_HOLDS(COBBLETWILL_WORDS_SIZE ==
                  6 + 64 + 3 * 256 + 64 * 256 + 33 * (3 + 8 * 10));
COBBLETWILL_HOLDS(sizeof(cobbletwill_input) == 2 + 9 * 2);
COBBLETWILL_HOLDS(offsetof(cobbletwill_input, length) == 0);
COBBLETWILL_HOLDS(offsetof(cobbletwill_input, characters) == 2);
COBBLETWILL_HOLDS(sizeof(cobbletwill_tally) == 16);
COBBLETWILL_HOLDS(offsetof(cobbletwill_tally, produced) == 0);
COBBLETWILL_HOLDS(offsetof(cobbletwill_tally, steps) == 8);
COBBLETWILL_HOLDS(sizeof(cobbletwill_session) == 8 + 16 + 4 + 2 + 2 + 8 * 2 + 34 * 8);
COBBLETWILL_HOLDS(offsetof(cobbletwill_session, received) == 0);
COBBLETWILL_HOLDS(offsetof(cobbletwill_session, tally) == 8);
COBBLETWILL_HOLDS(offsetof(cobbletwill_session, status) == 24);
COBBLETWILL_HOLDS(offsetof(cobbletwill_session, state) == 28);
COBBLETWILL_HOLDS(offsetof(cobbletwill_session, held_count) == 30);
COBBLETWILL_HOLDS(offsetof(cobbletwill_session, held) == 32);
COBBLETWILL_HOLDS(offsetof(cobbletwill_session, uses) == 48);
COBBLETWILL_HOLDS(COBBLETWILL_USES_SIZE == COBBLETWILL_PAIRS + 1);
COBBLETWILL_HOLDS(COBBLETWILL_PAIRS == COBBLETWILL_USES_DEFAULT + 1);
COBBLETWILL_HOLDS(COBBLETWILL_USES_DEFAULT == COBBLETWILL_MAX_RULES);
COBBLETWILL_HOLDS(COBBLETWILL_HELD_SIZE == COBBLETWILL_MAX_PATTERN);
COBBLETWILL_HOLDS(COBBLETWILL_INPUT_SIZE == COBBLETWILL_MAX_PATTERN + 1);
#undef COBBLETWILL_HOLDS
#endif

/*
 * Feed and finish of a session that is lent in two parts, for callers that can't
 * call the inline functions below. `session` points to a session, of which the 48
 * bytes before its counts are read and written and the others not touched; `uses`
 * points to its 34 counts, there or elsewhere. A call changes counts where they
 * stand and copies none. All else is as for cobbletwill_feed and
 * cobbletwill_finish.
 */
COBBLETWILL_ANSWERS
uint32_t cobbletwill_feed_parts(const uint16_t *words, size_t words_length,
                                cobbletwill_session *session, uint64_t *uses,
                                const uint16_t *piece, size_t piece_length,
                                uint16_t *output, size_t output_length,
                                uint64_t *written);
COBBLETWILL_ANSWERS
uint32_t cobbletwill_finish_parts(const uint16_t *words, size_t words_length,
                                  cobbletwill_session *session, uint64_t *uses,
                                  uint16_t *output, size_t output_length,
                                  uint64_t *written);

/*
 * Preview of a session that is lent in two parts, likewise: the session and its
 * counts of uses, which are only read, and the later session and its counts.
 */
COBBLETWILL_ANSWERS
uint32_t cobbletwill_preview_parts(const uint16_t *words, size_t words_length,
                                   const cobbletwill_session *session,
                                   const uint64_t *uses, const uint16_t *piece,
                                   size_t piece_length, cobbletwill_session *later,
                                   uint64_t *later_uses, uint64_t *written);

/*
 * Feed and finish of a chain whose sessions are lent in two parts each, likewise. All
 * else is as for cobbletwill_chain_feed and cobbletwill_chain_finish.
 */
COBBLETWILL_ANSWERS
uint32_t cobbletwill_chain_feed_parts(
    const uint16_t *first_words, size_t first_words_length, cobbletwill_session *first,
    uint64_t *first_uses, const uint16_t *second_words, size_t second_words_length,
    cobbletwill_session *second, uint64_t *second_uses, const uint16_t *piece,
    size_t piece_length, uint16_t *middle, size_t middle_length, uint16_t *output,
    size_t output_length, uint64_t *written, uint32_t *first_status);
COBBLETWILL_ANSWERS
uint32_t cobbletwill_chain_finish_parts(
    const uint16_t *first_words, size_t first_words_length, cobbletwill_session *first,
    uint64_t *first_uses, const uint16_t *second_words, size_t second_words_length,
    cobbletwill_session *second, uint64_t *second_uses, uint16_t *middle,
    size_t middle_length, uint16_t *output, size_t output_length, uint64_t *written,
    uint32_t *first_status);

/*
 * What machine words say of their table, and the output that a call needs. These
 * functions are safe on any words and sessions. They look at the first six of the
 * words alone, and answer 0 where these can't be sound or there are fewer than
 * 19,961: so for erased memory, all 0 or all 65535. They don't say that words are
 * sound; the call itself does.
 */

/* Whether the first six words are within the limits of sound words: 1 or 0. Words of
 * which this is 0 are not sound; cobbletwill_is_sound tests the others. */
static inline uint32_t cobbletwill_may_be_sound(const uint16_t *words,
                                                size_t words_length) {
    return words_length >= COBBLETWILL_WORDS_SIZE && words[0] >= 1 &&
           words[0] <= COBBLETWILL_MAX_STATES && words[1] >= 1 &&
           words[1] <= COBBLETWILL_MAX_CLASSES && words[2] >= 1 &&
           words[2] <= COBBLETWILL_MAX_PATTERN && words[3] <= COBBLETWILL_MAX_EXPANSION &&
           words[4] >= 1 && words[4] <= COBBLETWILL_MAX_RULES && words[5] <= 2 &&
           (words[5] < 2 || words[3] >= 1);
}

/* L, 1 to 8. */
static inline uint32_t cobbletwill_longest_pattern(const uint16_t *words,
                                                   size_t words_length) {
    if (!cobbletwill_may_be_sound(words, words_length)) {
        return 0;
    }
    return words[2];
}

/* E, 0 to 8. Sound words have 0 too, where no group writes anything and the default is
 * not marked: a room is divided by E in cobbletwill_longest_piece. */
static inline uint32_t cobbletwill_expansion(const uint16_t *words,
                                             size_t words_length) {
    if (!cobbletwill_may_be_sound(words, words_length)) {
        return 0;
    }
    return words[3];
}

/* The number of rules, 1 to 32. */
static inline uint32_t cobbletwill_rule_count(const uint16_t *words,
                                              size_t words_length) {
    if (!cobbletwill_may_be_sound(words, words_length)) {
        return 0;
    }
    return words[4];
}

/* 1 where there is a default, marked or not. */
static inline uint32_t cobbletwill_has_default(const uint16_t *words,
                                               size_t words_length) {
    if (!cobbletwill_may_be_sound(words, words_length)) {
        return 0;
    }
    return words[5] != 0;
}

/* 1 where there is a marked default, which lets pairs through whole. */
static inline uint32_t cobbletwill_keeps_pairs(const uint16_t *words,
                                               size_t words_length) {
    if (!cobbletwill_may_be_sound(words, words_length)) {
        return 0;
    }
    return words[5] == 2;
}

/*
 * The characters of output that a feed of a piece of `piece_length` needs: E times
 * (held plus `piece_length`). Where that is more than a size_t holds, the greatest
 * size_t; a feed of so long a piece is refused by 14.
 *
 * 0 for words or a session that can't be sound, with a `held_count` above 8. Make the
 * call with that room too: it is refused by 11 or 12.
 */
static inline size_t cobbletwill_feed_room(const uint16_t *words, size_t words_length,
                                           const cobbletwill_session *session,
                                           size_t piece_length) {
    const size_t expansion = cobbletwill_expansion(words, words_length);
    const size_t greatest = (size_t)-1;
    if (expansion == 0 || session->held_count > COBBLETWILL_HELD_SIZE) {
        return 0;
    }
    if (piece_length > greatest / COBBLETWILL_MAX_EXPANSION - COBBLETWILL_HELD_SIZE) {
        return greatest;
    }
    return expansion * (session->held_count + piece_length);
}

/* The characters of output that a finish needs: E times held. 0 as for a feed. */
static inline size_t cobbletwill_finish_room(const uint16_t *words, size_t words_length,
                                             const cobbletwill_session *session) {
    return cobbletwill_feed_room(words, words_length, session, 0);
}

/*
 * The longest piece of which a feed into `room` characters of output is refused
 * neither by 14 nor by 15. With an E of 0 the room doesn't matter.
 *
 * 0 for words or a session that can't be sound, and where the room is too short for
 * the characters held alone: then a feed of an empty piece says by its refusal which
 * it is.
 */
static inline size_t cobbletwill_longest_piece(const uint16_t *words,
                                               size_t words_length,
                                               const cobbletwill_session *session,
                                               size_t room) {
    const size_t expansion = cobbletwill_expansion(words, words_length);
    if (!cobbletwill_may_be_sound(words, words_length) ||
        session->held_count > COBBLETWILL_HELD_SIZE ||
        session->received > COBBLETWILL_MAX_CHARACTERS) {
        return 0;
    }
    const size_t left = (size_t)(COBBLETWILL_MAX_CHARACTERS - session->received);
    if (expansion == 0) {
        return left;
    }
    const size_t whole = room / expansion;
    const size_t fitting = whole < session->held_count ? 0 : whole - session->held_count;
    return fitting < left ? fitting : left;
}

/*
 * The least middle length of a feed of a chain, the first's E times (held plus
 * `piece_length`): the output that a feed of the first alone needs. 0 and the greatest
 * size_t as there.
 */
static inline size_t cobbletwill_chain_feed_middle(const uint16_t *first_words,
                                                   size_t first_words_length,
                                                   const cobbletwill_session *first,
                                                   size_t piece_length) {
    return cobbletwill_feed_room(first_words, first_words_length, first, piece_length);
}

/* The least middle length of a finish, the first's E times held. 0 as for a feed. */
static inline size_t cobbletwill_chain_finish_middle(const uint16_t *first_words,
                                                     size_t first_words_length,
                                                     const cobbletwill_session *first) {
    return cobbletwill_chain_feed_middle(first_words, first_words_length, first, 0);
}

/*
 * The characters of output that a feed of a chain needs, the second's E times (held
 * plus the least middle length): what a feed of the second alone needs for a piece of
 * that length. The greatest size_t as there, and 0 where the second's words or session
 * can't be sound. Where the first's can't, it has no middle length. Make the call with
 * that room too: it is refused by 11 or 12.
 */
static inline size_t cobbletwill_chain_feed_room(
    const uint16_t *first_words, size_t first_words_length,
    const cobbletwill_session *first, const uint16_t *second_words,
    size_t second_words_length, const cobbletwill_session *second,
    size_t piece_length) {
    const size_t middle = cobbletwill_chain_feed_middle(first_words, first_words_length,
                                                        first, piece_length);
    return cobbletwill_feed_room(second_words, second_words_length, second, middle);
}

/* The characters of output that a finish of a chain needs, the second's E times (held
 * plus the first's E times held). 0 as for a feed. */
static inline size_t cobbletwill_chain_finish_room(
    const uint16_t *first_words, size_t first_words_length,
    const cobbletwill_session *first, const uint16_t *second_words,
    size_t second_words_length, const cobbletwill_session *second) {
    return cobbletwill_chain_feed_room(first_words, first_words_length, first,
                                       second_words, second_words_length, second, 0);
}

/*
 * The longest piece of which a feed of a chain, with a middle buffer of `middle`
 * characters and an output of `room`, is refused by none of 14, 18 and 15. With an E of
 * the first of 0 the second and the buffers don't matter for its length.
 *
 * 0 for words or a session of the first that can't be sound; with another E of the first
 * also for those of the second, and where a buffer is too short for the characters held
 * alone, or 14 refuses these for the second. Then a feed of an empty piece says by its
 * refusal which it is.
 */
static inline size_t cobbletwill_chain_longest_piece(
    const uint16_t *first_words, size_t first_words_length,
    const cobbletwill_session *first, const uint16_t *second_words,
    size_t second_words_length, const cobbletwill_session *second, size_t middle,
    size_t room) {
    const size_t passing =
        cobbletwill_longest_piece(second_words, second_words_length, second, room);
    return cobbletwill_longest_piece(first_words, first_words_length, first,
                                     passing < middle ? passing : middle);
}

/*
 * Feed. `words` has `words_length` words, which are only read, as for
 * cobbletwill_is_sound. `session` points to one session. `piece` has
 * `piece_length` characters of 16 bits: what follows those received so far.
 * `output` has room for `output_length` characters. `written` points to one
 * number.
 *
 * Answers 65 where the session waits for more, or 64 where it stopped, since no
 * rule fits and there is no default. Then `*session` is the session after the
 * piece, `*written` is the number of characters written from the start of `output`,
 * and the rest of `output` is as found. Under words that cobbletwill_compile left,
 * characters are held for a later call only while it depends on what follows, the
 * input's end included, what is chosen for the first of them: a rule, the default on
 * one unit, the default on a pair, or the stop.
 *
 * Else answers the first refusal in this order, and `*session`, `output` and
 * `*written` are as found:
 *
 *   11  fewer than 19,961 words, or words that are not sound
 *   12  a session that is not sound for these words, a status above 2 included
 *   13  a session that is closed or stopped
 *   14  received plus `piece_length` above 1,099,511,627,776
 *   15  `output_length` below cobbletwill_feed_room, which is E times (held plus
 *       `piece_length`)
 */
COBBLETWILL_ANSWERS
static inline uint32_t cobbletwill_feed(const uint16_t *words, size_t words_length,
                                        cobbletwill_session *session,
                                        const uint16_t *piece, size_t piece_length,
                                        uint16_t *output, size_t output_length,
                                        uint64_t *written) {
    return cobbletwill_feed_parts(words, words_length, session, session->uses, piece,
                                  piece_length, output, output_length, written);
}

/*
 * Finish: the input ends with the characters received. The arguments are those of
 * feed, without a piece.
 *
 * Answers 0 where the session closed at the input's end, or 64 where it stopped
 * before it. `*session`, `output` and `*written` are then as after a feed, and
 * nothing is held.
 *
 * Else answers the first refusal in this order, and `*session`, `output` and
 * `*written` are as found:
 *
 *   11  fewer than 19,961 words, or words that are not sound
 *   12  a session that is not sound for these words, a status above 2 included
 *   13  a session that is closed or stopped
 *   15  `output_length` below cobbletwill_finish_room, which is E times held
 */
COBBLETWILL_ANSWERS
static inline uint32_t cobbletwill_finish(const uint16_t *words, size_t words_length,
                                          cobbletwill_session *session,
                                          uint16_t *output, size_t output_length,
                                          uint64_t *written) {
    return cobbletwill_finish_parts(words, words_length, session, session->uses, output,
                                    output_length, written);
}

/*
 * Preview: what a feed would give, with room for all that it may write. The
 * arguments are those of feed, but that there is no output, and that the session is
 * only read; `later` points to a session of any content.
 *
 * Answers 65 or 64 as that feed does. Then `*later` is the session that it leaves,
 * and `*written` is the number of characters that it writes. Nothing else is
 * written. To make the feed, feed `*session`, which is as found.
 *
 * Else answers the first refusal in this order, and `*later` and `*written` are as
 * found:
 *
 *   11  fewer than 19,961 words, or words that are not sound
 *   12  a session that is not sound for these words, a status above 2 included
 *   13  a session that is closed or stopped
 *   14  received plus `piece_length` above 1,099,511,627,776
 */
COBBLETWILL_ANSWERS
static inline uint32_t cobbletwill_preview(const uint16_t *words, size_t words_length,
                                           const cobbletwill_session *session,
                                           const uint16_t *piece, size_t piece_length,
                                           cobbletwill_session *later,
                                           uint64_t *written) {
    return cobbletwill_preview_parts(words, words_length, session, session->uses, piece,
                                     piece_length, later, later->uses, written);
}

/*
 * Feed of a chain: the first is fed the piece, and its text is fed to the second. Each
 * machine has words, which are only read, and a session, as for cobbletwill_feed; the
 * two may have the same words. `piece` has `piece_length` characters of 16 bits: what
 * follows those that the first has received. `middle` and `output` have room for
 * `middle_length` and `output_length` characters. `written` and `first_status` each
 * point to one number.
 *
 * Answers the second's status: 65 where it waits for more, or 64 where it stopped. Then
 * `*first_status` is the first's by the same numbers. `*first` and `*second` are the
 * sessions after the call. `*written` is the number of characters that the second
 * wrote from the start of `output`, and the rest of `output` is as found. `middle`
 * begins with the first's text of this call, as many characters as
 * `first->tally.produced` grew by, and its rest is as found.
 *
 * A stop of either ends the chain: later calls are refused by 13. Where the second
 * stopped, the chain has stopped, whatever the first did. Where only the first stopped,
 * the second has been fed its text up to there and is not finished; the output is what
 * feeding the second that text gives, and cobbletwill_finish may finish it.
 *
 * From fresh sessions, once the second has stopped or a finish of the chain is accepted,
 * the joined outputs are what the second's table makes of the text that the first's
 * table makes of the accepted pieces, where the first's conversion closes on them.
 *
 * Else answers the first refusal in this order, and `*first`, `*second`, `middle`,
 * `output`, `*written` and `*first_status` are as found:
 *
 *   11  fewer than 19,961 words, or words that are not sound: the first's, then the
 *       second's
 *   12  a session that is not sound for its words, a status above 2 included: the first,
 *       then the second
 *   13  a session that is closed or stopped: the first, then the second
 *   14  the first's received plus `piece_length` above 1,099,511,627,776, then the
 *       second's received plus the least middle length. From fresh sessions it doesn't
 *       occur while the characters of all pieces, and the first's E times as many, are
 *       within that number
 *   18  `middle_length` below cobbletwill_chain_feed_middle, the least middle length,
 *       which is the first's E times (held plus `piece_length`)
 *   15  `output_length` below cobbletwill_chain_feed_room, which is the second's E times
 *       (held plus the least middle length)
 */
COBBLETWILL_ANSWERS
static inline uint32_t cobbletwill_chain_feed(
    const uint16_t *first_words, size_t first_words_length, cobbletwill_session *first,
    const uint16_t *second_words, size_t second_words_length,
    cobbletwill_session *second, const uint16_t *piece, size_t piece_length,
    uint16_t *middle, size_t middle_length, uint16_t *output, size_t output_length,
    uint64_t *written, uint32_t *first_status) {
    return cobbletwill_chain_feed_parts(
        first_words, first_words_length, first, first->uses, second_words,
        second_words_length, second, second->uses, piece, piece_length, middle,
        middle_length, output, output_length, written, first_status);
}

/*
 * Finish of a chain: the first's input ends with the characters that it has received.
 * The first is finished, and its text is fed to the second; where the first closed and
 * the second has not stopped, the second is finished too, its text behind. The
 * arguments are those of feed, without a piece.
 *
 * Answers the second's status: 0 where both closed, 64 where the second stopped, or 65
 * where the first stopped and the second did not. Then `*first_status` is the first's, 0
 * or 64, and `*first`, `*second`, `middle`, `output` and `*written` are as after a feed.
 * Later calls are refused by 13 in each case.
 *
 * Else answers the first refusal in this order, with all as found, as for a feed:
 *
 *   11  fewer than 19,961 words, or words that are not sound: the first's, then the
 *       second's
 *   12  a session that is not sound for its words, a status above 2 included: the first,
 *       then the second
 *   13  a session that is closed or stopped: the first, then the second
 *   14  the second's received plus the least middle length above 1,099,511,627,776
 *   18  `middle_length` below cobbletwill_chain_finish_middle, the least middle length,
 *       which is the first's E times held
 *   15  `output_length` below cobbletwill_chain_finish_room, which is the second's E
 *       times (held plus the least middle length)
 */
COBBLETWILL_ANSWERS
static inline uint32_t cobbletwill_chain_finish(
    const uint16_t *first_words, size_t first_words_length, cobbletwill_session *first,
    const uint16_t *second_words, size_t second_words_length,
    cobbletwill_session *second, uint16_t *middle, size_t middle_length,
    uint16_t *output, size_t output_length, uint64_t *written, uint32_t *first_status) {
    return cobbletwill_chain_finish_parts(first_words, first_words_length, first,
                                          first->uses, second_words, second_words_length,
                                          second, second->uses, middle, middle_length,
                                          output, output_length, written, first_status);
}

#undef COBBLETWILL_ANSWERS

#ifdef __cplusplus
}
#endif

#endif
