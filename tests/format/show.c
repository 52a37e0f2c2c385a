/*
 * What the library makes of a table or of typed rules, in the form of
 * docs/FORMAT.md's examples.
 *
 * `show words TABLE` prints each machine word that is not 0, with its place.
 * `show rules TABLE` prints for each rule, and for the number behind the last,
 * whether it is live or dead. Where the input of a live rule doesn't have it used, it
 * says so.
 * `show session TABLE PIECE` feeds a piece to a fresh session and prints the
 * answer and the session's bytes, eight a line; of its counts of uses those that
 * are not 0, each behind its place. Where a preview saw anything else, it says so.
 * `show units TABLE UNITS` does the same for a piece in hexadecimal, and prints the
 * units that were written behind the answer.
 * `show chain TABLE PIECES SECOND` feeds pieces, with blanks between, to fresh
 * sessions of two machines in a row, and finishes them. For each call it prints the
 * least lengths of middle buffer and output, the answer, the first's status and both
 * texts, or the refusal. Where a shorter buffer is let pass, it says so.
 * `show text RULES` prints the records of typed rules, one character a byte, eight
 * bytes a line, or the refusal.
 */
#include <inttypes.h>
#include <stdbool.h>
#include <stdio.h>
#include <stdlib.h>
#include <string.h>

#include "cobbletwill.h"

static uint8_t bytes[32768];
static uint16_t words[COBBLETWILL_WORDS_SIZE], second_words[COBBLETWILL_WORDS_SIZE];

static void show_words(void) {
    for (int place = 0; place < COBBLETWILL_WORDS_SIZE; place++) {
        if (words[place] != 0) {
            printf("%d %u\n", place, (unsigned)words[place]);
        }
    }
}

/* How often a rule is used on an input. */
static uint64_t uses_on(const cobbletwill_input *input, uint32_t rule) {
    cobbletwill_session session = COBBLETWILL_FRESH;
    uint16_t output[8 * COBBLETWILL_INPUT_SIZE];
    uint64_t written;
    const size_t room = sizeof output / sizeof output[0];
    uint32_t answer = cobbletwill_feed(words, COBBLETWILL_WORDS_SIZE, &session, input->characters, input->length,
                                       output, room, &written);
    if (answer == COBBLETWILL_OPEN) {
        answer = cobbletwill_finish(words, COBBLETWILL_WORDS_SIZE, &session, output, room, &written);
    }
    return COBBLETWILL_IS_REFUSAL(answer) ? 0 : session.uses[rule];
}

static void show_rules(size_t length) {
    const uint32_t rules = cobbletwill_rule_count(words, COBBLETWILL_WORDS_SIZE);
    cobbletwill_input input;
    for (uint32_t rule = 0; rule <= rules; rule++) {
        uint32_t answer = cobbletwill_witness(bytes, length, words, COBBLETWILL_WORDS_SIZE, rule, &input);
        if (answer == COBBLETWILL_OK) {
            printf("%" PRIu32 " %s\n", rule, uses_on(&input, rule) > 0 ? "live" : "not used on its input");
        } else {
            printf("%" PRIu32 " %s\n", rule, answer == COBBLETWILL_DEAD ? "dead" : "refused");
        }
    }
}

/* Prints eight bytes on a line. */
static void show_eight(const void *at) {
    uint8_t eight[8];
    memcpy(eight, at, sizeof eight);
    for (int i = 0; i < 8; i++) {
        printf("%02X%c", eight[i], i == 7 ? '\n' : ' ');
    }
}

enum { PIECE = 64 };

/* A text's characters, one a byte; their number. */
static size_t read_text(const char *text, uint16_t piece[PIECE]) {
    size_t length = 0;
    for (; length < PIECE && text[length] != 0; length++) {
        piece[length] = (uint8_t)text[length];
    }
    return length;
}

/* Units in hexadecimal with blanks between; their number. */
static size_t read_units(const char *text, uint16_t piece[PIECE]) {
    size_t length = 0;
    char *end = NULL;
    for (unsigned long unit = strtoul(text, &end, 16); length < PIECE && end != text; unit = strtoul(text, &end, 16)) {
        piece[length++] = (uint16_t)unit;
        text = end;
    }
    return length;
}

static void show_written(const uint16_t *output, uint64_t written) {
    printf("writes");
    for (uint64_t i = 0; i < written; i++) {
        printf(" %04X", (unsigned)output[i]);
    }
    putchar('\n');
}

static void show_session(const uint16_t *piece, size_t length, bool shows_written) {
    cobbletwill_session session = COBBLETWILL_FRESH, later = COBBLETWILL_FRESH;
    uint16_t output[8 * PIECE];
    uint64_t written = 0, foreseen = 0;
    uint32_t seen = cobbletwill_preview(words, COBBLETWILL_WORDS_SIZE, &session, piece, length, &later, &foreseen);
    uint32_t answer =
        cobbletwill_feed(words, COBBLETWILL_WORDS_SIZE, &session, piece, length, output, 8 * PIECE, &written);
    printf("%" PRIu32 "\n", answer);
    if (shows_written) {
        show_written(output, written);
    }
    if (seen != answer || foreseen != written || memcmp(&session, &later, sizeof session) != 0) {
        puts("a preview saw something else");
    }
    const size_t uses = offsetof(cobbletwill_session, uses);
    for (size_t place = 0; place < uses; place += 8) {
        show_eight((const char *)&session + place);
    }
    for (size_t i = 0; i < COBBLETWILL_USES_SIZE; i++) {
        if (session.uses[i] != 0) {
            printf("%zu: ", uses + 8 * i);
            show_eight(&session.uses[i]);
        }
    }
}

/* Two machines in a row, and the buffers between and behind them, for the pieces of an example. */
struct chain {
    cobbletwill_session first, second;
    uint16_t middle[8 * (8 + PIECE)], output[8 * (8 + 8 * (8 + PIECE))];
    uint64_t written;
    uint32_t first_status;
};

/* A feed with buffers of so many characters, or a finish where there is no piece. */
static uint32_t call_chain(struct chain *chain, const uint16_t *piece, size_t length, size_t middle, size_t room) {
    if (piece == NULL) {
        return cobbletwill_chain_finish(words, COBBLETWILL_WORDS_SIZE, &chain->first, second_words,
                                        COBBLETWILL_WORDS_SIZE, &chain->second, chain->middle, middle, chain->output,
                                        room, &chain->written, &chain->first_status);
    }
    return cobbletwill_chain_feed(words, COBBLETWILL_WORDS_SIZE, &chain->first, second_words, COBBLETWILL_WORDS_SIZE,
                                  &chain->second, piece, length, chain->middle, middle, chain->output, room,
                                  &chain->written, &chain->first_status);
}

static void show_quoted(const uint16_t *text, uint64_t length) {
    fputs(" \"", stdout);
    for (uint64_t i = 0; i < length; i++) {
        putchar(text[i]);
    }
    putchar('"');
}

static void show_call(struct chain *chain, const uint16_t *piece, size_t length) {
    const size_t middle = cobbletwill_chain_feed_middle(words, COBBLETWILL_WORDS_SIZE, &chain->first, length);
    const size_t room = cobbletwill_chain_feed_room(words, COBBLETWILL_WORDS_SIZE, &chain->first, second_words,
                                                    COBBLETWILL_WORDS_SIZE, &chain->second, length);
    const uint64_t produced = chain->first.tally.produced;
    const bool open = chain->first.status == 0 && chain->second.status == 0;
    if ((open && middle > 0 &&
         call_chain(chain, piece, length, middle - 1, room) != COBBLETWILL_REFUSED_SHORT_MIDDLE) ||
        (open && room > 0 && call_chain(chain, piece, length, middle, room - 1) != COBBLETWILL_REFUSED_SHORT_OUTPUT)) {
        puts("a shorter buffer is let pass");
    }
    uint32_t answer = call_chain(chain, piece, length, middle, room);
    if (COBBLETWILL_IS_REFUSAL(answer)) {
        printf("%" PRIu32 "\n", answer);
        return;
    }
    printf("%zu %zu %" PRIu32 " %" PRIu32, middle, room, answer, chain->first_status);
    show_quoted(chain->middle, chain->first.tally.produced - produced);
    show_quoted(chain->output, chain->written);
    putchar('\n');
}

static void show_chain(char *pieces) {
    static struct chain chain = {.first = COBBLETWILL_FRESH, .second = COBBLETWILL_FRESH};
    uint16_t piece[PIECE];
    for (const char *text = strtok(pieces, " "); text != NULL; text = strtok(NULL, " ")) {
        show_call(&chain, piece, read_text(text, piece));
    }
    show_call(&chain, NULL, 0);
}

static void show_records(size_t text_length) {
    static uint16_t text[sizeof bytes];
    static uint8_t table[COBBLETWILL_TABLE_SIZE];
    uint64_t length;
    for (size_t i = 0; i < text_length; i++) {
        text[i] = bytes[i];
    }
    uint32_t answer = cobbletwill_from_text(text, text_length, table, sizeof table, &length);
    if (COBBLETWILL_IS_REFUSAL(answer)) {
        printf("refused %" PRIu32 "\n", answer);
        return;
    }
    for (size_t place = 0; place < length; place += 8) {
        show_eight(table + place);
    }
}

/* Reads a file; the number of its bytes. */
static size_t read_bytes(const char *path) {
    FILE *file = fopen(path, "rb");
    if (file == NULL) {
        perror(path);
        exit(2);
    }
    size_t length = fread(bytes, 1, sizeof bytes, file);
    fclose(file);
    return length;
}

/* Compiles the table that was read. */
static void compile(size_t length, uint16_t to[COBBLETWILL_WORDS_SIZE]) {
    uint32_t answer = cobbletwill_compile(bytes, length, to, COBBLETWILL_WORDS_SIZE);
    if (COBBLETWILL_IS_REFUSAL(answer)) {
        printf("refused %" PRIu32 "\n", answer);
        exit(1);
    }
}

int main(int argc, char **argv) {
    if (argc < 3) {
        fputs("usage: show words|rules TABLE | show session|units TABLE PIECE | show chain TABLE PIECES SECOND | "
              "show text RULES\n",
              stderr);
        return 2;
    }
    size_t length = read_bytes(argv[2]);
    if (strcmp(argv[1], "text") == 0) {
        show_records(length);
        return 0;
    }
    compile(length, words);
    uint16_t piece[PIECE];
    if (argc == 5) {
        compile(read_bytes(argv[4]), second_words);
        show_chain(argv[3]);
    } else if (argc == 4 && strcmp(argv[1], "units") == 0) {
        show_session(piece, read_units(argv[3], piece), true);
    } else if (argc == 4) {
        show_session(piece, read_text(argv[3], piece), false);
    } else if (strcmp(argv[1], "rules") == 0) {
        show_rules(length);
    } else {
        show_words();
    }
    return 0;
}
