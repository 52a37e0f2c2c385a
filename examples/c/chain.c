/*
 * Converts standard input under two tables in a row, in small pieces: the text of the
 * first is fed to the second.
 *
 * `chain FIRST SECOND < input > output`, one character a byte. Standard error says
 * how both ended. Ends with 0 where both closed, 2 where one stopped, 1 for all else.
 */
#include "text.h"

/* The characters that are read at once, and the buffers that a feed of them asks for
 * under any two tables: E is at most 8, and so are the characters that each holds. */
enum {
    PIECE = 16,
    MIDDLE = COBBLETWILL_MAX_EXPANSION * (COBBLETWILL_HELD_SIZE + PIECE),
    ROOM = COBBLETWILL_MAX_EXPANSION * (COBBLETWILL_HELD_SIZE + MIDDLE)
};

static uint16_t first_words[COBBLETWILL_WORDS_SIZE], second_words[COBBLETWILL_WORDS_SIZE];
static uint16_t piece[PIECE], middle[MIDDLE], output[ROOM];

/* How a machine ended, and its counts. */
static void report(const char *name, const cobbletwill_session *session) {
    static const char *const statuses[] = {"open", "closed", "stopped"};
    fprintf(stderr, "%s %s: %" PRIu64 " characters received, %" PRIu64 " written\n", name,
            statuses[session->status], session->received, session->tally.produced);
}

int main(int argc, char **argv) {
    if (argc != 3) {
        fputs("usage: chain FIRST SECOND < input\n", stderr);
        return 1;
    }
    if (!compile(argv[1], first_words) || !compile(argv[2], second_words)) {
        return 1;
    }
    cobbletwill_session first = COBBLETWILL_FRESH, second = COBBLETWILL_FRESH;
    uint32_t answer = COBBLETWILL_OPEN, first_status = COBBLETWILL_OPEN;
    while (answer == COBBLETWILL_OPEN && first_status == COBBLETWILL_OPEN) {
        uint64_t written = 0;
        size_t length = read_piece(piece, PIECE);
        if (length == 0) {
            answer = cobbletwill_chain_finish(first_words, COBBLETWILL_WORDS_SIZE, &first, second_words,
                                              COBBLETWILL_WORDS_SIZE, &second, middle, MIDDLE, output, ROOM, &written,
                                              &first_status);
        } else {
            answer = cobbletwill_chain_feed(first_words, COBBLETWILL_WORDS_SIZE, &first, second_words,
                                            COBBLETWILL_WORDS_SIZE, &second, piece, length, middle, MIDDLE, output,
                                            ROOM, &written, &first_status);
        }
        if (!print_text(output, written)) {
            return 1;
        }
    }
    if (COBBLETWILL_IS_REFUSAL(answer)) {
        report_refusal(answer);
        return 1;
    }
    report("first", &first);
    report("second", &second);
    return answer == COBBLETWILL_OK ? 0 : 2;
}
