/*
 * Converts standard input under a table, piece by piece.
 *
 * `station TABLE < input > output`, one character a byte. Standard error has
 * the counts at the end, and how often each rule was used, with its line of the
 * source if that stands beside the table: rules.txt beside rules.tab. Ends with 0
 * for closed, 2 for stopped, 1 for all else.
 */
#include <string.h>

#include "text.h"

/* The most bytes that are read at once, and the output that a feed of them and
 * 8 held characters asks for under any table. */
enum { PIECE = 4096, ROOM = COBBLETWILL_MAX_EXPANSION * (COBBLETWILL_HELD_SIZE + PIECE) };

static uint16_t words[COBBLETWILL_WORDS_SIZE];
static uint16_t piece[PIECE];
static uint16_t output[ROOM];

/* The counts, with the steps beside their bound. */
static void report(const cobbletwill_session *session, uint32_t answer, uint64_t fed) {
    uint64_t consumed = session->received - session->held_count;
    uint64_t longest = cobbletwill_longest_pattern(words, COBBLETWILL_WORDS_SIZE);
    fprintf(stderr, "%s: %" PRIu64 " characters fed, %" PRIu64 " consumed, %" PRIu64 " produced\n",
            answer == COBBLETWILL_STOPPED ? "stopped" : "closed", fed, consumed, session->tally.produced);
    fprintf(stderr, "%" PRIu64 " steps, at most (%" PRIu64 " + 3) * %" PRIu64 " + 1 = %" PRIu64 "\n",
            session->tally.steps, longest, fed, (longest + 3) * fed + 1);
}

/* A rule or the default as the source has it: its line, and its text there. */
struct statement {
    int line, length;
    const char *text;
};

/* One more than the rules and the default of any table, so that too many are noticed. */
enum { STATEMENTS = COBBLETWILL_MAX_RULES + 2 };

/* Finds the statements of a source, each up to its semicolon or the end of its first
 * line; their number. A line that begins with # is a comment, and in quotes a
 * backslash makes the next character plain. */
static int find_statements(const char *source, struct statement statements[STATEMENTS]) {
    bool inside = false, quoted = false, escaped = false;
    int count = 0, line = 0;
    for (const char *at = source, *end; *at != 0; at = *end == 0 ? end : end + 1) {
        end = at + strcspn(at, "\n");
        line++;
        for (const char *place = at; place < end && *at != '#'; place++) {
            if (!inside && strchr(" \r", *place) == NULL) {
                if (count == STATEMENTS) {
                    return count;
                }
                statements[count++] = (struct statement){line, (int)(end - place), place};
                inside = true;
            }
            if (*place == ';' && !quoted) {
                struct statement *last = &statements[count - 1];
                inside = false;
                last->length = last->line == line ? (int)(place + 1 - last->text) : last->length;
            }
            quoted ^= *place == '"' && !escaped;
            escaped = *place == '\\' && !escaped;
        }
    }
    return count;
}

/* Reads the source beside a table, if there is one: the file with the ending .txt. */
static const char *read_source(const char *table_path) {
    static char path[4096], source[1 << 16];
    const char *name = strrchr(table_path, '/') == NULL ? table_path : strrchr(table_path, '/');
    const char *ending = strrchr(name, '.');
    size_t kept = ending == NULL ? strlen(table_path) : (size_t)(ending - table_path);
    if (kept + sizeof ".txt" <= sizeof path) {
        memcpy(path, table_path, kept);
        memcpy(path + kept, ".txt", sizeof ".txt");
        FILE *file = fopen(path, "rb");
        if (file != NULL) {
            source[fread(source, 1, sizeof source - 1, file)] = 0;
            fclose(file);
        }
    }
    return source;
}

/* How often each rule and the default were used, with their lines of the source if
 * it has the same rules and default as the table. */
static void report_uses(const cobbletwill_session *session, const char *source) {
    struct statement statements[STATEMENTS];
    const int rules = (int)cobbletwill_rule_count(words, COBBLETWILL_WORDS_SIZE);
    const int groups = rules + (int)cobbletwill_has_default(words, COBBLETWILL_WORDS_SIZE);
    bool known = find_statements(source, statements) == groups;
    for (int i = 0; i < groups && known; i++) {
        known = statements[i].text[0] == (i < rules ? '"' : 'e');
    }
    fprintf(stderr, "   rule          uses%s\n", known ? "  line" : "");
    for (int i = 0; i < groups; i++) {
        if (i < rules) {
            fprintf(stderr, "%7d %13" PRIu64, i, session->uses[i]);
        } else {
            fprintf(stderr, "default %13" PRIu64, session->uses[COBBLETWILL_USES_DEFAULT]);
        }
        if (known) {
            fprintf(stderr, " %5d  %.*s", statements[i].line, statements[i].length, statements[i].text);
        }
        fputc('\n', stderr);
    }
}

int main(int argc, char **argv) {
    if (argc != 2) {
        fputs("usage: station TABLE < input\n", stderr);
        return 1;
    }
    if (!compile(argv[1], words)) {
        return 1;
    }
    cobbletwill_session session = COBBLETWILL_FRESH;
    uint64_t fed = 0;
    uint32_t answer = COBBLETWILL_OPEN;
    while (answer == COBBLETWILL_OPEN) {
        uint64_t written = 0;
        size_t length = read_piece(piece, PIECE);
        if (length == 0) {
            answer = cobbletwill_finish(words, COBBLETWILL_WORDS_SIZE, &session, output, ROOM, &written);
        } else {
            answer = cobbletwill_feed(words, COBBLETWILL_WORDS_SIZE, &session, piece, length, output, ROOM, &written);
        }
        fed += length;
        if (!print_text(output, written)) {
            return 1;
        }
    }
    if (COBBLETWILL_IS_REFUSAL(answer)) {
        report_refusal(answer);
        return 1;
    }
    report(&session, answer, fed);
    report_uses(&session, read_source(argv[1]));
    return answer == COBBLETWILL_OK ? 0 : 2;
}
