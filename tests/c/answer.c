/* Answers that are looked at, where KEEP is `*answer =`, and answers that are not, where it is empty. */
#include "cobbletwill.h"

void call(const uint16_t *words, cobbletwill_session *session, uint64_t *written, uint32_t *answer);

void call(const uint16_t *words, cobbletwill_session *session, uint64_t *written, uint32_t *answer) {
    *answer = 0;
    KEEP cobbletwill_is_sound(words, 0);
    KEEP cobbletwill_finish(words, 0, session, NULL, 0, written);
    KEEP cobbletwill_chain_finish(words, 0, session, words, 0, session + 1, NULL, 0, NULL, 0, written, answer);
}
