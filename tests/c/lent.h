/*
 * Memory that is lent to calls, and refused calls, which change nothing of it. Each is made twice: on writable memory,
 * of which every byte is compared afterwards, and on memory that can only be read, where a write of the same value
 * would be a fault.
 */
#ifndef LENT_H
#define LENT_H

#include <signal.h>
#include <string.h>
#include <sys/mman.h>
#include <unistd.h>

#include "expect.h"

/* What was lent, as it was found. */
static void *found_bytes;

static inline void on_fault(int signal) {
    static const char text[] = "a refused call wrote memory that can only be read\n";
    (void)signal;
    (void)!write(STDERR_FILENO, text, sizeof text - 1);
    _exit(1);
}

/* Pages of so many bytes. */
static inline void *lend_pages(size_t size) {
    signal(SIGSEGV, on_fault);
    signal(SIGBUS, on_fault);
    found_bytes = malloc(size);
    EXPECT(found_bytes != NULL);
    void *pages = mmap(NULL, size, PROT_READ | PROT_WRITE, MAP_PRIVATE | MAP_ANONYMOUS, -1, 0);
    EXPECT(pages != MAP_FAILED);
    return pages;
}

/* The call, which is made twice, is refused by a number and leaves `*lent` as found. */
#define EXPECT_REFUSED(lent, call, number)                                                      \
    (memcpy(found_bytes, lent, sizeof *(lent)), EXPECT((call) == (number)),                     \
     EXPECT(memcmp(found_bytes, lent, sizeof *(lent)) == 0),                                    \
     EXPECT(mprotect(lent, sizeof *(lent), PROT_READ) == 0), EXPECT((call) == (number)),        \
     EXPECT(mprotect(lent, sizeof *(lent), PROT_READ | PROT_WRITE) == 0))

#endif
