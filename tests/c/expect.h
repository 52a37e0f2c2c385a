/* Tests that end the program where they don't hold, and are counted. */
#ifndef EXPECT_H
#define EXPECT_H

#include <stdio.h>
#include <stdlib.h>

/* How many tests held. */
static unsigned long held_tests;

/* Ends the program, unless the condition holds. */
#define EXPECT(condition)                                                                       \
    ((condition) ? (void)held_tests++                                                           \
                 : (fprintf(stderr, "%s:%d: %s\n", __FILE__, __LINE__, #condition), exit(1)))

/* Says how many tests held, for which run.sh has the least number. */
#define REPORT(name) printf("%s: %lu tests\n", name, held_tests)

#endif
