/* check.h: what the tests of the library in C say of what they find. */
#ifndef RVCFI_TEST_CHECK_H
#define RVCFI_TEST_CHECK_H

#include <stdio.h>

static int checks_failed;

/* Tells a check that fails; the test ends with status 1 then. */
#define CHECK(holds)                                                     \
    do {                                                                 \
        if (!(holds)) {                                                  \
            fprintf(stderr, "%s:%d: not %s\n", __FILE__, __LINE__, #holds); \
            checks_failed += 1;                                          \
        }                                                                \
    } while (0)

#endif
