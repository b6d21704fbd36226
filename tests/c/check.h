/* SPDX-License-Identifier: MIT
 * CHECK counts what is checked, and ends the test at the first thing that is not so. Relies on the C library alone. */
#ifndef SPLICELOG_TESTS_CHECK_H
#define SPLICELOG_TESTS_CHECK_H

#include <stdio.h>
#include <stdlib.h>

static unsigned checks;

#define CHECK(holds)                                                                                                                       \
    do {                                                                                                                                   \
        checks++;                                                                                                                          \
        if (!(holds)) {                                                                                                                    \
            fprintf(stderr, "%s:%d: not so: %s\n", __FILE__, __LINE__, #holds);                                                            \
            exit(1);                                                                                                                       \
        }                                                                                                                                  \
    } while (0)

#endif
