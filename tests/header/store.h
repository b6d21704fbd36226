/* SPDX-License-Identifier: MIT
 * What the tests of the headers share: a store with its work area, and changes of it by the text of a path. Relies on splicelog.h and on
 * CHECK. Valid in C99 and in C++98. */
#ifndef SPLICELOG_TESTS_STORE_H
#define SPLICELOG_TESTS_STORE_H

#include "../c/check.h"
#include "splicelog.h"

#include <string.h>

enum { NODES = 32, STORE = NODES * SPLICELOG_NODE_SIZE, WORK = NODES * SPLICELOG_WORK_PER_NODE };

static uint8_t store[STORE], work[WORK];

/* A path made of its text, and its length. */
struct path {
    uint8_t bytes[SPLICELOG_PATH_LIMIT];
    size_t length;
};

static inline struct path path_of(const char *text) {
    struct path made;
    CHECK(splicelog_path(text, made.bytes, &made.length) == SPLICELOG_OK);
    return made;
}

static inline uint32_t put(const char *text, const uint8_t *value, size_t value_len) {
    const struct path at = path_of(text);
    return splicelog_put(store, STORE, work, WORK, at.bytes, at.length, value, value_len);
}

static inline uint32_t move(const char *old_text, const char *new_text) {
    const struct path from = path_of(old_text), to = path_of(new_text);
    return splicelog_move(store, STORE, work, WORK, from.bytes, from.length, to.bytes, to.length);
}

#endif
