/* SPDX-License-Identifier: MIT
 * Mistakes that the header is to catch: with MISTAKE 1 to 5 this file must not compile with warnings as errors, with 0 it must. Relies on
 * splicelog.h alone; tests/header/run compiles it. */
#include "splicelog.h"

uint32_t read_value(const uint8_t *store, size_t store_len, const uint8_t *path, size_t path_len);
uint32_t read_value(const uint8_t *store, size_t store_len, const uint8_t *path, size_t path_len) {
    uint8_t value[SPLICELOG_VALUE_LIMIT];
    size_t length;
#if MISTAKE == 1 /* the length is left out, as where the word is meant */
    return splicelog_get_value(store, store_len, path, path_len, value, sizeof value);
#elif MISTAKE == 2 /* the buffer has fewer bytes than is told: gcc 11 sees it */
    return splicelog_get_value(store, store_len, path, path_len, value, sizeof value + 1, &length);
#else
    return splicelog_get_value(store, store_len, path, path_len, value, sizeof value, &length);
#endif
}

/* Arrays that are lent need no first value. */
uint32_t make_and_drop(const char *text);
uint32_t make_and_drop(const char *text) {
    uint8_t store[32 * SPLICELOG_NODE_SIZE], work[32 * SPLICELOG_WORK_PER_NODE];
    size_t length;
#if MISTAKE == 3 /* there is no room for the longest path: gcc 11 sees it */
    uint8_t path[SPLICELOG_PATH_LIMIT - 1];
#else
    uint8_t path[SPLICELOG_PATH_LIMIT];
#endif
#if MISTAKE == 4 /* nobody looks whether it was refused */
    splicelog_make(store, sizeof store);
#else
    if (splicelog_make(store, sizeof store) != SPLICELOG_OK)
        return SPLICELOG_WRONG_LENGTH;
#endif
    if (splicelog_path(text, path, &length) != SPLICELOG_OK)
        return SPLICELOG_MALFORMED_PATH;
    return splicelog_drop(store, sizeof store, work, sizeof work, path, length);
}

/* The empty path needs no array. */
uint32_t wipe(uint8_t *store, size_t store_len, uint8_t *work, size_t work_len);
uint32_t wipe(uint8_t *store, size_t store_len, uint8_t *work, size_t work_len) {
#if MISTAKE == 5 /* a path that has a length and no array: gcc 11 sees it */
    return splicelog_clear(store, store_len, work, work_len, NULL, 1);
#else
    return splicelog_clear(store, store_len, work, work_len, NULL, 0);
#endif
}
