/* SPDX-License-Identifier: MIT
 * Ties every limit of the header to the library, by trying the limit and one more, and every name of a refusal to the number that the
 * library answers. Relies on store.h. Valid in C99 and in C++98. */
#include "store.h"

enum { MOST = (SPLICELOG_MOST_NODES + 1) * SPLICELOG_NODE_SIZE, MOST_WORK = SPLICELOG_MOST_NODES * SPLICELOG_WORK_PER_NODE };

static uint8_t large[MOST], large_work[MOST_WORK];

/* A path of this many components, all of one length but the last; gives its length. */
static size_t build(uint8_t *path, size_t components, size_t each, size_t last) {
    size_t length = 0;
    for (size_t i = 1; i <= components; i++) {
        const size_t bytes = i == components ? last : each;
        memset(path + length, 'a', bytes);
        path[length + bytes] = 0;
        length += bytes + 1;
    }
    return length;
}

/* The number of a put at such a path. The header's own judgement of the path is the library's. */
static uint32_t put_built(size_t components, size_t each, size_t last, size_t expected_length) {
    uint8_t path[4 * SPLICELOG_PATH_LIMIT];
    const size_t length = build(path, components, each, last);
    CHECK(length == expected_length);
    const uint32_t number = splicelog_put(store, STORE, work, WORK, path, length, path, 0);
    CHECK(splicelog_is_path(path, length) == (number == SPLICELOG_OK));
    return number;
}

static void test_paths(void) {
    const size_t most = SPLICELOG_COMPONENT_LIMIT, count = SPLICELOG_COMPONENTS_LIMIT, whole = SPLICELOG_PATH_LIMIT;
    CHECK(put_built(1, 0, most, most + 1) == SPLICELOG_OK);
    CHECK(put_built(1, 0, most + 1, most + 2) == SPLICELOG_MALFORMED_PATH);
    CHECK(put_built(1, 0, 0, 1) == SPLICELOG_MALFORMED_PATH);
    CHECK(put_built(0, 0, 0, 0) == SPLICELOG_MALFORMED_PATH);
    CHECK(put_built(count, 1, 1, 2 * count) == SPLICELOG_OK);
    CHECK(put_built(count + 1, 1, 1, 2 * count + 2) == SPLICELOG_MALFORMED_PATH);
    /* 4 components: 3 of the longest, and what is left of the whole length. */
    CHECK(put_built(4, most, whole - 3 * (most + 1) - 1, whole) == SPLICELOG_OK);
    CHECK(put_built(4, most, whole - 3 * (most + 1), whole + 1) == SPLICELOG_MALFORMED_PATH);
}

static void test_values(void) {
    uint8_t value[SPLICELOG_VALUE_LIMIT + 1] = {0}, found[SPLICELOG_PATH_LIMIT];
    const struct path at = path_of("r1");
    size_t length;
    CHECK(put("r1", value, SPLICELOG_VALUE_LIMIT) == SPLICELOG_OK);
    CHECK(put("r1", value, SPLICELOG_VALUE_LIMIT + 1) == SPLICELOG_VALUE_TOO_LONG);
    CHECK(splicelog_get_value(store, STORE, at.bytes, at.length, found, SPLICELOG_VALUE_LIMIT, &length) == SPLICELOG_OK);
    CHECK(length == SPLICELOG_VALUE_LIMIT);
    CHECK(splicelog_get_value(store, STORE, at.bytes, at.length, found, SPLICELOG_VALUE_LIMIT - 1, &length) == SPLICELOG_BUFFER_TOO_SHORT);
    CHECK(length == 0);
    CHECK(splicelog_next_path(store, STORE, at.bytes, at.length, at.bytes, 0, found, SPLICELOG_PATH_LIMIT, &length) == SPLICELOG_OK);
    CHECK(length == at.length && memcmp(found, at.bytes, length) == 0);
    CHECK(splicelog_next_path(store, STORE, at.bytes, at.length, at.bytes, 0, found, SPLICELOG_PATH_LIMIT - 1, &length) ==
          SPLICELOG_BUFFER_TOO_SHORT);
    CHECK(length == 0);
}

/* A store of so many nodes, and one of a byte more or less; a work area for it, and one of a byte less. */
static void test_store(size_t nodes) {
    const size_t length = nodes * SPLICELOG_NODE_SIZE, lent = nodes * SPLICELOG_WORK_PER_NODE;
    CHECK(splicelog_make(large, length) == SPLICELOG_OK);
    CHECK(large[4] + 256u * large[5] == nodes);
    CHECK(splicelog_make(large, length + 1) == SPLICELOG_WRONG_LENGTH);
    CHECK(splicelog_make(large, length - 1) == SPLICELOG_WRONG_LENGTH);
    CHECK(splicelog_settle(large, length, large_work, lent) == SPLICELOG_OK);
    CHECK(splicelog_settle(large, length, large_work, lent - 1) == SPLICELOG_WRONG_LENGTH);
}

static void test_nodes(void) {
    test_store(SPLICELOG_FEWEST_NODES);
    test_store(SPLICELOG_FEWEST_NODES + 1);
    test_store(SPLICELOG_MOST_NODES);
    CHECK(splicelog_make(large, (SPLICELOG_FEWEST_NODES - 1) * SPLICELOG_NODE_SIZE) == SPLICELOG_WRONG_LENGTH);
    CHECK(splicelog_make(large, (SPLICELOG_MOST_NODES + 1) * SPLICELOG_NODE_SIZE) == SPLICELOG_WRONG_LENGTH);
}

/* The refusals that no limit has caused yet, each by its name. */
static void test_refusals(void) {
    char text[SPLICELOG_PATH_LIMIT];
    size_t live;
    int same;
    CHECK(splicelog_flush(store, STORE, work, WORK, 0) == SPLICELOG_NO_INTERIOR_NODE);
    CHECK(put("a/2/3/4/5/6/7/8", store, 0) == SPLICELOG_OK);
    CHECK(move("a", "a/b") == SPLICELOG_NESTED_PATHS);
    CHECK(move("a", "b/c") == SPLICELOG_MALFORMED_MOVE);
    CHECK(move("absent", "b") == SPLICELOG_NOT_FOUND);
    CHECK(splicelog_make(store, STORE) == SPLICELOG_OK);
    for (int i = 0; i < NODES; i++) {
        sprintf(text, "p%d", i);
        CHECK(put(text, store, 0) == SPLICELOG_OK);
    }
    CHECK(put("one-more", store, 0) == SPLICELOG_FULL && put("p0", work, 1) == SPLICELOG_OK);
    CHECK(splicelog_check_store(store, STORE, &live) == SPLICELOG_OK && live == NODES);
    CHECK(splicelog_check_store(store, STORE - 1, &live) == SPLICELOG_WRONG_LENGTH && live == 0);
    store[0] ^= 1;
    CHECK(splicelog_check_store(store, STORE, &live) == SPLICELOG_NOT_SOUND && live == 0);
    CHECK(splicelog_is_same(store, STORE, store, STORE, &same) == SPLICELOG_NOT_SOUND && same == 0);
    store[0] ^= 1;
}

/* Every number has a text of its own, which says what it is about, with the limits that it speaks of; every other number has one text. */
static void test_texts(void) {
    static const char *const about[] = {"accepted", "nodes", "not sound", "not well formed", "value", "buffer", "interior node", "beginning",
                                        "no such path", "after the move", "full", "not a number"};
    char digits[24];
    for (uint32_t i = 0; i <= SPLICELOG_FULL + 1; i++) {
        CHECK(strstr(splicelog_text(i), about[i]));
        for (uint32_t j = 0; j < i; j++)
            CHECK(strcmp(splicelog_text(i), splicelog_text(j)) != 0);
    }
    CHECK(strcmp(splicelog_text(UINT32_MAX), splicelog_text(SPLICELOG_LAST_NUMBER + 1)) == 0);
    CHECK(strcmp(splicelog_text(UINT32_MAX), splicelog_text(SPLICELOG_LAST_NUMBER)) != 0);
    sprintf(digits, "%d to %d", SPLICELOG_FEWEST_NODES, SPLICELOG_MOST_NODES);
    CHECK(strstr(splicelog_text(SPLICELOG_WRONG_LENGTH), digits));
    sprintf(digits, "%d bytes", SPLICELOG_VALUE_LIMIT);
    CHECK(strstr(splicelog_text(SPLICELOG_VALUE_TOO_LONG), digits));
    sprintf(digits, "%d.%d", SPLICELOG_VERSION_MAJOR, SPLICELOG_VERSION_MINOR);
    CHECK(strcmp(digits, SPLICELOG_VERSION) == 0);
}

int main(void) {
    CHECK(splicelog_make(store, STORE) == SPLICELOG_OK);
    test_paths();
    test_values();
    test_nodes();
    test_refusals();
    test_texts();
    printf("limits: %u checks\n", checks);
    return 0;
}
