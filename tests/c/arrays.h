/* SPDX-License-Identifier: MIT
 * Arrays of exactly the lengths that a call is told, from malloc, so that valgrind sees a read or a write outside; and calls on them that
 * check what was answered and that nothing else changed. Relies on splicelog.h and on CHECK. */
#ifndef SPLICELOG_TESTS_ARRAYS_H
#define SPLICELOG_TESTS_ARRAYS_H

#include "check.h"
#include "splicelog.h"

#include <string.h>

enum { NODE = SPLICELOG_NODE_SIZE, NODES = 32, VALUE_MOST = SPLICELOG_VALUE_LIMIT, PATH_MOST = SPLICELOG_PATH_LIMIT, LATER = 0xA5 };

typedef struct {
    uint8_t *at;
    size_t len;
} bytes;

/* An array of its own; malloc gives no null pointer for a length of 0. */
static inline bytes filled(size_t len, uint8_t byte) {
    bytes made = {malloc(len ? len : 1), len};
    if (!made.at)
        abort();
    memset(made.at, byte, len);
    return made;
}

static inline bytes copy(const void *from, size_t len) {
    bytes made = filled(len, 0);
    memcpy(made.at, from, len);
    return made;
}

/* A path from its components with '/' between them. */
static inline bytes path(const char *text) {
    bytes made = copy(text, strlen(text) + 1);
    for (size_t i = 0; i < made.len; i++)
        if (made.at[i] == '/')
            made.at[i] = 0;
    return made;
}

/* No bytes, at no address: the empty path, an empty value. */
static inline bytes nothing(void) {
    const bytes none = {NULL, 0};
    return none;
}

static inline bytes file(const char *name) {
    bytes read = {NULL, 0};
    FILE *from = fopen(name, "rb");
    if (!from || fseek(from, 0, SEEK_END) || ftell(from) < 0) {
        perror(name);
        exit(1);
    }
    read = filled((size_t)ftell(from), 0);
    rewind(from);
    CHECK(fread(read.at, 1, read.len, from) == read.len);
    fclose(from);
    return read;
}

static inline int equal(bytes a, bytes b) { return a.len == b.len && memcmp(a.at, b.at, a.len) == 0; }

/* Makes one get, or one next where `after` is given, and checks the answer, the front of the buffer and that nothing else changed. The
 * path, `after` and the expected bytes are freed. */
static inline void ask(bytes store, bytes of, const bytes *after, size_t room, uint32_t number, bytes found) {
    bytes before = copy(store.at, store.len), buffer = filled(room, LATER), expected = filled(room, LATER);
    uint64_t answer = after ? splicelog_next(store.at, store.len, of.at, of.len, after->at, after->len, buffer.at, buffer.len)
                            : splicelog_get(store.at, store.len, of.at, of.len, buffer.at, buffer.len);
    CHECK(splicelog_number(answer) == number);
    CHECK(splicelog_beside(answer) == found.len);
    memcpy(expected.at, found.at, found.len);
    CHECK(equal(buffer, expected));
    CHECK(equal(store, before));
    free(before.at), free(buffer.at), free(expected.at), free(of.at), free(found.at);
    if (after)
        free(after->at);
}

static inline void refuse_get(bytes store, bytes of, size_t room, uint32_t number) { ask(store, of, NULL, room, number, filled(0, 0)); }

static inline void refuse_next(bytes store, bytes of, bytes after, size_t room, uint32_t number) {
    ask(store, of, &after, room, number, filled(0, 0));
}

/* Is the image sound, and how many paths does it hold? No byte of it changes. */
static inline void judge(bytes store, uint32_t number, size_t live) {
    bytes before = copy(store.at, store.len);
    uint64_t answer = splicelog_check(store.at, store.len);
    CHECK(splicelog_number(answer) == number && splicelog_beside(answer) == live);
    CHECK(equal(store, before));
    free(before.at);
}

/* One step of a listing, of the whole store where `below` is NULL: the place becomes the path found, or a refusal leaves it as it was. The
 * store stays. */
static inline void step(bytes store, const char *below, struct splicelog_place *place, uint32_t number, const char *found) {
    bytes before = copy(store.at, store.len), of = below ? path(below) : nothing(), expected = path(found);
    struct splicelog_place was = *place;
    CHECK(splicelog_step(store.at, store.len, of.at, of.len, place) == number);
    if (number != 0)
        CHECK(place->length == was.length && memcmp(place->bytes, was.bytes, sizeof was.bytes) == 0);
    else
        CHECK(place->length == expected.len && memcmp(place->bytes, expected.at, expected.len) == 0);
    if (number == 0) /* the bytes behind the path stay */
        CHECK(memcmp(place->bytes + expected.len, was.bytes + expected.len, sizeof was.bytes - expected.len) == 0);
    CHECK(equal(store, before));
    free(before.at), free(of.at), free(expected.at);
}

/* A place before the first step. From malloc, so that valgrind sees a write outside. */
static inline struct splicelog_place *start(void) {
    struct splicelog_place *place = malloc(sizeof *place);
    if (!place)
        abort();
    memset(place, LATER, sizeof *place);
    place->length = 0;
    return place;
}

/* One put of a value of these bytes; the path is freed. */
static inline uint32_t put(bytes store, bytes work, bytes at, bytes value) {
    uint32_t number = splicelog_put(store.at, store.len, work.at, work.len, at.at, at.len, value.at, value.len);
    free(at.at);
    free(value.at);
    return number;
}

/* The first 128 bytes a node of the work area are zero, and the later ones stay. */
static inline int cleared_for(bytes work, size_t nodes) {
    for (size_t i = 0; i < work.len; i++)
        if (work.at[i] != (i < nodes * 128 ? 0 : LATER))
            return 0;
    return 1;
}

static inline int cleared(bytes work) { return cleared_for(work, NODES); }

/* One move; the store and the work area are checked, and the paths are freed. */
static inline void move(bytes store, bytes work, bytes from, bytes to, uint32_t number) {
    bytes before = copy(store.at, store.len), lent = copy(work.at, work.len);
    CHECK(splicelog_move(store.at, store.len, work.at, work.len, from.at, from.len, to.at, to.len) == number);
    if (number != 0)
        CHECK(equal(store, before) && equal(work, lent));
    else
        CHECK(cleared(work));
    if (number == 0 && equal(from, to))
        CHECK(equal(store, before));
    free(before.at), free(lent.at), free(from.at), free(to.at);
}

#endif
