/* SPDX-License-Identifier: MIT
 *
 * The splice log: a store of paths and values in a byte array that the caller owns. Relies on the
 * library; what is inline here is plain C over its calls. For C99 and C++98 or later.
 *
 * A store is n nodes of 1,024 bytes, n from 32 to 1,024. A path is 1 to 8 components of 1 to 16
 * bytes (hexadecimal 21 to 7E without 2F), each followed by a byte 00, at most 64 bytes in all. A
 * value is 0 to 48 bytes. Every function of the library takes any bytes, decides for itself whether
 * they are fit, and refuses by a number: then it has changed no byte.
 *
 * The empty path has length 0, and every path is below it. It stands for the whole store, in clear
 * and as the first path of next alone: put, drop, get and move refuse it by 3.
 *
 * An array goes as a pointer and a length. The pointer may be NULL only where the length is 0. An
 * array that is written (`store` and `work` of the calls that change a store, `buffer` of get and
 * next, `answers` of a batch) must not overlap any other argument; arrays that are only read may
 * overlap each other. In particular next's `after` and `buffer` must be two arrays: splicelog_step
 * sees to that. A pointer to one number or one structure is never NULL.
 */
#ifndef SPLICELOG_H
#define SPLICELOG_H

#include <stddef.h>
#include <stdint.h>

#define SPLICELOG_VERSION "2.0"
#define SPLICELOG_VERSION_MAJOR 2
#define SPLICELOG_VERSION_MINOR 0

/* The limits. Sizes are in bytes; a path's bytes 00 count. The last number is the last refusal's. */
#define SPLICELOG_VALUE_LIMIT 48
#define SPLICELOG_PATH_LIMIT 64
#define SPLICELOG_COMPONENT_LIMIT 16
#define SPLICELOG_COMPONENTS_LIMIT 8
#define SPLICELOG_NODE_SIZE 1024
#define SPLICELOG_FEWEST_NODES 32
#define SPLICELOG_MOST_NODES 1024
#define SPLICELOG_WORK_PER_NODE 128
#define SPLICELOG_LAST_NUMBER 10

/* The compiler warns of an answer that is not looked at; gcc also of an array that is shorter than
 * the length told, be it one that a call reads, writes, or reads and writes. */
#ifdef __GNUC__
#define SPLICELOG_RESULT __attribute__((warn_unused_result))
#else
#define SPLICELOG_RESULT
#endif
#if defined(__GNUC__) && !defined(__clang__) && __GNUC__ >= 10
#define SPLICELOG_READS(pointer, length) __attribute__((access(read_only, pointer, length)))
#define SPLICELOG_WRITES(pointer, length) __attribute__((access(write_only, pointer, length)))
#define SPLICELOG_CHANGES(pointer, length) __attribute__((access(read_write, pointer, length)))
#else
#define SPLICELOG_READS(pointer, length)
#define SPLICELOG_WRITES(pointer, length)
#define SPLICELOG_CHANGES(pointer, length)
#endif
#define SPLICELOG_INLINE SPLICELOG_RESULT static inline

#ifdef __cplusplus
#define SPLICELOG_CAST(type, value) static_cast<type>(value)
extern "C" {
#else
#define SPLICELOG_CAST(type, value) ((type)(value))
#endif

/* A length in the library's calls: the proved code counts in 64 bits on every target. Pass a size_t:
 * it is this type, or becomes it without loss. */
#if SIZE_MAX == UINT64_MAX
typedef size_t splicelog_size;
#else
typedef uint64_t splicelog_size;
#endif
typedef char splicelog_size_has_64_bits[sizeof(splicelog_size) == 8 ? 1 : -1];

/* The numbers that a call answers: 0, or that of the first question whose answer is no. */
enum splicelog_refusal {
    SPLICELOG_OK = 0,
    SPLICELOG_WRONG_LENGTH = 1,     /* no store of 32 to 1,024 nodes, or too short a work area */
    SPLICELOG_NOT_SOUND = 2,        /* the image is not sound */
    SPLICELOG_MALFORMED_PATH = 3,   /* a path is not well formed, or empty where it may not be */
    SPLICELOG_VALUE_TOO_LONG = 4,   /* the value has more than 48 bytes */
    SPLICELOG_BUFFER_TOO_SHORT = 5, /* get needs 48 bytes, next 64 */
    SPLICELOG_NO_INTERIOR_NODE = 6, /* the number is not that of a reachable interior node */
    SPLICELOG_NESTED_PATHS = 7,     /* one path of a move is a proper beginning of the other */
    SPLICELOG_NOT_FOUND = 8,        /* no such path */
    SPLICELOG_MALFORMED_MOVE = 9,   /* a path would not be well formed after the move */
    SPLICELOG_FULL = 10             /* the path is absent, and there are n paths already */
};

/* A number in words, to print behind it. A number that no call answers has a text that says so. */
SPLICELOG_INLINE const char *splicelog_text(uint32_t number) {
    static const char *const texts[] = {
        "accepted",
        "a store is not a whole number of nodes from 32 to 1024, or the work area is too short",
        "the image is not sound",
        "a path is not well formed",
        "the value is longer than 48 bytes",
        "the buffer is too short",
        "the number is not that of a reachable interior node",
        "one path is a proper beginning of the other",
        "there is no such path",
        "a path would not be well formed after the move",
        "the store is full",
    };
    return number < sizeof texts / sizeof *texts ? texts[number] : "not a number of the splice log";
}

/* Makes the store empty. Refuses by 1. */
SPLICELOG_RESULT SPLICELOG_WRITES(1, 2)
uint32_t splicelog_make(uint8_t *store, splicelog_size store_len);

/* The calls that only read answer a word: the number in its low 32 bits, and beside it, in the high
 * 32, a length, a count or a verdict, which is 0 in a refusal. `if (splicelog_get(..))` is true for a
 * value that was found: use the forms further down, which return the number alone. */

/* Whether the image is sound. Beside the number: how many paths it holds. Refuses by 1, 2. */
SPLICELOG_RESULT SPLICELOG_READS(1, 2)
uint64_t splicelog_check(const uint8_t *store, splicelog_size store_len);

/* The value of a path, at the front of a buffer of at least 48 bytes; later bytes of the buffer
 * stay. Beside the number: its length. Refuses by 1, 2, 3, 5, 8. */
SPLICELOG_RESULT SPLICELOG_READS(1, 2) SPLICELOG_READS(3, 4) SPLICELOG_WRITES(5, 6)
uint64_t splicelog_get(const uint8_t *store, splicelog_size store_len, const uint8_t *path,
                       splicelog_size path_len, uint8_t *buffer, splicelog_size buffer_len);

/* The least path below `path` and greater than `after` (each may be empty: every path is below the
 * empty one and greater than it), at the front of a buffer of at least 64 bytes; later bytes of the
 * buffer stay. Beside the number: its length. Refuses by 1, 2, 3, 5, 8. */
SPLICELOG_RESULT SPLICELOG_READS(1, 2) SPLICELOG_READS(3, 4) SPLICELOG_READS(5, 6) SPLICELOG_WRITES(7, 8)
uint64_t splicelog_next(const uint8_t *store, splicelog_size store_len, const uint8_t *path,
                        splicelog_size path_len, const uint8_t *after, splicelog_size after_len,
                        uint8_t *buffer, splicelog_size buffer_len);

/* Whether two stores hold the same paths. Beside the number: 1 or 0. Refuses by 1, 2. */
SPLICELOG_RESULT SPLICELOG_READS(1, 2) SPLICELOG_READS(3, 4)
uint64_t splicelog_same(const uint8_t *store, splicelog_size store_len, const uint8_t *other,
                        splicelog_size other_len);

/* The calls that change a store are lent a work area of at least 128 bytes a node. An accepted call
 * leaves the first 128 x n bytes of it zero and the later ones as they were; a refused call leaves it
 * as it was. */

/* The path has this value. Refuses by 1, 2, 3, 4, 10. */
SPLICELOG_RESULT SPLICELOG_CHANGES(1, 2) SPLICELOG_WRITES(3, 4) SPLICELOG_READS(5, 6) SPLICELOG_READS(7, 8)
uint32_t splicelog_put(uint8_t *store, splicelog_size store_len, uint8_t *work, splicelog_size work_len,
                       const uint8_t *path, splicelog_size path_len, const uint8_t *value,
                       splicelog_size value_len);

/* The path is absent. Refuses by 1, 2, 3. */
SPLICELOG_RESULT SPLICELOG_CHANGES(1, 2) SPLICELOG_WRITES(3, 4) SPLICELOG_READS(5, 6)
uint32_t splicelog_drop(uint8_t *store, splicelog_size store_len, uint8_t *work, splicelog_size work_len,
                        const uint8_t *path, splicelog_size path_len);

/* Every path below the given one, itself included, is absent. The empty path, length 0, is above
 * every path: splicelog_clear(store, store_len, work, work_len, NULL, 0) wipes the store. Beware: so
 * does a length that is 0 by mistake. What was wiped is not found any more, but its bytes can stay in
 * the array; splicelog_make writes every byte of it. Refuses by 1, 2, 3. */
SPLICELOG_RESULT SPLICELOG_CHANGES(1, 2) SPLICELOG_WRITES(3, 4) SPLICELOG_READS(5, 6)
uint32_t splicelog_clear(uint8_t *store, splicelog_size store_len, uint8_t *work, splicelog_size work_len,
                         const uint8_t *path, splicelog_size path_len);

/* Every path below `from`, itself included, is below `to` with the same rest and value; what else was
 * below `to` is absent: it is lost. Nothing is below `from` then. If the two are equal, no byte of the
 * store changes. Refuses by 1, 2, 3, 7, 8, 9. */
SPLICELOG_RESULT SPLICELOG_CHANGES(1, 2) SPLICELOG_WRITES(3, 4) SPLICELOG_READS(5, 6) SPLICELOG_READS(7, 8)
uint32_t splicelog_move(uint8_t *store, splicelog_size store_len, uint8_t *work, splicelog_size work_len,
                        const uint8_t *from, splicelog_size from_len, const uint8_t *to, splicelog_size to_len);

/* Upkeep: the paths and their values stay. */

/* No message waits in any node. Refuses by 1, 2. */
SPLICELOG_RESULT SPLICELOG_CHANGES(1, 2) SPLICELOG_WRITES(3, 4)
uint32_t splicelog_settle(uint8_t *store, splicelog_size store_len, uint8_t *work, splicelog_size work_len);

/* Settled, and at most a quarter of the nodes are in use. Refuses by 1, 2. */
SPLICELOG_RESULT SPLICELOG_CHANGES(1, 2) SPLICELOG_WRITES(3, 4)
uint32_t splicelog_tidy(uint8_t *store, splicelog_size store_len, uint8_t *work, splicelog_size work_len);

/* The messages of a reachable interior node go down. Refuses by 1, 2, 6. */
SPLICELOG_RESULT SPLICELOG_CHANGES(1, 2) SPLICELOG_WRITES(3, 4)
uint32_t splicelog_flush(uint8_t *store, splicelog_size store_len, uint8_t *work, splicelog_size work_len,
                         splicelog_size node);

/* Neighbouring children of a reachable interior node that hold no message and fit in one node become
 * one. Refuses by 1, 2, 6. */
SPLICELOG_RESULT SPLICELOG_CHANGES(1, 2) SPLICELOG_WRITES(3, 4)
uint32_t splicelog_heal(uint8_t *store, splicelog_size store_len, uint8_t *work, splicelog_size work_len,
                        splicelog_size node);

/* A word's number, which is 0 if the call was accepted, and what stands beside it. */
SPLICELOG_INLINE uint32_t splicelog_number(uint64_t answer) { return SPLICELOG_CAST(uint32_t, answer); }
SPLICELOG_INLINE uint32_t splicelog_beside(uint64_t answer) { return SPLICELOG_CAST(uint32_t, answer >> 32); }

/* The calls that only read, as their number alone. What stands beside it goes where the last argument
 * points: 0 in a refusal. */

/* splicelog_check: `*live` becomes how many paths the store holds. */
SPLICELOG_INLINE uint32_t splicelog_check_store(const uint8_t *store, size_t store_len, size_t *live) {
    const uint64_t answer = splicelog_check(store, store_len);
    *live = splicelog_beside(answer);
    return splicelog_number(answer);
}

/* splicelog_get: `*length` becomes the value's length. */
SPLICELOG_INLINE uint32_t splicelog_get_value(const uint8_t *store, size_t store_len, const uint8_t *path,
                                              size_t path_len, uint8_t *buffer, size_t buffer_len, size_t *length) {
    const uint64_t answer = splicelog_get(store, store_len, path, path_len, buffer, buffer_len);
    *length = splicelog_beside(answer);
    return splicelog_number(answer);
}

/* splicelog_next: `*length` becomes the path's length. */
SPLICELOG_INLINE uint32_t splicelog_next_path(const uint8_t *store, size_t store_len, const uint8_t *path,
                                              size_t path_len, const uint8_t *after, size_t after_len,
                                              uint8_t *buffer, size_t buffer_len, size_t *length) {
    const uint64_t answer = splicelog_next(store, store_len, path, path_len, after, after_len, buffer, buffer_len);
    *length = splicelog_beside(answer);
    return splicelog_number(answer);
}

/* splicelog_same: `*same` becomes 1 or 0. */
SPLICELOG_INLINE uint32_t splicelog_is_same(const uint8_t *store, size_t store_len, const uint8_t *other,
                                            size_t other_len, int *same) {
    const uint64_t answer = splicelog_same(store, store_len, other, other_len);
    *same = splicelog_beside(answer) != 0;
    return splicelog_number(answer);
}

/* Whether these bytes are a well-formed path, one that can have a value: 1 or 0. The empty path is
 * none: 0. */
SPLICELOG_INLINE int splicelog_is_path(const uint8_t *path, size_t path_len) {
    size_t components = 0, begin = 0;
    if (path_len == 0 || path_len > SPLICELOG_PATH_LIMIT)
        return 0;
    for (size_t i = 0; i < path_len; i++) {
        if (path[i] != 0 && (path[i] < 0x21 || path[i] > 0x7E || path[i] == 0x2F))
            return 0;
        if (path[i] == 0) {
            if (i == begin || i - begin > SPLICELOG_COMPONENT_LIMIT)
                return 0;
            components++;
            begin = i + 1;
        }
    }
    return begin == path_len && components <= SPLICELOG_COMPONENTS_LIMIT;
}

/* The path of a text: "r1/c7" becomes the bytes 72 31 00 63 37 00 (hexadecimal), and a lone "/" the
 * empty path, of length 0. Gives 0, or 3 where the text is no path's, as "" is not: the path is then
 * one byte 00, which no call accepts. */
SPLICELOG_INLINE uint32_t splicelog_path(const char *text, uint8_t path[SPLICELOG_PATH_LIMIT], size_t *path_len) {
    size_t end = 0;
    if (text[0] == '/' && text[1] == 0) {
        path[0] = 0; /* never read, but compilers warn where no byte is set */
        *path_len = 0;
        return SPLICELOG_OK;
    }
    for (; end < SPLICELOG_PATH_LIMIT - 1 && text[end] != 0; end++)
        path[end] = SPLICELOG_CAST(uint8_t, text[end] == '/' ? 0 : text[end]);
    path[end] = 0;
    *path_len = end + 1;
    if (text[end] == 0 && splicelog_is_path(path, end + 1))
        return SPLICELOG_OK;
    path[0] = 0;
    *path_len = 1;
    return SPLICELOG_MALFORMED_PATH;
}

/* The text of a path, with a byte 00 behind it as strings have; that of the empty path is "/". Gives
 * 0, or 3 and the empty text where the bytes are no path. */
SPLICELOG_INLINE uint32_t splicelog_path_text(const uint8_t *path, size_t path_len, char text[SPLICELOG_PATH_LIMIT]) {
    size_t length = splicelog_is_path(path, path_len) ? path_len - 1 : 0;
    for (size_t i = 0; i < length; i++)
        text[i] = SPLICELOG_CAST(char, path[i] == 0 ? '/' : path[i]);
    if (path_len == 0)
        text[length++] = '/';
    text[length] = 0;
    return length == 0 ? SPLICELOG_MALFORMED_PATH : SPLICELOG_OK;
}

/* A place in a listing: the last path given. A listing begins at a place of length 0, whatever its
 * bytes. It can hold any path. */
struct splicelog_place {
    uint8_t bytes[SPLICELOG_PATH_LIMIT];
    size_t length;
};

/* One step of a listing: the place becomes the least path below `path` that is greater than the
 * place's. To list the whole store: path NULL, path_len 0. Gives 0, or the number of a refusal, which
 * leaves the place unchanged: 8 after the last path, else 1, 2 or 3. A place of more than 64 bytes is
 * no path: 3.
 *
 *   struct splicelog_place place = {{0}, 0};
 *   uint32_t number;
 *   while ((number = splicelog_step(store, store_len, path, path_len, &place)) == SPLICELOG_OK)
 *       use(place.bytes, place.length);
 *   if (number != SPLICELOG_NOT_FOUND)
 *       fail(number); // the listing is not whole
 */
SPLICELOG_INLINE uint32_t splicelog_step(const uint8_t *store, size_t store_len, const uint8_t *path,
                                         size_t path_len, struct splicelog_place *place) {
    static const uint8_t malformed[1] = {0};
    uint8_t found[SPLICELOG_PATH_LIMIT];
    size_t length;
    const int sane = place->length <= sizeof place->bytes;
    const uint8_t *const after = sane ? place->bytes : malformed;
    const uint32_t number = splicelog_next_path(store, store_len, path, path_len, after, sane ? place->length : 1,
                                                found, sizeof found, &length);
    if (number != SPLICELOG_OK)
        return number;
    for (size_t i = 0; i < length; i++)
        place->bytes[i] = found[i];
    place->length = length;
    return number;
}

/* A number of two bytes, the low one first. */
SPLICELOG_INLINE uint16_t splicelog_internal_number(const uint8_t *at) {
    return SPLICELOG_CAST(uint16_t, at[0] | at[1] << 8);
}

/* The root's number and its level, as node 0 tells them, for flush and heal: the root is an interior
 * node where there are 2 levels or more. They mean something in a sound image alone: check it first.
 * A store too short for them gives 0. */
SPLICELOG_INLINE size_t splicelog_root(const uint8_t *store, size_t store_len) {
    return store_len < SPLICELOG_NODE_SIZE ? 0 : splicelog_internal_number(store + 6);
}
SPLICELOG_INLINE size_t splicelog_levels(const uint8_t *store, size_t store_len) {
    return store_len < SPLICELOG_NODE_SIZE ? 0 : splicelog_internal_number(store + 8);
}

#ifdef __cplusplus
}
#endif

/* A list of calls as one call. */
#include "splicelog_batch.h"

#endif
