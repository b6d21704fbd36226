/* SPDX-License-Identifier: MIT
 *
 * The splice log's batch: a list of calls as one call, and the helpers that write such a list and
 * read its answers. Relies on splicelog.h, which includes this file at its end: include either one.
 */
#ifndef SPLICELOG_BATCH_H
#define SPLICELOG_BATCH_H

#include "splicelog.h"

#ifdef __cplusplus
extern "C" {
#endif

/* A batch: a list of calls as one call. The image is judged once, and then call after call is made,
 * each on the store as the last one left it, with the same answers as the calls would give one by
 * one. `calls` are pieces one after another and `answers` gets the answers one after another, in the
 * layout of FORMAT.md: the helpers below write the one and read the other. A call that is refused is
 * answered, and the batch goes on. It stops when the calls end, in front of bytes that do not read as
 * a call, or in front of a call whose answer might not fit in what is left of `answers` (4 bytes a
 * call, 52 a get, 68 a next; at most 2^28 - 1 bytes of it are used): splicelog_batch_stop tells
 * which, splicelog_skip where to go on. `work` is as for the calls that change a store. Refuses by 1,
 * 2, before any call is made. */
SPLICELOG_RESULT SPLICELOG_CHANGES(1, 2) SPLICELOG_WRITES(3, 4) SPLICELOG_READS(5, 6) SPLICELOG_WRITES(7, 8)
uint64_t splicelog_batch(uint8_t *store, splicelog_size store_len, uint8_t *work, splicelog_size work_len,
                         const uint8_t *calls, splicelog_size calls_len, uint8_t *answers,
                         splicelog_size answers_len);

/* What a batch answers: its number (0, 1 or 2), how many calls were made, how many bytes of answers
 * were written. */
SPLICELOG_INLINE uint32_t splicelog_batch_number(uint64_t answer) {
    return SPLICELOG_CAST(uint32_t, answer & 0xFF);
}
SPLICELOG_INLINE size_t splicelog_batch_done(uint64_t answer) {
    return SPLICELOG_CAST(size_t, answer >> 8 & 0xFFFFFFF);
}
SPLICELOG_INLINE size_t splicelog_batch_written(uint64_t answer) {
    return SPLICELOG_CAST(size_t, answer >> 36);
}

/* The kinds of calls in a batch. */
enum splicelog_kind {
    SPLICELOG_PUT = 0x20,
    SPLICELOG_DROP = 0x21,
    SPLICELOG_CLEAR = 0x22,
    SPLICELOG_MOVE = 0x24,
    SPLICELOG_GET = 0x30,
    SPLICELOG_NEXT = 0x31,
    SPLICELOG_SETTLE = 0x40,
    SPLICELOG_TIDY = 0x41,
    SPLICELOG_FLUSH = 0x42,
    SPLICELOG_HEAL = 0x43
};

/* How many arrays a call of this kind takes; 3: the number of a node; 4: it is no kind. */
SPLICELOG_INLINE int splicelog_internal_takes(unsigned kind) {
    switch (kind) {
    case SPLICELOG_SETTLE: case SPLICELOG_TIDY: return 0;
    case SPLICELOG_DROP: case SPLICELOG_CLEAR: case SPLICELOG_GET: return 1;
    case SPLICELOG_PUT: case SPLICELOG_MOVE: case SPLICELOG_NEXT: return 2;
    case SPLICELOG_FLUSH: case SPLICELOG_HEAL: return 3;
    default: return 4;
    }
}

/* Calls for a batch, in an array of the caller's: `count` calls in `length` of its `room` bytes. */
struct splicelog_calls {
    uint8_t *bytes;
    size_t room;
    size_t length;
    size_t count;
};

/* No call yet, in an array of `room` bytes. */
SPLICELOG_INLINE struct splicelog_calls splicelog_begin_calls(uint8_t *bytes, size_t room) {
    const struct splicelog_calls calls = {bytes, room, 0, 0};
    return calls;
}

/* These bytes behind the calls, which have room for them. */
static inline void splicelog_internal_append(struct splicelog_calls *calls, const uint8_t *bytes, size_t length) {
    for (size_t i = 0; i < length; i++)
        calls->bytes[calls->length++] = bytes[i];
}

/* A call behind those that are there already. Put takes a path and its value; move both paths; next
 * the path and the one after which to look; drop, clear and get a path; settle and tidy nothing: what
 * a call does not take has length 0. Whether a path may be empty the call answers: a clear without a
 * path wipes the store. Gives 1; or 0 where there is no room for it or the kind does not take this,
 * and then nothing is added. */
SPLICELOG_INLINE int splicelog_add(struct splicelog_calls *calls, enum splicelog_kind kind,
                                   const uint8_t *first, size_t first_len, const uint8_t *second,
                                   size_t second_len) {
    const int takes = splicelog_internal_takes(kind);
    const size_t rest = (takes == 2 ? 2 : 0) + first_len + second_len;
    const uint8_t head[6] = {SPLICELOG_CAST(uint8_t, rest & 0xFF), SPLICELOG_CAST(uint8_t, rest >> 8 & 0xFF),
                             SPLICELOG_CAST(uint8_t, kind), 0, SPLICELOG_CAST(uint8_t, first_len & 0xFF),
                             SPLICELOG_CAST(uint8_t, first_len >> 8 & 0xFF)};
    if (takes == 4 || (takes == 3 && first_len != 2) || (takes == 0 && first_len != 0) || (takes != 2 && second_len != 0))
        return 0;
    if (first_len > 0x7000 || second_len > 0x7000 || calls->length > calls->room
        || calls->room - calls->length < 4 + rest)
        return 0;
    splicelog_internal_append(calls, head, takes == 2 ? 6 : 4);
    splicelog_internal_append(calls, first, first_len);
    splicelog_internal_append(calls, second, second_len);
    calls->count++;
    return 1;
}

/* The same for a flush or a heal of a node. A number over 65,535 is no node's, and is not added. */
SPLICELOG_INLINE int splicelog_add_node(struct splicelog_calls *calls, enum splicelog_kind kind, size_t node) {
    const uint8_t number[2] = {SPLICELOG_CAST(uint8_t, node & 0xFF), SPLICELOG_CAST(uint8_t, node >> 8 & 0xFF)};
    if (node > 0xFFFF || splicelog_internal_takes(kind) != 3)
        return 0;
    return splicelog_add(calls, kind, number, sizeof number, number, 0);
}

/* How many bytes of the calls the first `done` of them take: a batch that stopped goes on behind
 * these. Never more than there are. */
SPLICELOG_INLINE size_t splicelog_skip(const uint8_t *calls, size_t calls_len, size_t done) {
    size_t at = 0;
    for (; done > 0 && calls_len - at >= 4; done--) {
        const size_t length = splicelog_internal_number(calls + at);
        if (calls_len - at - 4 < length)
            return at;
        at += 4 + length;
    }
    return at;
}

/* Whether the bytes begin with a call that reads. */
SPLICELOG_INLINE int splicelog_internal_reads(const uint8_t *calls, size_t calls_len) {
    if (calls_len < 4 || calls_len - 4 < splicelog_internal_number(calls))
        return 0;
    const size_t length = splicelog_internal_number(calls);
    switch (splicelog_internal_takes(splicelog_internal_number(calls + 2))) {
    case 0: return length == 0;
    case 1: return 1;
    case 2: return length >= 2 && splicelog_internal_number(calls + 4) <= length - 2;
    case 3: return length == 2;
    default: return 0;
    }
}

/* Why a batch stopped. */
enum splicelog_stop {
    SPLICELOG_STOP_END,        /* all calls were made */
    SPLICELOG_STOP_UNREADABLE, /* the next bytes do not read as a call */
    SPLICELOG_STOP_NO_ROOM,    /* the next answer might not fit: go on with the rest, in 68 bytes or more */
    SPLICELOG_STOP_REFUSED     /* the batch itself was refused, and no call was made */
};

/* Why the batch of these calls, which gave this answer, stopped. */
SPLICELOG_INLINE enum splicelog_stop splicelog_batch_stop(const uint8_t *calls, size_t calls_len,
                                                          uint64_t answer) {
    const size_t at = splicelog_skip(calls, calls_len, splicelog_batch_done(answer));
    if (splicelog_batch_number(answer) != SPLICELOG_OK)
        return SPLICELOG_STOP_REFUSED;
    if (at == calls_len)
        return SPLICELOG_STOP_END;
    return splicelog_internal_reads(calls + at, calls_len - at) ? SPLICELOG_STOP_NO_ROOM : SPLICELOG_STOP_UNREADABLE;
}

/* One answer of a batch: its number, and what a get or a next found, which stands in the array of the
 * answers. */
struct splicelog_answer {
    uint32_t number;
    const uint8_t *bytes;
    size_t length;
};

/* The answer at a place among the bytes written, and the place moved on behind it; gives 0 where
 * there is none.
 *
 *   size_t place = 0;
 *   struct splicelog_answer answer;
 *   while (splicelog_read_answer(answers, splicelog_batch_written(done), &place, &answer))
 *       use(answer.number, answer.bytes, answer.length);
 */
SPLICELOG_INLINE int splicelog_read_answer(const uint8_t *answers, size_t written, size_t *place,
                                           struct splicelog_answer *answer) {
    if (written < *place || written - *place < 4)
        return 0;
    const uint8_t *const at = answers + *place;
    const size_t length = splicelog_internal_number(at);
    if (written - *place - 4 < length)
        return 0;
    answer->number = splicelog_internal_number(at + 2);
    answer->bytes = at + 4;
    answer->length = length;
    *place += 4 + length;
    return 1;
}

#ifdef __cplusplus
}
#endif

#endif
