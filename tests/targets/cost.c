/* SPDX-License-Identifier: MIT
 *
 * Makes one call many times, for count.c to count its instructions: `cost CALL COUNT [NODES [VALUE]]`. The store is full and tidy, with as
 * many records as nodes (64, unless said), and is put back before each call. Values have VALUE bytes (unless said 20, and 32 that is put). The word `nothing` does all but the call, so the difference is the
 * call's own. A move renumbers an eighth of the records; a batch is such a move. It relies on stdio and on the library.
 */
#include "splicelog.h"

#include <stdio.h>
#include <stdlib.h>
#include <string.h>

enum { CLOSURES = 8, STORE_MOST = SPLICELOG_MOST_NODES * SPLICELOG_NODE_SIZE };
static uint8_t kept[STORE_MOST], store[STORE_MOST], work[SPLICELOG_MOST_NODES * SPLICELOG_WORK_PER_NODE], buffer[256];
static uint8_t value[SPLICELOG_VALUE_LIMIT];
static size_t nodes = 64, value_length = 20, put_length = 32, length, room;

/* Bytes with the 00 behind the text, as the library takes a path. */
static const uint8_t closure[] = "r1\0k3", elsewhere[] = "r1\0k9", record[] = "r1\0k3\0f11";

static uint32_t put_all(void) {
    for (unsigned i = 0; i < nodes; i++) {
        char text[32];
        const int end = snprintf(text, sizeof text, "r1/k%u/f%u", i % CLOSURES, i);
        for (int j = 0; j < end; j++)
            text[j] = (char)(text[j] == '/' ? 0 : text[j]);
        const uint32_t number = splicelog_put(store, length, work, room, (const uint8_t *)text, (size_t)end + 1, value, value_length);
        if (number != 0)
            return number;
    }
    return splicelog_tidy(store, length, work, room);
}

static uint64_t batch(void) {
    uint8_t bytes[64];
    struct splicelog_calls calls = splicelog_begin_calls(bytes, sizeof bytes);
    if (!splicelog_add(&calls, SPLICELOG_MOVE, closure, sizeof closure, elsewhere, sizeof elsewhere))
        return UINT64_MAX;
    return splicelog_batch(store, length, work, room, bytes, calls.length, buffer, sizeof buffer);
}

/* The call, and 0 where it was accepted. */
static uint32_t made(const char *call) {
    if (strcmp(call, "nothing") == 0)
        return 0;
    if (strcmp(call, "make") == 0)
        return splicelog_make(store, length);
    if (strcmp(call, "check") == 0)
        return splicelog_number(splicelog_check(store, length));
    if (strcmp(call, "get") == 0)
        return splicelog_number(splicelog_get(store, length, record, sizeof record, buffer, SPLICELOG_VALUE_LIMIT));
    if (strcmp(call, "next") == 0)
        return splicelog_number(splicelog_next(store, length, closure, sizeof closure, record, sizeof record, buffer, SPLICELOG_PATH_LIMIT));
    if (strcmp(call, "same") == 0)
        return splicelog_number(splicelog_same(store, length, kept, length));
    if (strcmp(call, "put") == 0)
        return splicelog_put(store, length, work, room, record, sizeof record, value, put_length);
    if (strcmp(call, "drop") == 0)
        return splicelog_drop(store, length, work, room, record, sizeof record);
    if (strcmp(call, "clear") == 0)
        return splicelog_clear(store, length, work, room, closure, sizeof closure);
    if (strcmp(call, "move") == 0)
        return splicelog_move(store, length, work, room, closure, sizeof closure, elsewhere, sizeof elsewhere);
    if (strcmp(call, "settle") == 0)
        return splicelog_settle(store, length, work, room);
    if (strcmp(call, "tidy") == 0)
        return splicelog_tidy(store, length, work, room);
    if (strcmp(call, "flush") == 0)
        return splicelog_flush(store, length, work, room, splicelog_root(store, length));
    if (strcmp(call, "heal") == 0)
        return splicelog_heal(store, length, work, room, splicelog_root(store, length));
    if (strcmp(call, "batch") == 0)
        return splicelog_batch_number(batch());
    return UINT32_MAX;
}

int main(int argc, char **argv) {
    if (argc < 3 || argc > 5) {
        fputs("usage: cost CALL COUNT [NODES [VALUE]]\n", stderr);
        return 2;
    }
    if (argc >= 4)
        nodes = (size_t)atoi(argv[3]);
    if (argc == 5)
        value_length = put_length = (size_t)atoi(argv[4]);
    length = nodes * SPLICELOG_NODE_SIZE;
    room = nodes * SPLICELOG_WORK_PER_NODE;
    if (nodes > SPLICELOG_MOST_NODES || value_length > sizeof value || splicelog_make(store, length) != 0 || put_all() != 0) {
        fputs("cost: the store is not filled\n", stderr);
        return 1;
    }
    memcpy(kept, store, length);
    for (int count = atoi(argv[2]); count > 0; count--) {
        memcpy(store, kept, length);
        const uint32_t number = made(argv[1]);
        if (number != 0) {
            fprintf(stderr, "cost: %s answers %u\n", argv[1], (unsigned)number);
            return 1;
        }
    }
    return 0;
}
