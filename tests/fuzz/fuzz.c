/* SPDX-License-Identifier: MIT
 * A libFuzzer target: random bytes become a list of calls, which a batch and the calls by themselves must answer alike, or damage to an
 * image, which every call must then judge alike and leave as it was. Relies on splicelog.h alone. The library is not instrumented, so each
 * array ends at a page that nobody may touch. */
#define _DEFAULT_SOURCE /* MAP_ANONYMOUS */
#include "splicelog.h"

#include <stdio.h>
#include <stdlib.h>
#include <string.h>
#include <sys/mman.h>

enum { NODES = 32, STORE = NODES * SPLICELOG_NODE_SIZE, WORK = NODES * SPLICELOG_WORK_PER_NODE, PAGE = 4096, MOST = 4096 };

#define CHECK(holds)                                                                                                                       \
    do {                                                                                                                                   \
        if (!(holds)) {                                                                                                                    \
            fprintf(stderr, "%s:%d: not so: %s\n", __FILE__, __LINE__, #holds);                                                            \
            abort();                                                                                                                       \
        }                                                                                                                                  \
    } while (0)

/* The end of a new array of this many bytes, a multiple of a page; the page behind it faults. */
static uint8_t *end_of(size_t length) {
    uint8_t *const at = mmap(NULL, length + PAGE, PROT_READ | PROT_WRITE, MAP_PRIVATE | MAP_ANONYMOUS, -1, 0);
    CHECK(at != MAP_FAILED && mprotect(at + length, PAGE, PROT_NONE) == 0);
    return at + length;
}

static uint8_t *store, *other, *work, *calls_end, *answers_end, *buffer_end;

static void map_arrays(void) {
    if (store)
        return;
    store = end_of(STORE) - STORE;
    other = end_of(STORE) - STORE;
    work = end_of(WORK) - WORK;
    calls_end = end_of(MOST);
    answers_end = end_of(MOST);
    buffer_end = end_of(PAGE);
}

/* The bytes of the input, one after another; 0 behind the last. */
struct input {
    const uint8_t *bytes;
    size_t left;
};

static uint8_t take(struct input *input) {
    if (input->left == 0)
        return 0;
    input->left--;
    return *input->bytes++;
}

/* A path of 1 to 4 components out of a few, so that calls meet; now and then the empty one, or a malformed one. */
static size_t take_path(struct input *input, uint8_t *path) {
    static const char *const components[] = {"a", "b", "r1", "r10", "c", "t7", "aaaaaaaaaaaaaaaa", "~"};
    const uint8_t shape = take(input);
    char text[SPLICELOG_PATH_LIMIT + 16] = "";
    size_t length;
    if (shape >= 0xF0 && shape < 0xF8)
        return 0;
    for (int i = 0; i <= shape % 4; i++) {
        strcat(text, i ? "/" : "");
        strcat(text, components[take(input) % 8]);
    }
    if (shape >= 0xF8 || splicelog_path(text, path, &length) != SPLICELOG_OK) {
        memset(path, shape, 9);
        return shape % 9;
    }
    return length;
}

static int take_put(struct input *input, struct splicelog_calls *calls) {
    uint8_t path[SPLICELOG_PATH_LIMIT], value[SPLICELOG_VALUE_LIMIT + 1];
    const size_t path_len = take_path(input, path);
    memset(value, take(input), sizeof value);
    return splicelog_add(calls, SPLICELOG_PUT, path, path_len, value, value[0] % (sizeof value + 1));
}

static int take_call(struct input *input, struct splicelog_calls *calls) {
    static const enum splicelog_kind kinds[] = {SPLICELOG_PUT,   SPLICELOG_PUT,  SPLICELOG_PUT, SPLICELOG_DROP, SPLICELOG_CLEAR,
                                                SPLICELOG_MOVE,  SPLICELOG_MOVE, SPLICELOG_GET, SPLICELOG_NEXT, SPLICELOG_SETTLE,
                                                SPLICELOG_TIDY,  SPLICELOG_FLUSH, SPLICELOG_HEAL};
    const enum splicelog_kind kind = kinds[take(input) % (sizeof kinds / sizeof *kinds)];
    uint8_t first[SPLICELOG_PATH_LIMIT], second[SPLICELOG_PATH_LIMIT];
    if (kind == SPLICELOG_FLUSH || kind == SPLICELOG_HEAL)
        return splicelog_add_node(calls, kind, take(input) % (NODES + 2));
    if (kind == SPLICELOG_SETTLE || kind == SPLICELOG_TIDY)
        return splicelog_add(calls, kind, first, 0, second, 0);
    if (kind == SPLICELOG_PUT)
        return take_put(input, calls);
    const size_t first_len = take_path(input, first);
    return splicelog_add(calls, kind, first, first_len, second,
                         kind == SPLICELOG_MOVE || kind == SPLICELOG_NEXT ? take_path(input, second) : 0);
}

/* Up to 63 puts that follow from two bytes of the input, and then calls that its next bytes make: as many as it says, or fit. */
static void take_calls(struct input *input, struct splicelog_calls *calls) {
    uint8_t bytes[8 * 64];
    struct input generated = {bytes, sizeof bytes};
    uint32_t state = take(input);
    for (size_t i = 0; i < sizeof bytes; i++) {
        state = state * 1664525 + 1013904223;
        bytes[i] = (uint8_t)(state >> 24);
    }
    for (int wanted = take(input) % 64; wanted > 0 && take_put(&generated, calls); wanted--) {}
    for (int wanted = take(input) % 64; wanted > 0 && input->left > 0 && take_call(input, calls); wanted--) {}
}

/* A call of a batch: a put, a move and a next have a path with its length in front, and then a second array; the others have one array. */
struct call {
    const uint8_t *first, *second;
    size_t first_len, second_len;
};

static struct call read_call(const uint8_t *piece) {
    const size_t length = piece[0] + 256u * piece[1];
    const int two = piece[2] == SPLICELOG_PUT || piece[2] == SPLICELOG_MOVE || piece[2] == SPLICELOG_NEXT;
    const size_t first_len = two ? piece[4] + 256u * piece[5] : length;
    const uint8_t *const first = piece + (two ? 6 : 4);
    const struct call call = {first, first + first_len, first_len, two ? length - 2 - first_len : 0};
    return call;
}

/* One call of a batch as the call by itself, on `other`. What a get or a next found stands before buffer_end, and its length is set. */
static uint32_t make_call(const uint8_t *piece, size_t *found) {
    const struct call call = read_call(piece);
    uint8_t *const buffer = buffer_end - SPLICELOG_PATH_LIMIT;
    switch (piece[2]) {
    case SPLICELOG_PUT:
        return splicelog_put(other, STORE, work, WORK, call.first, call.first_len, call.second, call.second_len);
    case SPLICELOG_MOVE:
        return splicelog_move(other, STORE, work, WORK, call.first, call.first_len, call.second, call.second_len);
    case SPLICELOG_NEXT:
        return splicelog_next_path(other, STORE, call.first, call.first_len, call.second, call.second_len, buffer, SPLICELOG_PATH_LIMIT,
                                   found);
    case SPLICELOG_GET:
        return splicelog_get_value(other, STORE, call.first, call.first_len, buffer, SPLICELOG_PATH_LIMIT, found);
    case SPLICELOG_DROP:
        return splicelog_drop(other, STORE, work, WORK, call.first, call.first_len);
    case SPLICELOG_CLEAR:
        return splicelog_clear(other, STORE, work, WORK, call.first, call.first_len);
    case SPLICELOG_SETTLE:
        return splicelog_settle(other, STORE, work, WORK);
    case SPLICELOG_TIDY:
        return splicelog_tidy(other, STORE, work, WORK);
    case SPLICELOG_FLUSH:
        return splicelog_flush(other, STORE, work, WORK, call.first[0]);
    default:
        return splicelog_heal(other, STORE, work, WORK, call.first[0]);
    }
}

/* The empty path as the first one of a call that has one: a clear leaves no path, a next may find any, and the others refuse it. */
static void check_empty_path(uint8_t kind, uint32_t number) {
    size_t live;
    if (kind == SPLICELOG_CLEAR)
        CHECK(number == SPLICELOG_OK && splicelog_check_store(other, STORE, &live) == SPLICELOG_OK && live == 0);
    else
        CHECK(kind == SPLICELOG_NEXT || number == SPLICELOG_MALFORMED_PATH);
}

/* Flush and heal look at nodes, and a batch may lay them out otherwise: there only the map is compared. */
static void compare_answer(const uint8_t *piece, const struct splicelog_answer *answer) {
    size_t found = 0;
    const uint32_t number = make_call(piece, &found);
    if (piece[2] == SPLICELOG_FLUSH || piece[2] == SPLICELOG_HEAL)
        return;
    if (piece[2] < SPLICELOG_SETTLE && read_call(piece).first_len == 0)
        check_empty_path(piece[2], number);
    CHECK(answer->number == number && answer->length == found);
    CHECK(memcmp(answer->bytes, buffer_end - SPLICELOG_PATH_LIMIT, found) == 0);
}

/* The two stores are sound and have the same paths with the same values. */
static void compare_stores(void) {
    uint8_t value[2][SPLICELOG_VALUE_LIMIT];
    struct splicelog_place place = {{0}, 0};
    size_t live, other_live, found, other_found, listed = 0;
    int same;
    CHECK(splicelog_check_store(store, STORE, &live) == SPLICELOG_OK && splicelog_check_store(other, STORE, &other_live) == SPLICELOG_OK);
    CHECK(live == other_live && live <= NODES);
    CHECK(splicelog_is_same(store, STORE, other, STORE, &same) == SPLICELOG_OK && same);
    for (; splicelog_step(store, STORE, NULL, 0, &place) == SPLICELOG_OK; listed++) {
        CHECK(splicelog_get_value(store, STORE, place.bytes, place.length, value[0], sizeof value[0], &found) == SPLICELOG_OK);
        CHECK(splicelog_get_value(other, STORE, place.bytes, place.length, value[1], sizeof value[1], &other_found) == SPLICELOG_OK);
        CHECK(listed < live && found == other_found && memcmp(value[0], value[1], found) == 0);
    }
    CHECK(listed == live);
}

/* The calls as batches with this much room for answers, and each call again by itself. */
static void run_calls(const uint8_t *calls, size_t length, size_t room) {
    uint8_t *const answers = answers_end - room;
    size_t at = 0;
    enum splicelog_stop stop = SPLICELOG_STOP_NO_ROOM;
    for (size_t done = 1; stop == SPLICELOG_STOP_NO_ROOM && done > 0;) {
        const uint64_t answer = splicelog_batch(store, STORE, work, WORK, calls + at, length - at, answers, room);
        const size_t written = splicelog_batch_written(answer);
        struct splicelog_answer one;
        size_t place = 0;
        CHECK(splicelog_batch_number(answer) == SPLICELOG_OK && written <= room);
        done = splicelog_batch_done(answer);
        stop = splicelog_batch_stop(calls + at, length - at, answer);
        CHECK(stop != SPLICELOG_STOP_NO_ROOM || room - written < 4 + SPLICELOG_PATH_LIMIT);
        for (size_t i = 0; i < done; i++) {
            CHECK(splicelog_read_answer(answers, written, &place, &one));
            compare_answer(calls + at, &one);
            at += splicelog_skip(calls + at, length - at, 1);
        }
        CHECK(place == written);
    }
    CHECK((stop == SPLICELOG_STOP_END) == (at == length));
}

/* Calls, of which the first bytes are then changed here and there: some do not read. */
static void try_calls(struct input input) {
    const size_t room = take(&input) * 4u + take(&input) % 4;
    uint8_t bytes[MOST];
    struct splicelog_calls calls = splicelog_begin_calls(bytes, sizeof bytes);
    take_calls(&input, &calls);
    while (input.left > 0 && calls.count > 0) {
        const size_t at = splicelog_skip(bytes, calls.length, take(&input) % calls.count) + take(&input) % 5;
        const uint8_t byte = take(&input);
        if (at < calls.length)
            bytes[at] = byte < 0xC0 ? byte % 0x48 : byte;
    }
    uint8_t *const lent = calls_end - calls.length;
    memcpy(lent, bytes, calls.length);
    CHECK(splicelog_make(store, STORE) == SPLICELOG_OK && splicelog_make(other, STORE) == SPLICELOG_OK);
    run_calls(lent, calls.length, room);
    compare_stores();
}

/* A store with some records, in which bytes are then changed: every call judges it as the check does, and a refusal changes nothing. */
static void try_damage(struct input input) {
    static const uint8_t path[] = {'r', '1', 0, 'c', 0}, value[SPLICELOG_VALUE_LIMIT] = {7};
    uint8_t bytes[MOST];
    struct splicelog_calls calls = splicelog_begin_calls(bytes, sizeof bytes);
    size_t live, found;
    take_calls(&input, &calls);
    CHECK(splicelog_make(store, STORE) == SPLICELOG_OK);
    CHECK(splicelog_batch_number(splicelog_batch(store, STORE, work, WORK, bytes, calls.length, answers_end - MOST, MOST)) == SPLICELOG_OK);
    while (input.left > 0) {
        const size_t at = take(&input) % 8 * SPLICELOG_NODE_SIZE + take(&input) + (take(&input) % 4) * 256u;
        store[at] = take(&input);
    }
    memcpy(other, store, STORE);
    const uint32_t number = splicelog_check_store(store, STORE, &live);
    const uint32_t got =
        splicelog_get_value(store, STORE, path, sizeof path, buffer_end - SPLICELOG_VALUE_LIMIT, SPLICELOG_VALUE_LIMIT, &found);
    CHECK(number == SPLICELOG_OK || (number == SPLICELOG_NOT_SOUND && live == 0 && got == number && found == 0));
    CHECK(number != SPLICELOG_OK || got == SPLICELOG_OK || got == SPLICELOG_NOT_FOUND);
    const uint32_t least = splicelog_next_path(store, STORE, NULL, 0, NULL, 0, buffer_end - SPLICELOG_PATH_LIMIT, SPLICELOG_PATH_LIMIT, &found);
    CHECK(least == (number != SPLICELOG_OK || live > 0 ? number : SPLICELOG_NOT_FOUND));
    CHECK(memcmp(store, other, STORE) == 0);
    const uint32_t put = splicelog_put(store, STORE, work, WORK, path, sizeof path, value, sizeof value);
    CHECK(number == SPLICELOG_OK || (put == number && memcmp(store, other, STORE) == 0));
    CHECK(splicelog_tidy(store, STORE, work, WORK) == number);
    CHECK(number != SPLICELOG_OK || (splicelog_check_store(store, STORE, &found) == SPLICELOG_OK && found - live <= 1));
    CHECK(splicelog_clear(store, STORE, work, WORK, NULL, 0) == number);
    CHECK(number != SPLICELOG_OK || (splicelog_check_store(store, STORE, &found) == SPLICELOG_OK && found == 0));
}

int LLVMFuzzerTestOneInput(const uint8_t *data, size_t size);
int LLVMFuzzerTestOneInput(const uint8_t *data, size_t size) {
    struct input input = {data, size};
    map_arrays();
    if (take(&input) % 4 == 0)
        try_damage(input);
    else
        try_calls(input);
    return 0;
}
