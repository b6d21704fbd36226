/* SPDX-License-Identifier: MIT
 * Tests what is inline in the headers: paths from text and back, the forms that return the number alone, the readers of node 0, and the
 * helpers of a batch. Relies on store.h. Valid in C99 and in C++98. */
#include "store.h"

/* Bytes without a pattern, the same in every run. */
static uint32_t next_random(void) {
    static uint32_t state = 7;
    state ^= state << 13;
    state ^= state >> 17;
    state ^= state << 5;
    return state;
}

/* A text that is a path's, and the text of that path again. */
static void take_text(const char *text) {
    const struct path made = path_of(text);
    char again[SPLICELOG_PATH_LIMIT];
    CHECK(made.length == strlen(text) + 1);
    CHECK(splicelog_path_text(made.bytes, made.length, again) == SPLICELOG_OK && strcmp(again, text) == 0);
    CHECK(splicelog_path_text(made.bytes, made.length - 1, again) == SPLICELOG_MALFORMED_PATH && again[0] == 0);
}

/* A text that is no path's: told, and what is left is one byte, which every call refuses, as next's second path too. So it wipes nothing. */
static void refuse_text(const char *text) {
    uint8_t path[SPLICELOG_PATH_LIMIT], found[SPLICELOG_PATH_LIMIT];
    const struct path top = path_of("r1");
    size_t length;
    CHECK(splicelog_path(text, path, &length) == SPLICELOG_MALFORMED_PATH);
    CHECK(length == 1 && path[0] == 0 && !splicelog_is_path(path, length));
    CHECK(splicelog_drop(store, STORE, work, WORK, path, length) == SPLICELOG_MALFORMED_PATH);
    CHECK(splicelog_clear(store, STORE, work, WORK, path, length) == SPLICELOG_MALFORMED_PATH);
    CHECK(splicelog_next_path(store, STORE, path, 1, NULL, 0, found, sizeof found, &length) == SPLICELOG_MALFORMED_PATH);
    CHECK(splicelog_next_path(store, STORE, top.bytes, top.length, path, 1, found, sizeof found, &length) == SPLICELOG_MALFORMED_PATH);
}

static void test_texts(void) {
    static const char *const good[] = {"a", "~", "!", "r1/c7", "1/2/3/4/5/6/7/8", "aaaaaaaaaaaaaaaa",
                                       "aaaaaaaaaaaaaaaa/aaaaaaaaaaaaaaaa/aaaaaaaaaaaaaaaa/aaaaaaaaaaaa"};
    static const char *const bad[] = {"", "//", "///", "/ ", "a/", "/a", "a//b", "a b", "a\x7F", "a\x80", "\xFF", "a\n", "aaaaaaaaaaaaaaaaa",
                                      "1/2/3/4/5/6/7/8/9",
                                      "aaaaaaaaaaaaaaaa/aaaaaaaaaaaaaaaa/aaaaaaaaaaaaaaaa/aaaaaaaaaaaaa",
                                      "aaaaaaaaaaaaaaaa/aaaaaaaaaaaaaaaa/aaaaaaaaaaaaaaaa/aaaaaaaaaaaa/",
                                      "aaaaaaaaaaaaaaaa/aaaaaaaaaaaaaaaa/aaaaaaaaaaaaaaaa/aaaaaaaaaaaa/a"};
    for (size_t i = 0; i < sizeof good / sizeof *good; i++)
        take_text(good[i]);
    for (size_t i = 0; i < sizeof bad / sizeof *bad; i++)
        refuse_text(bad[i]);
}

/* A lone slash is the text of the empty path, and only its. It has no value, and every path is below it. */
static void test_empty_path(void) {
    const struct path empty = path_of("/"), top = path_of("r1");
    struct splicelog_place place = {{0}, 0};
    char text[SPLICELOG_PATH_LIMIT];
    size_t live;
    CHECK(empty.length == 0 && !splicelog_is_path(empty.bytes, empty.length) && !splicelog_is_path(NULL, 0));
    CHECK(splicelog_path_text(empty.bytes, empty.length, text) == SPLICELOG_OK && strcmp(text, "/") == 0);
    CHECK(splicelog_path_text(NULL, 0, text) == SPLICELOG_OK && strcmp(text, "/") == 0);
    CHECK(put("r1", top.bytes, 1) == SPLICELOG_OK);
    CHECK(put("/", top.bytes, 1) == SPLICELOG_MALFORMED_PATH);
    CHECK(move("/", "r2") == SPLICELOG_MALFORMED_PATH && move("r1", "/") == SPLICELOG_MALFORMED_PATH);
    CHECK(splicelog_step(store, STORE, empty.bytes, empty.length, &place) == SPLICELOG_OK);
    CHECK(place.length == top.length && memcmp(place.bytes, top.bytes, top.length) == 0);
    CHECK(splicelog_step(store, STORE, NULL, 0, &place) == SPLICELOG_NOT_FOUND && place.length == top.length);
    CHECK(splicelog_clear(store, STORE, work, WORK, empty.bytes, empty.length) == SPLICELOG_OK);
    CHECK(splicelog_check_store(store, STORE, &live) == SPLICELOG_OK && live == 0);
}

/* The header judges a path as the library does: random bytes, most of them letters and 00. */
static void test_paths(void) {
    static const uint8_t bytes[] = {0, 0, 0x21, 0x7E, 'a', 'b', 'c', '1', '2', '3', 'x', 'y', 'z', '-', '_', '.'};
    static const uint8_t rare[] = {0x20, 0x7F, 0x2F, 0x80, 0xFF, 0x2E, 0x30, 0x01};
    uint8_t path[SPLICELOG_PATH_LIMIT + 8], value[SPLICELOG_VALUE_LIMIT];
    char text[SPLICELOG_PATH_LIMIT];
    unsigned formed = 0;
    for (int i = 0; i < 3000; i++) {
        size_t found, length = next_random() % sizeof path;
        for (size_t j = 0; j < length; j++)
            path[j] = next_random() % 200 == 0 ? rare[next_random() % sizeof rare] : bytes[next_random() % sizeof bytes];
        if (length > 0)
            path[length - 1] = next_random() % 16 == 0 ? 'a' : 0;
        const uint32_t number = splicelog_get_value(store, STORE, path, length, value, sizeof value, &found);
        CHECK(splicelog_is_path(path, length) == (number != SPLICELOG_MALFORMED_PATH));
        CHECK((splicelog_path_text(path, length, text) == SPLICELOG_OK) == (number != SPLICELOG_MALFORMED_PATH || length == 0));
        formed += number != SPLICELOG_MALFORMED_PATH;
    }
    CHECK(formed > 100 && formed < 2900);
}

/* The forms that return the number alone, and the readers of node 0. */
static void test_forms(void) {
    static uint8_t other[STORE];
    const uint8_t loss[] = {0x28, 0};
    const struct path top = path_of("r1"), tray = path_of("r1/c7/t1");
    uint8_t value[SPLICELOG_VALUE_LIMIT], found[SPLICELOG_PATH_LIMIT];
    size_t length, live = 7;
    int same;
    CHECK(splicelog_make(store, STORE) == SPLICELOG_OK && splicelog_make(other, STORE) == SPLICELOG_OK);
    CHECK(splicelog_check_store(store, STORE, &live) == SPLICELOG_OK && live == 0);
    CHECK(put("r1/c7/t1", loss, sizeof loss) == SPLICELOG_OK && put("r1/c7/t2", loss, 0) == SPLICELOG_OK);
    CHECK(splicelog_check_store(store, STORE, &live) == SPLICELOG_OK && live == 2);
    CHECK(splicelog_get_value(store, STORE, tray.bytes, tray.length, value, sizeof value, &length) == SPLICELOG_OK);
    CHECK(length == sizeof loss && memcmp(value, loss, length) == 0);
    CHECK(splicelog_get_value(store, STORE, top.bytes, top.length, value, sizeof value, &length) == SPLICELOG_NOT_FOUND && length == 0);
    CHECK(splicelog_next_path(store, STORE, top.bytes, top.length, tray.bytes, 0, found, sizeof found, &length) == SPLICELOG_OK);
    CHECK(length == tray.length && memcmp(found, tray.bytes, length) == 0);
    CHECK(splicelog_next_path(store, STORE, tray.bytes, tray.length, tray.bytes, tray.length, found, sizeof found, &length) ==
          SPLICELOG_NOT_FOUND);
    CHECK(length == 0);
    CHECK(splicelog_is_same(store, STORE, other, STORE, &same) == SPLICELOG_OK && same == 0);
    CHECK(splicelog_is_same(store, STORE, store, STORE, &same) == SPLICELOG_OK && same == 1);
    CHECK(splicelog_tidy(other, STORE, work, WORK) == SPLICELOG_OK && splicelog_levels(other, STORE) == 1);
    CHECK(splicelog_root(other, STORE) >= 1 && splicelog_root(other, STORE) < NODES);
    CHECK(splicelog_flush(other, STORE, work, WORK, splicelog_root(other, STORE)) == SPLICELOG_NO_INTERIOR_NODE);
    CHECK(splicelog_levels(store, STORE) >= 2);
    CHECK(splicelog_flush(store, STORE, work, WORK, splicelog_root(store, STORE)) == SPLICELOG_OK);
    CHECK(splicelog_heal(store, STORE, work, WORK, splicelog_root(store, STORE)) == SPLICELOG_OK);
    CHECK(splicelog_root(store, 0) == 0 && splicelog_levels(store, SPLICELOG_NODE_SIZE - 1) == 0);
    other[6] = 3, other[7] = 1, other[8] = 5;
    CHECK(splicelog_root(other, STORE) == 0x103 && splicelog_levels(other, STORE) == 5);
}

/* Adds a call of each kind; gives 1 where all had room. */
static int add_all(struct splicelog_calls *calls) {
    const struct path tray = path_of("r1/c7/t1"), old_closure = path_of("r1/c7"), new_closure = path_of("r1/c9");
    const uint8_t loss[] = {0x28};
    return splicelog_add(calls, SPLICELOG_PUT, tray.bytes, tray.length, loss, sizeof loss)
           && splicelog_add(calls, SPLICELOG_MOVE, old_closure.bytes, old_closure.length, new_closure.bytes, new_closure.length)
           && splicelog_add(calls, SPLICELOG_GET, tray.bytes, tray.length, loss, 0)
           && splicelog_add(calls, SPLICELOG_NEXT, new_closure.bytes, new_closure.length, loss, 0)
           && splicelog_add(calls, SPLICELOG_DROP, tray.bytes, tray.length, loss, 0)
           && splicelog_add(calls, SPLICELOG_CLEAR, old_closure.bytes, old_closure.length, loss, 0)
           && splicelog_add(calls, SPLICELOG_SETTLE, loss, 0, loss, 0) && splicelog_add(calls, SPLICELOG_TIDY, loss, 0, loss, 0)
           && splicelog_add_node(calls, SPLICELOG_FLUSH, 0) && splicelog_add_node(calls, SPLICELOG_HEAL, 0xFFFF);
}

enum { CALLS = 10 };

/* An array is never written outside its room, whatever the length says, and what a kind does not take is not added. */
static void test_add(void) {
    static const uint8_t whole_store[] = {0, 0, 0x22, 0, 2, 0, 0x31, 0, 0, 0};
    uint8_t bytes[300];
    const uint8_t some[2] = {'a', 0};
    struct splicelog_calls calls = splicelog_begin_calls(bytes, sizeof bytes);
    CHECK(add_all(&calls) && calls.count == CALLS);
    const size_t whole = calls.length;
    for (size_t room = 0; room <= whole; room++) {
        memset(bytes, 0xA5, sizeof bytes);
        calls = splicelog_begin_calls(bytes, room);
        CHECK(add_all(&calls) == (room == whole) && calls.length <= room && (calls.count == CALLS) == (room == whole));
        for (size_t i = calls.length; i < sizeof bytes; i++)
            CHECK(bytes[i] == 0xA5);
        CHECK(splicelog_skip(bytes, calls.length, calls.count) == calls.length);
    }
    calls = splicelog_begin_calls(bytes, 8);
    calls.length = 9;
    CHECK(!splicelog_add(&calls, SPLICELOG_SETTLE, some, 0, some, 0) && calls.length == 9 && calls.count == 0);
    calls.length = SIZE_MAX;
    CHECK(!splicelog_add(&calls, SPLICELOG_DROP, some, sizeof some, some, 0) && calls.count == 0);
    calls = splicelog_begin_calls(bytes, sizeof bytes);
    CHECK(!splicelog_add(&calls, SPLICELOG_DROP, some, sizeof some, some, sizeof some));
    CHECK(!splicelog_add(&calls, SPLICELOG_CAST(enum splicelog_kind, 0x23), some, sizeof some, some, 0));
    CHECK(!splicelog_add(&calls, SPLICELOG_SETTLE, some, sizeof some, some, 0));
    CHECK(!splicelog_add(&calls, SPLICELOG_FLUSH, some, 1, some, 0) && !splicelog_add_node(&calls, SPLICELOG_DROP, 1));
    CHECK(!splicelog_add_node(&calls, SPLICELOG_HEAL, 0x10000) && !splicelog_add(&calls, SPLICELOG_PUT, some, SIZE_MAX, some, 2));
    CHECK(!splicelog_add(&calls, SPLICELOG_PUT, some, 0x7001, some, 0) && calls.length == 0 && calls.count == 0);
    /* The empty path is a path of length 0: the pieces are laid out as ever. */
    CHECK(splicelog_add(&calls, SPLICELOG_CLEAR, NULL, 0, NULL, 0) && splicelog_add(&calls, SPLICELOG_NEXT, NULL, 0, NULL, 0));
    CHECK(calls.count == 2 && calls.length == sizeof whole_store && memcmp(bytes, whole_store, sizeof whole_store) == 0);
}

/* Makes the calls from one place on with so much room for answers, and goes on where the batch stopped; gives how many calls were made in
 * all. The answers' numbers go to `numbers`. */
static size_t run_in_parts(const struct splicelog_calls *calls, size_t room, uint32_t *numbers) {
    static uint8_t answers[1024];
    size_t made = 0, at = 0;
    for (enum splicelog_stop stop = SPLICELOG_STOP_NO_ROOM; stop == SPLICELOG_STOP_NO_ROOM;) {
        const uint64_t answer = splicelog_batch(store, STORE, work, WORK, calls->bytes + at, calls->length - at, answers, room);
        const size_t done = splicelog_batch_done(answer);
        struct splicelog_answer one;
        size_t place = 0;
        CHECK(splicelog_batch_number(answer) == SPLICELOG_OK);
        stop = splicelog_batch_stop(calls->bytes + at, calls->length - at, answer);
        at += splicelog_skip(calls->bytes + at, calls->length - at, done);
        for (size_t i = 0; i < done; i++) {
            CHECK(splicelog_read_answer(answers, splicelog_batch_written(answer), &place, &one));
            numbers[made + i] = one.number;
        }
        CHECK(!splicelog_read_answer(answers, splicelog_batch_written(answer), &place, &one));
        made += done;
        if (done == 0)
            break;
    }
    CHECK(at == splicelog_skip(calls->bytes, calls->length, made));
    return made;
}

/* A batch made in parts answers as one made at once; with too little room for a next it stops for good in front of it, and says why. */
static void test_parts(void) {
    static const uint32_t expected[CALLS] = {0, 0, 8, 0, 0, 0, 0, 0, 6, 6};
    uint8_t bytes[300];
    uint32_t numbers[CALLS];
    struct splicelog_calls calls = splicelog_begin_calls(bytes, sizeof bytes);
    CHECK(add_all(&calls));
    for (size_t room = 0; room < 200; room++) {
        CHECK(splicelog_make(store, STORE) == SPLICELOG_OK);
        const size_t made = run_in_parts(&calls, room, numbers);
        CHECK(made == (room < 4 ? 0 : room < 4 + SPLICELOG_VALUE_LIMIT ? 2 : room < 4 + SPLICELOG_PATH_LIMIT ? 3 : CALLS));
        CHECK(memcmp(numbers, expected, made * sizeof *numbers) == 0);
    }
}

/* A call of more bytes than one byte counts, and more calls than that. */
static void test_many(void) {
    enum { MANY = 300 };
    static uint8_t bytes[8 * MANY], answers[8 * MANY], value[MANY];
    const struct path top = path_of("r1");
    struct splicelog_calls calls = splicelog_begin_calls(bytes, sizeof bytes);
    CHECK(splicelog_add(&calls, SPLICELOG_PUT, top.bytes, top.length, value, sizeof value));
    CHECK(splicelog_skip(bytes, calls.length, 1) == calls.length && calls.length == 6 + top.length + MANY);
    while (calls.count < MANY)
        CHECK(splicelog_add(&calls, SPLICELOG_SETTLE, value, 0, value, 0));
    const uint64_t answer = splicelog_batch(store, STORE, work, WORK, bytes, calls.length, answers, sizeof answers);
    CHECK(splicelog_batch_done(answer) == MANY && splicelog_batch_written(answer) == 4 * MANY);
    CHECK(answers[2] == SPLICELOG_VALUE_TOO_LONG && splicelog_batch_stop(bytes, calls.length, answer) == SPLICELOG_STOP_END);
}

/* Each reason to stop. Bytes that do not read: too few, a length past the end, no kind, a path past its piece, another length. */
static void test_stops(void) {
    static const uint8_t unreadable[][8] = {{1, 0, 0x21}, {5, 0, 0x21, 0}, {0, 0, 0x23, 0}, {0, 0, 0x44, 0}, {2, 0, 0x20, 0, 1, 0},
                                            {1, 0, 0x24, 0, 0}, {1, 0, 0x40, 0, 0}, {0, 0, 0x42, 0}, {3, 0, 0x43, 0, 0, 0, 0}};
    static const size_t lengths[] = {3, 4, 4, 4, 6, 5, 5, 4, 7};
    uint8_t bytes[64], answers[64];
    for (size_t i = 0; i < sizeof lengths / sizeof *lengths; i++) {
        struct splicelog_calls calls = splicelog_begin_calls(bytes, sizeof bytes);
        CHECK(splicelog_add(&calls, SPLICELOG_SETTLE, bytes, 0, bytes, 0));
        memcpy(bytes + calls.length, unreadable[i], lengths[i]);
        const size_t length = calls.length + lengths[i];
        const uint64_t answer = splicelog_batch(store, STORE, work, WORK, bytes, length, answers, sizeof answers);
        CHECK(splicelog_batch_number(answer) == SPLICELOG_OK && splicelog_batch_done(answer) == 1);
        CHECK(splicelog_batch_stop(bytes, length, answer) == SPLICELOG_STOP_UNREADABLE);
        CHECK(splicelog_skip(bytes, length, 1) == calls.length);
    }
    uint64_t answer = splicelog_batch(store, STORE, work, WORK, bytes, 0, answers, sizeof answers);
    CHECK(splicelog_batch_stop(bytes, 0, answer) == SPLICELOG_STOP_END);
    answer = splicelog_batch(store, STORE, work, WORK, bytes, 4, answers, 3);
    CHECK(splicelog_batch_stop(bytes, 4, answer) == SPLICELOG_STOP_NO_ROOM && splicelog_batch_done(answer) == 0);
    answer = splicelog_batch(store, STORE, work, WORK - 1, bytes, 4, answers, sizeof answers);
    CHECK(splicelog_batch_stop(bytes, 4, answer) == SPLICELOG_STOP_REFUSED && splicelog_batch_done(answer) == 0);
}

/* The readers of calls and answers stay inside any bytes. From malloc, so that a sanitizer sees a read outside. */
static void test_any_bytes(void) {
    for (int i = 0; i < 2000; i++) {
        const size_t length = next_random() % 24;
        uint8_t *const bytes = SPLICELOG_CAST(uint8_t *, malloc(length + (length == 0)));
        struct splicelog_answer one;
        size_t place = 0;
        for (size_t j = 0; j < length; j++)
            bytes[j] = SPLICELOG_CAST(uint8_t, next_random() % 3 == 0 ? 0x20 + next_random() % 5 : next_random() % 6);
        CHECK(splicelog_skip(bytes, length, next_random() % 5) <= length);
        CHECK(splicelog_batch_stop(bytes, length, 0) != SPLICELOG_STOP_REFUSED);
        while (splicelog_read_answer(bytes, length, &place, &one))
            CHECK(place <= length && one.length <= length);
        place = length + next_random() % 3;
        CHECK(!splicelog_read_answer(bytes, length, &place, &one));
        free(bytes);
    }
}

int main(void) {
    CHECK(splicelog_make(store, STORE) == SPLICELOG_OK);
    test_texts();
    test_empty_path();
    test_paths();
    test_forms();
    test_add();
    test_parts();
    test_many();
    test_stops();
    test_any_bytes();
    printf("helpers: %u checks\n", checks);
    return 0;
}
