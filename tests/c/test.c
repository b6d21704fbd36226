/* SPDX-License-Identifier: MIT
 *
 * Calls the store as firmware does, through include/splicelog.h: `test IMAGE TABLE`. It makes stores, causes each refusal that a caller can
 * cause, writes to a store, moves, heals and reads it back, makes a list of calls as one, and reads IMAGE, whose paths and values TABLE
 * lists (both written by the second program), by get, by next and by the listing. Relies on arrays.h.
 */
#include "arrays.h"

static void test_make(void) {
    static const size_t wrong[] = {0, 1, NODE, (NODES - 1) * NODE, NODES * NODE - 1, NODES * NODE + 1, 1025 * NODE};
    for (size_t i = 0; i < sizeof wrong / sizeof *wrong; i++) {
        bytes store = filled(wrong[i], LATER), before = filled(wrong[i], LATER);
        CHECK(splicelog_make(store.at, store.len) == 1);
        CHECK(equal(store, before));
        judge(store, 1, 0);
        refuse_get(store, path("a"), VALUE_MOST, 1);
        refuse_next(store, path("a"), filled(0, 0), PATH_MOST, 1);
        free(store.at), free(before.at);
    }
    for (size_t n = NODES; n <= 1024; n *= 2) {
        bytes store = filled(n * NODE, LATER);
        refuse_get(store, path("a"), VALUE_MOST, 2);
        judge(store, 2, 0);
        CHECK(splicelog_make(store.at, store.len) == 0);
        judge(store, 0, 0);
        refuse_get(store, path("a"), VALUE_MOST, 8);
        refuse_next(store, path("a"), filled(0, 0), PATH_MOST, 8);
        free(store.at);
    }
}

/* Each rule of a path, and the order of the questions: an unsound store is told before a malformed path, that before a short buffer. */
static void test_refusals(void) {
    static const char *const malformed[] = {
        "", "/", "a/", "/a", "a//b", "a b", "a\x7F", "a\x80", "\xFF", "aaaaaaaaaaaaaaaaa", "1/2/3/4/5/6/7/8/9",
        "aaaaaaaaaaaaaaaa/aaaaaaaaaaaaaaaa/aaaaaaaaaaaaaaaa/aaaaaaaaaaaaa"};
    bytes store = filled(NODES * NODE, 0);
    CHECK(splicelog_make(store.at, store.len) == 0);
    for (size_t i = 0; i < sizeof malformed / sizeof *malformed; i++) {
        refuse_get(store, path(malformed[i]), 0, 3);
        refuse_next(store, path(malformed[i]), filled(0, 0), 0, 3);
        refuse_next(store, path("a"), path(malformed[i]), 0, 3);
    }
    refuse_get(store, filled(0, 0), VALUE_MOST, 3);
    refuse_get(store, copy("a", 1), VALUE_MOST, 3);
    refuse_get(store, path("a"), VALUE_MOST - 1, 5);
    refuse_next(store, path("a"), filled(0, 0), PATH_MOST - 1, 5);
    refuse_get(store, path("1/2/3/4/5/6/7/8"), VALUE_MOST, 8);
    refuse_next(store, path("aaaaaaaaaaaaaaaa/b"), path("a"), PATH_MOST + 1, 8);
    store.at[2] ^= 1;
    refuse_get(store, path(""), 0, 2);
    refuse_next(store, path(""), path(""), 0, 2);
    free(store.at);
}

/* A value of the table: two digits for each byte, or "-" for none. */
static bytes value(const char *digits) {
    bytes made = filled(*digits == '-' ? 0 : strlen(digits) / 2, 0);
    for (size_t i = 0; i < made.len; i++) {
        unsigned byte;
        CHECK(sscanf(digits + 2 * i, "%2x", &byte) == 1);
        made.at[i] = (uint8_t)byte;
    }
    return made;
}

/* The path of its first component alone. */
static bytes first(const char *text) {
    bytes made = path(text);
    made.len = strlen((const char *)made.at) + 1;
    return made;
}

/* Gets every path of the table, and lists the paths below each first component and those of the whole store by next and by the listing: the
 * table is in the order of next. */
static void test_image(const char *image, const char *table) {
    bytes store = file(image);
    char line[16], text[PATH_MOST + 1], digits[2 * VALUE_MOST + 1], last[PATH_MOST + 1] = "", top[PATH_MOST + 1] = "";
    struct splicelog_place *place = start(), *whole = start();
    size_t live = 0;
    FILE *rows = fopen(table, "r");
    CHECK(rows != NULL);
    snprintf(line, sizeof line, "%%%ds %%%ds", PATH_MOST, 2 * VALUE_MOST);
    while (fscanf(rows, line, text, digits) == 2) {
        bytes of = first(text), of_last = first(last);
        int goes_on = *last && equal(of, of_last);
        if (*last && !goes_on) {
            refuse_next(store, first(last), path(last), PATH_MOST, 8);
            step(store, top, place, 8, "");
        }
        if (!goes_on) {
            strcpy(top, (const char *)of.at);
            place->length = 0;
        }
        step(store, top, place, 0, text);
        step(store, NULL, whole, 0, text);
        bytes after = goes_on ? path(last) : filled(0, 0), after_any = *last ? path(last) : nothing();
        ask(store, of, &after, PATH_MOST, 0, path(text));
        ask(store, nothing(), &after_any, PATH_MOST, 0, path(text));
        ask(store, path(text), NULL, VALUE_MOST, 0, value(digits));
        free(of_last.at);
        strcpy(last, text);
        live++;
    }
    judge(store, 0, live);
    if (*last) {
        refuse_next(store, first(last), path(last), PATH_MOST, 8);
        step(store, top, place, 8, "");
    }
    step(store, NULL, whole, 8, "");
    fclose(rows);
    free(place), free(whole), free(store.at);
}

/* No number of a node that is no interior node is taken, nor one of which only some of the bits are such a node's. */
static void refuse_node(bytes store, bytes work, size_t interior) {
    const splicelog_size numbers[] = {0, NODES, UINT16_MAX, interior + 0x10000, UINT32_MAX, interior + ((splicelog_size)1 << 32),
                                      UINT64_MAX, UINT64_MAX - 31, UINT64_MAX / 2 + 1 + interior};
    bytes before = copy(store.at, store.len), lent = copy(work.at, work.len);
    for (size_t i = 0; i < sizeof numbers / sizeof *numbers; i++) {
        CHECK(splicelog_flush(store.at, store.len, work.at, work.len, numbers[i]) == 6);
        CHECK(splicelog_heal(store.at, store.len, work.at, work.len, numbers[i]) == 6);
    }
    CHECK(splicelog_flush(store.at, store.len, work.at, NODES * 128 - 1, SIZE_MAX) == 1);
    CHECK(splicelog_heal(store.at, store.len, work.at, NODES * 128 - 1, interior) == 1);
    CHECK(equal(store, before) && equal(work, lent));
    free(before.at), free(lent.at);
}

/* Writes, reads back, and causes the refusals that only a writer can cause. */
static void test_writes(void) {
    bytes store = filled(NODES * NODE, 1), work = filled(NODES * 128 + 3, LATER), of = path("r1/c7"), other = filled(NODES * NODE, 2);
    CHECK(splicelog_make(store.at, store.len) == 0 && splicelog_make(other.at, other.len) == 0);
    CHECK(put(store, work, path("r1/c7/t1"), copy("a", 1)) == 0 && cleared(work));
    CHECK(put(store, work, path("r1/c7/t2"), filled(0, 0)) == 0 && put(store, work, path("r10"), copy("b", 1)) == 0);
    CHECK(put(store, work, path("r1//t2"), copy("a", 1)) == 3 && put(store, work, path("r1"), filled(VALUE_MOST + 1, 0)) == 4);
    ask(store, path("r1/c7/t1"), NULL, VALUE_MOST, 0, copy("a", 1));
    uint64_t same = splicelog_same(store.at, store.len, store.at, store.len);
    CHECK(splicelog_number(same) == 0 && splicelog_beside(same) == 1);
    same = splicelog_same(store.at, store.len, other.at, other.len);
    CHECK(splicelog_number(same) == 0 && splicelog_beside(same) == 0);
    size_t root = splicelog_root(store.at, store.len);
    CHECK(splicelog_flush(store.at, store.len, work.at, work.len, root) == 0 && cleared(work));
    refuse_node(store, work, root);
    CHECK(splicelog_settle(store.at, store.len, work.at, work.len) == 0 && cleared(work));
    CHECK(splicelog_tidy(store.at, store.len, work.at, work.len) == 0 && cleared(work));
    CHECK(splicelog_tidy(store.at, store.len, work.at, NODES * 128 - 1) == 1);
    CHECK(splicelog_clear(store.at, store.len, work.at, work.len, of.at, of.len) == 0);
    refuse_get(store, path("r1/c7/t1"), VALUE_MOST, 8);
    ask(store, path("r10"), NULL, VALUE_MOST, 0, copy("b", 1));
    free(of.at);
    of = path("r10");
    CHECK(splicelog_drop(store.at, store.len, work.at, work.len, of.at, of.len) == 0);
    refuse_get(store, path("r10"), VALUE_MOST, 8);
    same = splicelog_same(store.at, store.len, other.at, other.len);
    CHECK(splicelog_number(same) == 0 && splicelog_beside(same) == 1);
    for (int i = 0; i < NODES; i++) {
        char text[8];
        snprintf(text, sizeof text, "p%d", i);
        CHECK(put(store, work, path(text), copy("x", 1)) == 0);
    }
    CHECK(put(store, work, path("one-more"), copy("x", 1)) == 10 && put(store, work, path("p3"), copy("y", 1)) == 0);
    judge(store, 0, NODES);
    free(store.at);
    free(work.at);
    free(other.at);
    free(of.at);
}

/* The paper's cases of a move, and each of its refusals. */
static void test_move(void) {
    static const char longest[] = "a/bbbbbbbbbbbbbbbb/bbbbbbbbbbbbbbbb/bbbbbbbbbbbbbbbb/bbbbbbbbbb", deepest[] = "q/2/3/4/5/6/7/8";
    bytes store = filled(NODES * NODE, 1), work = filled(NODES * 128 + 3, LATER);
    CHECK(splicelog_make(store.at, store.len) == 0);
    CHECK(put(store, work, path("r1/a"), copy("1", 1)) == 0 && put(store, work, path("r1/b/c"), filled(0, 0)) == 0);
    CHECK(put(store, work, path("r2/x"), copy("2", 1)) == 0 && put(store, work, path("r10"), copy("3", 1)) == 0);
    memset(work.at, 7, NODES * 128);
    move(store, work, path("r1"), path("r1"), 0);
    move(store, work, path("r1"), path("r2"), 0);
    ask(store, path("r2/a"), NULL, VALUE_MOST, 0, copy("1", 1));
    ask(store, path("r2/b/c"), NULL, VALUE_MOST, 0, filled(0, 0));
    ask(store, path("r10"), NULL, VALUE_MOST, 0, copy("3", 1));
    refuse_get(store, path("r2/x"), VALUE_MOST, 8);
    refuse_get(store, path("r1/a"), VALUE_MOST, 8);
    memset(work.at, 7, NODES * 128);
    move(store, work, path("r1"), path("r2"), 8);
    move(store, work, path("r1"), path("r1"), 8);
    move(store, work, path("r2"), path("r2/b"), 7);
    move(store, work, path("r2/b"), path("r2"), 7);
    move(store, work, path("r2/"), path("r3"), 3);
    move(store, work, path("r2"), filled(0, 0), 3);
    CHECK(put(store, work, path(longest), copy("4", 1)) == 0 && put(store, work, path(deepest), copy("5", 1)) == 0);
    move(store, work, path("a"), path("bb"), 9);
    move(store, work, path("q/2"), path("q/9/9"), 9);
    move(store, work, path("a"), path("e"), 0);
    move(store, work, path("q/2"), path("f/9"), 0);
    ask(store, path("f/9/3/4/5/6/7/8"), NULL, VALUE_MOST, 0, copy("5", 1));
    bytes from = path("r2"), to = path("r3");
    CHECK(splicelog_move(store.at, store.len, work.at, NODES * 128 - 1, from.at, from.len, to.at, to.len) == 1);
    CHECK(splicelog_move(store.at, store.len - 1, work.at, work.len, from.at, from.len, to.at, to.len) == 1);
    store.at[2] ^= 1;
    CHECK(splicelog_move(store.at, store.len, work.at, work.len, from.at, from.len, to.at, to.len) == 2);
    free(store.at), free(work.at), free(from.at), free(to.at);
}

/* A heal of the root, where there is one that is no leaf, keeps the map; the refusals of its number stand with flush's. */
static void test_heal(void) {
    bytes store = filled(NODES * NODE, 1), other = filled(NODES * NODE, 1), work = filled(NODES * 128 + 3, LATER);
    CHECK(splicelog_make(store.at, store.len) == 0);
    for (int i = 0; i < NODES; i++) {
        char text[32];
        snprintf(text, sizeof text, "cable-%d/tray-%d/f%d", i % 4, i % 3, i);
        CHECK(put(store, work, path(text), filled(VALUE_MOST, (uint8_t)i)) == 0);
    }
    memcpy(other.at, store.at, store.len);
    memset(work.at, 7, NODES * 128);
    size_t root = splicelog_root(store.at, store.len);
    CHECK(splicelog_heal(store.at, store.len, work.at, work.len, root) == 0 && cleared(work));
    CHECK(splicelog_beside(splicelog_same(store.at, store.len, other.at, other.len)) == 1);
    refuse_node(store, work, root);
    ask(store, path("cable-1/tray-2/f5"), NULL, VALUE_MOST, 0, filled(VALUE_MOST, 5));
    store.at[2] ^= 1;
    CHECK(splicelog_heal(store.at, store.len, work.at, work.len, root) == 2);
    free(store.at), free(other.at), free(work.at);
}

/* The listing: its paths, its end, and refusals that leave the place. */
static void test_listing(void) {
    bytes store = filled(NODES * NODE, 1), work = filled(NODES * 128, LATER);
    struct splicelog_place *place = start();
    CHECK(splicelog_make(store.at, store.len) == 0);
    step(store, "r1", place, 8, "");
    CHECK(put(store, work, path("r1/b"), copy("1", 1)) == 0 && put(store, work, path("r1"), copy("2", 1)) == 0);
    CHECK(put(store, work, path("r1/a"), copy("3", 1)) == 0 && put(store, work, path("r10"), copy("4", 1)) == 0);
    step(store, "r1", place, 0, "r1");
    step(store, "r1//", place, 3, "");
    step(store, "r1", place, 0, "r1/a");
    bytes of = path("r1");
    CHECK(splicelog_step(store.at, store.len - 1, of.at, of.len, place) == 1);
    step(store, "r1", place, 0, "r1/b");
    step(store, "r1", place, 8, "");
    step(store, "r1", place, 8, "");
    step(store, "r10", place, 0, "r10");
    place->length = 65;
    step(store, "r1", place, 3, "");
    place->length = SIZE_MAX;
    step(store, "r1", place, 3, "");
    place->length = 1;
    step(store, "r1", place, 3, "");
    place->length = 0;
    store.at[2] ^= 1;
    step(store, "r1", place, 2, "");
    place->length = SIZE_MAX;
    step(store, "r1", place, 2, "");
    free(place), free(of.at), free(store.at), free(work.at);
}

/* A pointer may be NULL where its length is 0: an empty value, the empty path, and every length that is too short. */
static void test_null(void) {
    bytes store = filled(NODES * NODE, 1), work = filled(NODES * 128, LATER), of = path("r1"), buffer = filled(PATH_MOST, LATER);
    CHECK(splicelog_make(NULL, 0) == 1 && splicelog_check(NULL, 0) == 1 && splicelog_make(store.at, store.len) == 0);
    CHECK(splicelog_put(store.at, store.len, work.at, work.len, of.at, of.len, NULL, 0) == 0);
    CHECK(splicelog_get(store.at, store.len, of.at, of.len, buffer.at, buffer.len) == 0 && buffer.at[0] == LATER);
    uint64_t found = splicelog_next(store.at, store.len, of.at, of.len, NULL, 0, buffer.at, buffer.len);
    CHECK(splicelog_number(found) == 0 && splicelog_beside(found) == of.len && memcmp(buffer.at, of.at, of.len) == 0);
    CHECK(splicelog_get(NULL, 0, of.at, of.len, buffer.at, buffer.len) == 1);
    CHECK(splicelog_get(store.at, store.len, NULL, 0, buffer.at, buffer.len) == 3);
    CHECK(splicelog_get(store.at, store.len, of.at, of.len, NULL, 0) == 5);
    CHECK(splicelog_next(store.at, store.len, of.at, of.len, NULL, 0, NULL, 0) == 5);
    CHECK(splicelog_same(NULL, 0, NULL, 0) == 1 && splicelog_same(store.at, store.len, NULL, 0) == 1);
    CHECK(splicelog_put(store.at, store.len, NULL, 0, of.at, of.len, NULL, 0) == 1);
    CHECK(splicelog_put(store.at, store.len, work.at, work.len, NULL, 0, NULL, 0) == 3);
    CHECK(splicelog_drop(store.at, store.len, work.at, work.len, NULL, 0) == 3);
    CHECK(splicelog_clear(store.at, store.len, work.at, work.len, NULL, 0) == 0);
    CHECK(splicelog_next(store.at, store.len, NULL, 0, NULL, 0, buffer.at, buffer.len) == 8);
    CHECK(splicelog_move(store.at, store.len, work.at, work.len, NULL, 0, NULL, 0) == 3);
    CHECK(splicelog_settle(NULL, 0, NULL, 0) == 1 && splicelog_tidy(store.at, store.len, NULL, 0) == 1);
    CHECK(splicelog_flush(NULL, 0, NULL, 0, 1) == 1 && splicelog_heal(store.at, store.len, NULL, 0, 1) == 1);
    free(store.at), free(work.at), free(of.at), free(buffer.at);
}

/* A list of calls as one: its answers are read back in order, the store is as the calls leave it, and the work area is zero. */
static void test_batch(void) {
    bytes store = filled(NODES * NODE, 1), work = filled(NODES * 128 + 3, LATER), room = filled(400, 0), answers = filled(300, LATER);
    bytes tray = path("r1/c7/t1"), from = path("r1/c7"), to = path("r1/c9"), there = path("r1/c9/t1"), top = path("r1");
    struct splicelog_calls calls = splicelog_begin_calls(room.at, room.len);
    struct splicelog_answer answer;
    size_t place = 0;
    CHECK(splicelog_make(store.at, store.len) == 0);
    CHECK(splicelog_add(&calls, SPLICELOG_PUT, tray.at, tray.len, (const uint8_t *)"\x0a", 1));
    CHECK(splicelog_add(&calls, SPLICELOG_MOVE, from.at, from.len, to.at, to.len));
    CHECK(splicelog_add(&calls, SPLICELOG_GET, tray.at, tray.len, 0, 0));
    CHECK(splicelog_add(&calls, SPLICELOG_GET, there.at, there.len, 0, 0));
    CHECK(splicelog_add(&calls, SPLICELOG_NEXT, top.at, top.len, 0, 0));
    CHECK(splicelog_add_node(&calls, SPLICELOG_FLUSH, 31));
    CHECK(!splicelog_add_node(&calls, SPLICELOG_FLUSH, 65536 + 1));
    CHECK(splicelog_add(&calls, SPLICELOG_SETTLE, 0, 0, 0, 0));
    CHECK(splicelog_add(&calls, SPLICELOG_DROP, there.at, there.len, 0, 0));
    CHECK(splicelog_add(&calls, SPLICELOG_GET, there.at, there.len, 0, 0));
    bytes exactly = copy(room.at, calls.length);
    uint64_t done = splicelog_batch(store.at, store.len, work.at, work.len, exactly.at, exactly.len, answers.at, answers.len);
    CHECK(splicelog_batch_number(done) == 0 && splicelog_batch_done(done) == 9 && calls.count == 9);
    CHECK(splicelog_batch_stop(exactly.at, exactly.len, done) == SPLICELOG_STOP_END);
    static const uint32_t numbers[9] = {0, 0, 8, 0, 0, 6, 0, 0, 8};
    for (size_t i = 0; i < 9; i++) {
        CHECK(splicelog_read_answer(answers.at, splicelog_batch_written(done), &place, &answer));
        CHECK(answer.number == numbers[i]);
        CHECK(answer.length == (i == 3 ? 1 : i == 4 ? there.len : 0));
        CHECK(i != 3 || answer.bytes[0] == 0x0a);
        CHECK(i != 4 || memcmp(answer.bytes, there.at, there.len) == 0);
    }
    CHECK(!splicelog_read_answer(answers.at, splicelog_batch_written(done), &place, &answer));
    for (size_t i = place; i < answers.len; i++)
        CHECK(answers.at[i] == LATER);
    for (size_t i = 0; i < work.len; i++)
        CHECK(work.at[i] == (i < NODES * 128 ? 0 : LATER));
    /* A byte short of room for the first get's longest answer, the batch stops in front of it; else behind it. */
    for (size_t i = 0; i < 2; i++) {
        done = splicelog_batch(store.at, store.len, work.at, work.len, exactly.at, exactly.len, answers.at, 8 + 4 + VALUE_MOST - 1 + i);
        CHECK(splicelog_batch_number(done) == 0 && splicelog_batch_done(done) == 2 + i);
        CHECK(splicelog_batch_stop(exactly.at, exactly.len, done) == SPLICELOG_STOP_NO_ROOM);
    }
    /* A work area that is too short, and a store that is not sound. */
    done = splicelog_batch(store.at, store.len, work.at, NODES * 128 - 1, exactly.at, exactly.len, answers.at, answers.len);
    CHECK(splicelog_batch_number(done) == 1 && splicelog_batch_done(done) == 0 && splicelog_batch_written(done) == 0);
    store.at[0] ^= 1;
    done = splicelog_batch(store.at, store.len, work.at, work.len, exactly.at, exactly.len, answers.at, answers.len);
    CHECK(splicelog_batch_number(done) == 2);
    free(store.at), free(work.at), free(room.at), free(answers.at), free(exactly.at);
    free(tray.at), free(from.at), free(to.at), free(there.at), free(top.at);
}

int main(int count, char **words) {
    if (count != 3) {
        fprintf(stderr, "usage: test IMAGE TABLE\n");
        return 2;
    }
    test_make();
    test_refusals();
    test_writes();
    test_move();
    test_heal();
    test_listing();
    test_null();
    test_batch();
    test_image(words[1], words[2]);
    printf("%s: %u checks passed\n", words[1], checks);
    return 0;
}
