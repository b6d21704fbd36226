/* SPDX-License-Identifier: MIT
 *
 * The empty path, through include/splicelog.h: `empty_path IMAGE`. Clear wipes a store by it, and IMAGE too (which the second program wrote);
 * next and the listing go through the whole store by it; put, drop, get and move refuse it; in a batch it is as by itself. Relies on arrays.h.
 */
#include "arrays.h"

/* In the order of next: a 00 comes before every other byte. The sixth has 64 bytes. */
static const char *const records[] = {
    "!", "a", "a/b", "a/b/c/d/e/f/g/h", "a!", "aaaaaaaaaaaaaaaa/aaaaaaaaaaaaaaaa/aaaaaaaaaaaaaaaa/aaaaaaaaaaaa",
    "r1", "r1/c7/t1", "r1/c7/t2", "r10", "r2/c1", "~"};
enum { RECORDS = sizeof records / sizeof *records };

static bytes new_work(void) { return filled(NODES * 128 + 3, LATER); }

/* The records, put in another order than theirs. */
static void put_records(bytes store, bytes work) {
    for (size_t i = 0; i < RECORDS; i++)
        CHECK(put(store, work, path(records[i * 7 % RECORDS]), filled(i % 3, 1)) == 0);
}

/* A store with the records, laid out in one of three ways: with changes waiting, settled, and cut by a move. */
static bytes new_store(bytes work, int layout) {
    bytes store = filled(NODES * NODE, LATER);
    CHECK(splicelog_make(store.at, store.len) == 0);
    put_records(store, work);
    if (layout > 0)
        CHECK(splicelog_settle(store.at, store.len, work.at, work.len) == 0);
    if (layout > 1) {
        move(store, work, path("r1/c7"), path("r0"), 0);
        move(store, work, path("r0"), path("r1/c7"), 0);
    }
    return store;
}

/* The listing and next by the empty path give all records and then 8. */
static void check_records(bytes store) {
    struct splicelog_place *place = start();
    for (size_t i = 0; i < RECORDS; i++) {
        bytes after = i ? path(records[i - 1]) : nothing();
        ask(store, nothing(), &after, PATH_MOST, 0, path(records[i]));
        step(store, NULL, place, 0, records[i]);
    }
    refuse_next(store, nothing(), path(records[RECORDS - 1]), PATH_MOST, 8);
    step(store, NULL, place, 8, "");
    judge(store, 0, RECORDS);
    free(place);
}

/* No record is found by get, by next with any second path, or by the listing from any place; questions 3 and 5 come before that. */
static void check_wiped(bytes store) {
    struct splicelog_place *place = start();
    judge(store, 0, 0);
    step(store, NULL, place, 8, "");
    for (size_t i = 0; i < RECORDS; i++) {
        bytes of = path(records[i]);
        memcpy(place->bytes, of.at, of.len);
        place->length = of.len;
        step(store, NULL, place, 8, "");
        step(store, records[i], place, 8, "");
        refuse_next(store, nothing(), of, PATH_MOST, 8);
        refuse_next(store, path(records[i]), nothing(), PATH_MOST, 8);
        refuse_get(store, path(records[i]), VALUE_MOST, 8);
    }
    refuse_next(store, nothing(), nothing(), PATH_MOST, 8);
    refuse_next(store, filled(0, 0), filled(0, 0), PATH_MOST + 1, 8);
    refuse_next(store, nothing(), nothing(), PATH_MOST - 1, 5);
    refuse_next(store, nothing(), copy("a", 1), PATH_MOST - 1, 3);
    free(place);
}

/* Clears by the empty path, whose pointer is NULL or not. */
static void wipe(bytes store, bytes work, bytes none) {
    const size_t nodes = store.len / NODE;
    memset(work.at, 7, nodes * 128);
    CHECK(splicelog_clear(store.at, store.len, work.at, work.len, none.at, none.len) == 0 && cleared_for(work, nodes));
    free(none.at);
}

/* A wiped store is an empty one, wherever its records stood, and takes them again. */
static void test_wipe(void) {
    bytes work = new_work();
    for (int layout = 0; layout < 3; layout++) {
        bytes store = new_store(work, layout);
        check_records(store);
        wipe(store, work, layout % 2 ? nothing() : filled(0, 0));
        check_wiped(store);
        wipe(store, work, nothing());
        check_wiped(store);
        put_records(store, work);
        check_records(store);
        wipe(store, work, nothing());
        CHECK(splicelog_tidy(store.at, store.len, work.at, work.len) == 0);
        check_wiped(store);
        free(store.at);
    }
    free(work.at);
}

/* A store just made has nothing to list or wipe; a full one is empty after it, and takes as many again. */
static void test_bounds(void) {
    bytes store = filled(NODES * NODE, 1), work = new_work();
    CHECK(splicelog_make(store.at, store.len) == 0);
    check_wiped(store);
    wipe(store, work, nothing());
    check_wiped(store);
    for (int round = 0; round < 3; round++) {
        for (int i = 0; i < NODES; i++) {
            char text[16];
            snprintf(text, sizeof text, "p%d/%d", round, i);
            CHECK(put(store, work, path(text), filled(VALUE_MOST, 1)) == 0);
        }
        CHECK(put(store, work, path("one-more"), nothing()) == 10);
        judge(store, 0, NODES);
        wipe(store, work, nothing());
        check_wiped(store);
    }
    free(store.at), free(work.at);
}

/* The calls that refuse it, and clear and next where something else is wrong; no byte changes. Question 3 comes before 4, 5, 7 and 8. */
static void test_refusals(void) {
    bytes work = new_work(), store = new_store(work, 0), before = copy(store.at, store.len);
    memset(work.at, 7, work.len);
    bytes lent = copy(work.at, work.len);
    for (int i = 0; i < 2; i++) {
        bytes none = i ? nothing() : filled(0, 0);
        CHECK(put(store, work, i ? nothing() : filled(0, 0), filled(VALUE_MOST + 1, 1)) == 3);
        CHECK(splicelog_drop(store.at, store.len, work.at, work.len, none.at, none.len) == 3);
        CHECK(splicelog_clear(store.at, store.len, work.at, NODES * 128 - 1, none.at, none.len) == 1);
        CHECK(splicelog_clear(store.at, store.len - 1, work.at, work.len, none.at, none.len) == 1);
        refuse_get(store, none, 0, 3);
    }
    move(store, work, nothing(), path("b"), 3);
    move(store, work, path("r1"), nothing(), 3);
    move(store, work, nothing(), nothing(), 3);
    refuse_next(store, nothing(), nothing(), PATH_MOST - 1, 5);
    refuse_next(store, nothing(), copy("\0", 1), 0, 3);
    store.at[2] ^= 1, before.at[2] ^= 1;
    CHECK(splicelog_clear(store.at, store.len, work.at, work.len, NULL, 0) == 2);
    refuse_next(store, nothing(), nothing(), 0, 2);
    CHECK(equal(store, before) && equal(work, lent));
    free(store.at), free(before.at), free(work.at), free(lent.at);
}

/* One call of a batch and what it answers; where a path is found, which. */
struct asked {
    enum splicelog_kind kind;
    const char *first, *second; /* NULL: of length 0 */
    uint32_t number;
    const char *found;
};

/* In a batch the empty path is taken and refused as by itself. */
static void test_batch(void) {
    static const struct asked all[] = {
        {SPLICELOG_NEXT, NULL, NULL, 8, NULL},  {SPLICELOG_PUT, "r1", NULL, 0, NULL},    {SPLICELOG_PUT, "a", NULL, 0, NULL},
        {SPLICELOG_NEXT, NULL, NULL, 0, "a"},   {SPLICELOG_NEXT, NULL, "a", 0, "r1"},    {SPLICELOG_NEXT, NULL, "r1", 8, NULL},
        {SPLICELOG_PUT, NULL, NULL, 3, NULL},   {SPLICELOG_DROP, NULL, NULL, 3, NULL},   {SPLICELOG_GET, NULL, NULL, 3, NULL},
        {SPLICELOG_MOVE, NULL, "b", 3, NULL},   {SPLICELOG_MOVE, "a", NULL, 3, NULL},    {SPLICELOG_CLEAR, NULL, NULL, 0, NULL},
        {SPLICELOG_NEXT, NULL, NULL, 8, NULL},  {SPLICELOG_NEXT, NULL, "a", 8, NULL},    {SPLICELOG_GET, "a", NULL, 8, NULL},
        {SPLICELOG_PUT, "b", NULL, 0, NULL},    {SPLICELOG_NEXT, NULL, NULL, 0, "b"}};
    enum { CALLS = sizeof all / sizeof *all };
    bytes store = filled(NODES * NODE, 1), work = new_work(), room = filled(500, 0), answers = filled(68 * CALLS, LATER);
    struct splicelog_calls calls = splicelog_begin_calls(room.at, room.len);
    struct splicelog_answer answer;
    size_t place = 0;
    for (size_t i = 0; i < CALLS; i++) {
        bytes first = all[i].first ? path(all[i].first) : nothing(), second = all[i].second ? path(all[i].second) : nothing();
        CHECK(splicelog_add(&calls, all[i].kind, first.at, first.len, second.at, second.len));
        free(first.at), free(second.at);
    }
    CHECK(splicelog_make(store.at, store.len) == 0);
    const uint64_t done = splicelog_batch(store.at, store.len, work.at, work.len, room.at, calls.length, answers.at, answers.len);
    CHECK(splicelog_batch_number(done) == 0 && splicelog_batch_done(done) == CALLS && cleared(work));
    for (size_t i = 0; i < CALLS; i++) {
        bytes found = all[i].found ? path(all[i].found) : nothing();
        CHECK(splicelog_read_answer(answers.at, splicelog_batch_written(done), &place, &answer) && answer.number == all[i].number);
        CHECK(answer.length == found.len && (found.len == 0 || memcmp(answer.bytes, found.at, found.len) == 0));
        free(found.at);
    }
    judge(store, 0, 1);
    free(store.at), free(work.at), free(room.at), free(answers.at);
}

/* An image that another program wrote, with whatever waits in it. */
static void test_image(const char *name) {
    bytes store = file(name), work = filled(store.len / NODE * 128, LATER);
    wipe(store, work, nothing());
    check_wiped(store);
    put_records(store, work);
    check_records(store);
    free(store.at), free(work.at);
}

int main(int count, char **words) {
    if (count != 2) {
        fprintf(stderr, "usage: empty_path IMAGE\n");
        return 2;
    }
    test_wipe();
    test_bounds();
    test_refusals();
    test_batch();
    test_image(words[1]);
    printf("%s: %u checks of the empty path passed\n", words[1], checks);
    return 0;
}
