/* This library as a peer: every call judges the image anew. Relies on target/staticlib/libsplicelog.a. The pristine image is made by the
 * library's own puts and tidy; for waiting messages, changes below a raised root (image.c), which the library judges at each of them.
 */
#include "peers.h"
#include "splicelog.h"

#include <string.h>

static uint8_t pristine[NODES_MOST * NODE], store[NODES_MOST * NODE], work[NODES_MOST * 128];
static size_t store_len, work_len;
static const struct content *loaded;

static uint32_t put(uint8_t *to, const struct record *record) {
    return splicelog_put(to, store_len, work, work_len, record->path.at, record->path.len, record->value.at, record->value.len);
}

/* A change by the call of its own. */
static uint32_t change_alone(uint8_t *to, const struct change *change) {
    const struct bytes *path = &change->arguments.path, *value = &change->arguments.value;
    switch (change->call) {
    case PUT:
        return splicelog_put(to, store_len, work, work_len, path->at, path->len, value->at, value->len);
    case DROP:
        return splicelog_drop(to, store_len, work, work_len, path->at, path->len);
    default:
        return splicelog_clear(to, store_len, work, work_len, path->at, path->len);
    }
}

/* A change with a refused one behind it, a drop of no path: only the last change of a batch leaves as little waiting as a call does. */
static uint32_t change_in_batch(uint8_t *to, const struct change *change) {
    static const enum splicelog_kind kinds[CALLS] = {[PUT] = SPLICELOG_PUT, [DROP] = SPLICELOG_DROP, [CLEAR] = SPLICELOG_CLEAR};
    const struct bytes *path = &change->arguments.path, *value = &change->arguments.value;
    uint8_t bytes[256], answers[8];
    struct splicelog_calls calls = {.bytes = bytes, .room = sizeof bytes};
    if (!splicelog_add(&calls, kinds[change->call], path->at, path->len, value->at, change->call == PUT ? value->len : 0) ||
        !splicelog_add(&calls, SPLICELOG_DROP, path->at, 0, NULL, 0))
        fail("a change does not fit a batch");
    const uint64_t done = splicelog_batch(to, store_len, work, work_len, bytes, calls.length, answers, sizeof answers);
    return splicelog_batch_done(done) == 2 ? (uint32_t)(answers[2] | answers[3] << 8) : 1;
}

/* One more change in the root of the store; false where there is no room for it, or it has sent the others down. */
static bool wait_one_more(const struct change *next, enum way way, size_t waiting) {
    if (way == BY_HAND)
        return image_change(store, next);
    if ((way == BY_CALLS ? change_alone(store, next) : change_in_batch(store, next)) != 0)
        fail("a change of a sound store was refused");
    return image_waiting(store) == waiting + 1;
}

/* Changes until so many wait in the root; where there is no room for one more, the image before it stays. */
static void wait_for(struct content *content, struct state state) {
    image_raise(pristine);
    while (content->waiting < state.wanted && content->waiting < WAITING_MOST) {
        const struct change next = content_later(content, content->waiting, state.mix);
        memcpy(store, pristine, store_len);
        if (!wait_one_more(&next, state.way, content->waiting))
            return;
        memcpy(pristine, store, store_len);
        content->later[content->waiting++] = next;
    }
}

void ours_build(struct content *content, struct state state) {
    store_len = content->nodes * NODE;
    work_len = content->nodes * 128;
    bool made = splicelog_make(pristine, store_len) == 0;
    for (size_t i = 0; i < content->nodes; i++)
        made &= put(pristine, &content->rows[i]) == 0;
    made &= splicelog_tidy(pristine, store_len, work, work_len) == 0;
    if (!made)
        fail("the library refused to make a store of %zu nodes", content->nodes);
    if (state.wanted > 0)
        wait_for(content, state);
}

const uint8_t *ours_pristine(void) { return pristine; }

/* ours_build has made the image, since it decides how many messages wait. */
static void load(const struct content *content) { loaded = content; }

static void reset(enum call call) {
    (void)call;
    memcpy(store, pristine, store_len);
}

static bool get(const struct arguments *a, struct answer *answer) {
    const uint64_t got = splicelog_get(store, store_len, a->path.at, a->path.len, answer->given.at, sizeof answer->given.at);
    answer->given.len = splicelog_beside(got);
    return splicelog_number(got) == 0;
}

static bool next(const struct arguments *a, struct answer *answer) {
    const uint64_t got = splicelog_next(store, store_len, a->path.at, a->path.len, a->other.at, a->other.len, answer->given.at,
                                        sizeof answer->given.at);
    answer->given.len = splicelog_beside(got);
    return splicelog_number(got) == 0;
}

static bool run(enum call call, const struct arguments *a, struct answer *answer) {
    switch (call) {
    case GET:
        return get(a, answer);
    case NEXT:
        return next(a, answer);
    case PUT:
        return splicelog_put(store, store_len, work, work_len, a->path.at, a->path.len, a->value.at, a->value.len) == 0;
    case DROP:
        return splicelog_drop(store, store_len, work, work_len, a->path.at, a->path.len) == 0;
    case CLEAR:
        return splicelog_clear(store, store_len, work, work_len, a->path.at, a->path.len) == 0;
    case MOVE:
        return splicelog_move(store, store_len, work, work_len, a->path.at, a->path.len, a->other.at, a->other.len) == 0;
    case SETTLE:
        return splicelog_settle(store, store_len, work, work_len) == 0;
    case TIDY:
        return splicelog_tidy(store, store_len, work, work_len) == 0;
    default:
        return false;
    }
}

/* The records of one route; routes are listed one by one because a listing is below a path. */
static uint64_t digest_route(uint64_t hash, const uint8_t *route, size_t route_len) {
    struct splicelog_place place = {{0}, 0};
    uint8_t value[VALUE_MOST];
    while (splicelog_step(store, store_len, route, route_len, &place) == 0) {
        const uint64_t got = splicelog_get(store, store_len, place.bytes, place.length, value, sizeof value);
        hash = fnv_record(hash, place.bytes, place.length, value, splicelog_beside(got));
    }
    return hash;
}

static uint64_t digest(void) {
    const uint8_t *route = NULL;
    size_t route_len = 0;
    uint64_t hash = fnv_start();
    for (size_t i = 0; i < loaded->nodes; i++) {
        const uint8_t *path = loaded->rows[i].path.at;
        if (route && memcmp(route, path, route_len) == 0)
            continue;
        route = path;
        route_len = strlen((const char *)route) + 1;
        hash = digest_route(hash, route, route_len);
    }
    return hash;
}

static const char *version(void) { return "this library"; }

const struct peer ours = {"ours", version, load, reset, run, digest, {true, true, true, true, true, true, true, true}};
