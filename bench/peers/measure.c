/* Times calls: peers in turns within one run, so that what else the machine does meets all of them alike, and the least of many rounds,
 * since other work only adds. Relies on clock_gettime; its own cost, about 0.03 us, is in every figure.
 */
#include "peers.h"

#include <string.h>
#include <time.h>

size_t rounds = 50;

double now_us(void) {
    struct timespec t;
    clock_gettime(CLOCK_MONOTONIC, &t);
    return (double)t.tv_sec * 1e6 + (double)t.tv_nsec * 1e-3;
}

enum { PEERS_MOST = 8 };

/* The least time of each call by each peer, and the answers of the last call. */
static double best[IN_A_ROW][PEERS_MOST];
static struct answer answers[PEERS_MOST];

/* One measured call, from the pristine bytes unless it follows another. */
static double once(const struct peer *peer, const struct series *series, size_t index, struct answer *answer) {
    answer->given.len = 0;
    if (index == 0 || !series->in_a_row)
        peer->reset(series->call);
    const double begun = now_us();
    const bool done = peer->run(series->call, &series->all[index], answer);
    const double took = now_us() - begun;
    if (!done)
        fail("%s: %s failed", peer->name, call_names[series->call]);
    return took;
}

/* A peer's turn. Its first call is made once more before, unmeasured: else the caches would be full of what the peer before it left, and
 * of what resetting that one took. */
static void turn(const struct peer *peer, size_t p, const struct series *series, bool first) {
    if (!peer->has[series->call])
        return;
    once(peer, series, 0, &answers[p]);
    for (size_t i = 0; i < series->count; i++) {
        const double took = once(peer, series, i, &answers[p]);
        if (first || took < best[i][p])
            best[i][p] = took;
    }
}

/* After its last call each peer that has the call has given the same answer and holds the same records as the first; else the times would
 * compare nothing. */
static void agree(const struct peer *const *peers, size_t count, enum call call) {
    const struct bytes *first = &answers[0].given;
    const uint64_t digest = count > 1 ? peers[0]->digest() : 0;
    for (size_t p = 1; p < count; p++) {
        if (!peers[p]->has[call])
            continue;
        const struct bytes *given = &answers[p].given;
        if (given->len != first->len || memcmp(given->at, first->at, first->len) != 0)
            fail("%s: %s gives another answer than %s", peers[p]->name, call_names[call], peers[0]->name);
        if (peers[p]->digest() != digest)
            fail("%s: %s leaves other records than %s", peers[p]->name, call_names[call], peers[0]->name);
    }
}

/* The mean over the series of the least time of each call, for each peer; 0 for one that has no such call. The peers must be loaded. */
void in_turns(const struct peer *const *peers, size_t count, const struct series *series, double *us) {
    if (count > PEERS_MOST)
        fail("%zu peers are too many", count);
    for (size_t round = 0; round < rounds; round++)
        for (size_t p = 0; p < count; p++)
            turn(peers[p], p, series, round == 0);
    agree(peers, count, series->call);
    for (size_t p = 0; p < count; p++) {
        us[p] = 0;
        for (size_t i = 0; i < series->count && peers[p]->has[series->call]; i++)
            us[p] += best[i][p] / (double)series->count;
    }
}

/* One pass: the hash over the reachable nodes. */
double pass_us(const uint8_t *image) {
    static volatile uint64_t kept; /* else the compiler would leave the hash out */
    uint16_t nodes[NODES_MOST];
    const size_t count = image_reachable(image, nodes);
    double shortest = 0;
    for (size_t round = 0; round < rounds * SINGLE; round++) {
        const double begun = now_us();
        uint64_t hash = fnv_start();
        for (size_t i = 0; i < count; i++)
            hash = fnv(hash, image + (size_t)nodes[i] * NODE, NODE);
        kept ^= hash;
        const double took = now_us() - begun;
        if (round == 0 || took < shortest)
            shortest = took;
    }
    return shortest;
}
