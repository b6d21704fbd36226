/* What the files of bench/peers share: the records and calls that every peer is given, and what a peer is. A peer is this library or
 * another store, used in one way; all of them are reset, run and compared alike. Relies on nothing but the C library.
 */
#ifndef PEERS_H
#define PEERS_H

#include <stdbool.h>
#include <stddef.h>
#include <stdint.h>

enum { NODE = 1024, NODES_MOST = 1024, PATH_MOST = 64, VALUE_MOST = 48, WAITING_MOST = 128 };

/* How many calls a figure is the mean of: single calls on the pristine bytes, and calls in a row. */
enum { SINGLE = 8, IN_A_ROW = 128 };

/* A path, the end of a range (a path and FF) or a value. */
struct bytes {
    uint8_t at[PATH_MOST + 1];
    size_t len;
};

struct record {
    struct bytes path, value;
};

enum call { GET, NEXT, PUT, DROP, CLEAR, MOVE, SETTLE, TIDY, CALLS };

/* What a call is given: a record's path or a closure; next's `after` or move's `to`; put's value; and the ends of both ranges, so that no
 * peer makes them in measured time. */
struct arguments {
    struct bytes path, path_end, other, other_end, value;
};

/* What waits in our root: changes of one kind, or of the three in turn. */
enum mix { PUTS, DROPS, CLEARS, IN_TURN, MIXES };

/* A put, drop or clear of a present path. */
struct change {
    enum call call;
    struct arguments arguments;
};

/* What the values are: of 17 bytes, or filled up by further losses to as many as a value may have. */
enum notes { USUAL, LONGEST };

/* A full store: as many records as nodes, rising, and the later changes, which wait in our root and which every peer has made too. */
struct content {
    size_t nodes;
    enum notes notes;
    struct record rows[NODES_MOST];
    size_t waiting;
    struct change later[WAITING_MOST];
};

/* Calls to measure: each on the pristine bytes, or in a row, each on what the one before has left. */
struct series {
    enum call call;
    bool in_a_row;
    size_t count;
    struct arguments all[IN_A_ROW];
};

/* What get or next gave, empty for the other calls: copied out by each peer, as our library does. */
struct answer {
    struct bytes given;
};

struct peer {
    const char *name;
    const char *(*version)(void);
    /* Makes the pristine copy. */
    void (*load)(const struct content *content);
    /* Before a call, not measured: the bytes are the pristine ones again and, where the peer trusts them, open and warm. */
    void (*reset)(enum call call);
    /* The measured call. False where it failed. */
    bool (*run)(enum call call, const struct arguments *arguments, struct answer *answer);
    /* A hash of all records after a call, not measured. */
    uint64_t (*digest)(void);
    bool has[CALLS];
};

/* Where a peer may keep files: on tmpfs, made and removed by run. */
extern const char *folder;

extern const struct peer ours, sqlite_judged, sqlite_trusting, lmdb_trusting;

/* data.c */
extern const char *const call_names[CALLS], *const mix_names[MIXES];
void content_make(struct content *content, size_t nodes, enum notes notes);
struct change content_later(const struct content *content, size_t index, enum mix mix);
void series_single(struct series *series, const struct content *content, enum call call);
void series_puts_in_a_row(struct series *series, const struct content *content);
void bytes_set(struct bytes *to, const void *from, size_t len);
uint64_t fnv(uint64_t hash, const void *from, size_t len);
uint64_t fnv_start(void);
uint64_t fnv_record(uint64_t hash, const void *path, size_t path_len, const void *value, size_t value_len);

/* image.c */
size_t image_reachable(const uint8_t *image, uint16_t nodes[NODES_MOST]);
size_t image_waiting(const uint8_t *image);
void image_raise(uint8_t *image);
bool image_change(uint8_t *image, const struct change *change);

/* ours.c; `wanted` is how many changes shall wait in the root, WAITING_MOST for as many as there can be: made one by one, after which few may
 * wait, by batches whose last change is refused, after which more may, or by hand, until no more fit. */
enum way { BY_CALLS, BY_BATCHES, BY_HAND, WAYS };
struct state {
    size_t wanted;
    enum way way;
    enum mix mix;
};
void ours_build(struct content *content, struct state state);
const uint8_t *ours_pristine(void);

/* measure.c */
extern size_t rounds;
double now_us(void);
void in_turns(const struct peer *const *peers, size_t count, const struct series *series, double *us);
double pass_us(const uint8_t *image);

/* print.c */
extern bool markdown;
void title(const char *format, ...);
void table_head(const char *const *cells, size_t count);
void table_row(const char *const *cells, size_t count);
const char *figure(double value);

_Noreturn void fail(const char *format, ...);

#endif
