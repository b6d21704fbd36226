/* The records and the arguments, the same for every peer and in every run: fibres by route/cable/closure/tray/fibre, each with the loss and
 * the day of its splice and, where asked, further losses up to the longest value. Relies on nothing but the C library.
 */
#include "peers.h"

#include <stdarg.h>
#include <stdio.h>
#include <stdlib.h>
#include <string.h>

const char *const call_names[CALLS] = {"get", "next", "put", "drop", "clear", "move", "settle", "tidy"};
const char *const mix_names[MIXES] = {"puts", "drops", "clears", "the three in turn"};

/* A closure has 2 trays of 8 fibres, a cable 4 closures, a route 4 cables. */
enum { FIBRES = 8, TRAYS = 2, CLOSURES = 4, CABLES = 4 };
/* How many components a route and a closure have. */
enum { ROUTE = 1, CLOSURE = 3 };
/* Rows of this number, modulo SINGLE, are the calls' own. */
enum { OWN = 2 };

_Noreturn void fail(const char *format, ...) {
    va_list list;
    va_start(list, format);
    fputs("bench/peers: ", stderr);
    vfprintf(stderr, format, list);
    fputc('\n', stderr);
    va_end(list);
    exit(1);
}

void bytes_set(struct bytes *to, const void *from, size_t len) {
    if (len > sizeof to->at)
        fail("%zu bytes are too many", len);
    memcpy(to->at, from, len);
    to->len = len;
}

uint64_t fnv_start(void) { return 0xcbf29ce484222325; }

/* 64-bit FNV-1a, byte by byte: the measure of a pass, as in bench/run. */
uint64_t fnv(uint64_t hash, const void *from, size_t len) {
    const uint8_t *at = from;
    for (size_t i = 0; i < len; i++)
        hash = (hash ^ at[i]) * 0x100000001b3;
    return hash;
}

uint64_t fnv_record(uint64_t hash, const void *path, size_t path_len, const void *value, size_t value_len) {
    const uint8_t lengths[2] = {(uint8_t)path_len, (uint8_t)value_len};
    return fnv(fnv(fnv(hash, lengths, sizeof lengths), path, path_len), value, value_len);
}

/* The path of fibre `index`; paths rise with it. */
static struct bytes path_of(size_t index) {
    const size_t tray = index / FIBRES, closure = tray / TRAYS, cable = closure / CLOSURES, route = cable / CABLES;
    char text[PATH_MOST];
    const int len = snprintf(text, sizeof text, "r%zu/c%02zu/k%02zu/t%zu/f%02zu/", route + 1, cable % CABLES + 1, closure % CLOSURES + 1,
                             tray % TRAYS + 1, index % FIBRES + 1);
    for (int i = 0; i < len; i++)
        if (text[i] == '/')
            text[i] = 0;
    struct bytes path;
    bytes_set(&path, text, (size_t)len);
    return path;
}

static struct bytes value_of(const struct content *content, size_t index) {
    char text[VALUE_MOST + 1];
    const int len = snprintf(text, sizeof text, "0.%02zudB,2026-%02zu-%02zu%s", index * 7 % 40, index % 12 + 1, index % 28 + 1,
                             content->notes == LONGEST ? ",0.04,0.07,0.05,0.06,0.03,0.08," : "");
    struct bytes value;
    bytes_set(&value, text, (size_t)len);
    return value;
}

void content_make(struct content *content, size_t nodes, enum notes notes) {
    memset(content, 0, sizeof *content);
    content->nodes = nodes;
    content->notes = notes;
    for (size_t i = 0; i < nodes; i++)
        content->rows[i] = (struct record){path_of(i), value_of(content, i)};
}

/* The first `count` components of a path. */
static struct bytes beginning(const struct bytes *path, size_t count) {
    size_t len = 0;
    while (count > 0 && len < path->len)
        count -= path->at[len++] == 0;
    struct bytes made;
    bytes_set(&made, path->at, len);
    return made;
}

/* What is below a path comes before the path and FF, since no path has that byte. */
static struct bytes end_of(const struct bytes *path) {
    struct bytes end = *path;
    end.at[end.len++] = 0xFF;
    return end;
}

/* The later change of this index: a present path, far from the one before and none of the calls' own (arguments_of), so that every peer has
 * these still; a put has a new value. */
struct change content_later(const struct content *content, size_t index, enum mix mix) {
    static const enum call in_turn[] = {PUT, DROP, CLEAR};
    size_t row = 0;
    for (size_t left = index + 1, i = 0; left > 0; i++) {
        row = i * 37 % content->nodes;
        left -= row % SINGLE != OWN;
    }
    struct change made = {mix == IN_TURN ? in_turn[index % 3] : in_turn[mix],
                          {.path = content->rows[row].path, .value = value_of(content, index + 5)}};
    made.arguments.path_end = end_of(&made.arguments.path);
    return made;
}

/* The closure under a number that is not in use. */
static struct bytes renumbered(const struct bytes *closure) {
    struct bytes made = *closure;
    memcpy(made.at + made.len - 3, "99", 2);
    return made;
}

/* Spread over the store; never the last path of a route, so that next has an answer. */
static struct arguments arguments_of(const struct content *content, enum call call, size_t index) {
    const size_t row = index * content->nodes / SINGLE + OWN;
    struct arguments made = {.path = content->rows[row].path, .value = value_of(content, row + 11)};
    if (call == NEXT) {
        made.other = made.path;
        made.path = beginning(&made.path, ROUTE);
    }
    if (call == CLEAR || call == MOVE)
        made.path = beginning(&made.path, CLOSURE);
    if (call == MOVE)
        made.other = renumbered(&made.path);
    made.path_end = end_of(&made.path);
    made.other_end = end_of(&made.other);
    return made;
}

void series_single(struct series *series, const struct content *content, enum call call) {
    series->call = call;
    series->in_a_row = false;
    series->count = SINGLE;
    for (size_t i = 0; i < SINGLE; i++)
        series->all[i] = arguments_of(content, call, i);
}

/* Puts to present paths: the store is full. What a put costs us depends on the ones before it, so single puts alone would not tell. */
void series_puts_in_a_row(struct series *series, const struct content *content) {
    series->call = PUT;
    series->in_a_row = true;
    series->count = IN_A_ROW;
    for (size_t i = 0; i < IN_A_ROW; i++) {
        series->all[i] = content_later(content, i, PUTS).arguments;
    }
}
