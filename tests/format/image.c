/* Writes to standard output the image that docs/FORMAT.md reads by hand: 32 nodes, four records, a tidy and a renumbering, then a put, a
 * drop and a clear, which wait as messages. */
#include "splicelog.h"

#include <stdio.h>
#include <string.h>

static uint8_t store[32 * 1024], work[32 * 128];

/* A path from its text: r1/c7 becomes r1 00 c7 00. */
struct path {
    uint8_t bytes[64];
    size_t length;
};

static struct path path(const char *text) {
    struct path made = {{0}, strlen(text) + 1};
    for (size_t i = 0; text[i]; i++)
        made.bytes[i] = text[i] == '/' ? 0 : (uint8_t)text[i];
    return made;
}

static int put(const char *at, const char *value) {
    const struct path p = path(at);
    return splicelog_put(store, sizeof store, work, sizeof work, p.bytes, p.length, (const uint8_t *)value, strlen(value)) == 0;
}

static int drop(const char *at) {
    const struct path p = path(at);
    return splicelog_drop(store, sizeof store, work, sizeof work, p.bytes, p.length) == 0;
}

static int clear(const char *at) {
    const struct path p = path(at);
    return splicelog_clear(store, sizeof store, work, sizeof work, p.bytes, p.length) == 0;
}

static int move(const char *from, const char *to) {
    const struct path f = path(from), t = path(to);
    return splicelog_move(store, sizeof store, work, sizeof work, f.bytes, f.length, t.bytes, t.length) == 0;
}

int main(void) {
    const int made = splicelog_make(store, sizeof store) == 0 && put("r1/c7/t1", "A") && put("r1/c7/t2", "") && put("r1/c8/t1", "BC") &&
                     put("r2/c1/t1", "D") && splicelog_tidy(store, sizeof store, work, sizeof work) == 0 && move("r1/c7", "r1/c9") &&
                     put("r1/c9/t3", "E") && drop("r1/c9/t2") && clear("r2");
    return !made || fwrite(store, 1, sizeof store, stdout) != sizeof store || fflush(stdout) != 0;
}
