/* Reads an image just far enough to count: which nodes are reachable, how many messages wait in the root. It writes two things: a root above
 * the root, which makes room for messages, and a message behind the root's entries. Relies on the image being sound, laid out as docs/FORMAT.md says.
 */
#include "peers.h"

#include <string.h>

enum { HEAD = 8, ENTRY_HEAD = 4, KIND_INTERIOR = 2, KIND_CHILD = 0x10, KIND_PUT = 0x20, KIND_DROP = 0x21, KIND_CLEAR = 0x22 };

static uint16_t word(const uint8_t *at) { return (uint16_t)(at[0] | at[1] << 8); }

static void set_word(uint8_t *at, size_t value) {
    at[0] = (uint8_t)value;
    at[1] = (uint8_t)(value >> 8);
}

static size_t walk(const uint8_t *image, uint16_t number, uint16_t *nodes, size_t count) {
    const uint8_t *node = image + (size_t)number * NODE;
    nodes[count++] = number;
    if (word(node + 2) != KIND_INTERIOR)
        return count;
    const uint8_t *end = node + HEAD + word(node);
    for (const uint8_t *entry = node + HEAD; entry < end; entry += ENTRY_HEAD + word(entry))
        if (word(entry + 2) == KIND_CHILD)
            count = walk(image, word(entry + ENTRY_HEAD), nodes, count);
    return count;
}

/* The reachable nodes, the root first; node 0 is not among them, as in bench/run. */
size_t image_reachable(const uint8_t *image, uint16_t nodes[NODES_MOST]) { return walk(image, word(image + 6), nodes, 0); }

/* How many messages wait in the root. */
size_t image_waiting(const uint8_t *image) {
    const uint8_t *node = image + (size_t)word(image + 6) * NODE;
    if (word(node + 2) != KIND_INTERIOR)
        return 0;
    size_t count = 0;
    const uint8_t *end = node + HEAD + word(node);
    for (const uint8_t *entry = node + HEAD; entry < end; entry += ENTRY_HEAD + word(entry))
        count += word(entry + 2) != KIND_CHILD;
    return count;
}

static size_t free_node(const uint8_t *image) {
    uint16_t nodes[NODES_MOST];
    const size_t count = image_reachable(image, nodes);
    for (size_t number = 1; number < word(image + 4); number++) {
        bool used = false;
        for (size_t i = 0; i < count; i++)
            used |= nodes[i] == number;
        if (!used)
            return number;
    }
    fail("no node is free");
}

/* A new root that has the old one as its one child, from the empty string on: room for the most messages that a root can hold. */
void image_raise(uint8_t *image) {
    const size_t number = free_node(image), levels = word(image + 8) + 1u;
    uint8_t *node = image + number * NODE;
    const size_t fields[] = {ENTRY_HEAD + 2, KIND_INTERIOR, levels, 0, 2, KIND_CHILD, word(image + 6)};
    memset(node, 0, NODE);
    for (size_t i = 0; i < sizeof fields / sizeof *fields; i++)
        set_word(node + 2 * i, fields[i]);
    set_word(image + 6, number);
    set_word(image + 8, levels);
}

/* A change of a present path that nothing is below, as the root's last message; false where it does not fit. So a root can be filled that no
 * call fills. */
bool image_change(uint8_t *image, const struct change *change) {
    const bool puts = change->call == PUT;
    const struct bytes *path = &change->arguments.path, *value = &change->arguments.value;
    uint8_t *node = image + (size_t)word(image + 6) * NODE;
    const size_t length = word(node), rest = puts ? 2 + path->len + value->len : path->len;
    if (HEAD + length + ENTRY_HEAD + rest > NODE)
        return false;
    uint8_t *entry = node + HEAD + length, *body = entry + ENTRY_HEAD;
    set_word(entry, rest);
    set_word(entry + 2, puts ? KIND_PUT : change->call == DROP ? KIND_DROP : KIND_CLEAR);
    if (puts) {
        set_word(body, path->len);
        memcpy(body + 2, path->at, path->len);
        memcpy(body + 2 + path->len, value->at, value->len);
    } else {
        memcpy(body, path->at, path->len);
        set_word(image + 10, word(image + 10) - 1u);
    }
    set_word(node, length + ENTRY_HEAD + rest);
    return true;
}
