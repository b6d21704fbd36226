/* SPDX-License-Identifier: MIT
 *
 * The images of the lesson: `lesson BEFORE AFTER FROM TO` fills a store with the splices of four
 * closures and writes it to the file BEFORE, moves FROM to TO and writes it to AFTER. Relies on the
 * library alone: every byte of both images is what its calls left.
 */
#include "splicelog.h"

#include <stdio.h>

enum { NODES = 512, CLOSURES = 4, TRAYS = 8, FIBRES = 12, SPLICES = CLOSURES * TRAYS * FIBRES };

static uint8_t store[NODES * SPLICELOG_NODE_SIZE], work[NODES * SPLICELOG_WORK_PER_NODE];

/* 0, or 1 with a line that names the call and says why it was refused. */
static int refused(const char *call, uint32_t number) {
    if (number != SPLICELOG_OK)
        fprintf(stderr, "lesson: %s: refused %u, %s\n", call, (unsigned)number, splicelog_text(number));
    return number != SPLICELOG_OK;
}

/* Puts one splice of the cable r1/c7: its closure is k2 to k5, its tray t1 to t8, its fibre f01 to
 * f12. Its value is the loss in thousandths of a decibel and the splicer's number, two bytes each. */
static uint32_t put_splice(unsigned index) {
    const unsigned fibre = 1 + index % FIBRES, tray = 1 + index / FIBRES % TRAYS, closure = 2 + index / (FIBRES * TRAYS);
    const uint8_t value[] = {0, (uint8_t)(20 + index * 7 % 41), 0, (uint8_t)closure};
    char text[SPLICELOG_PATH_LIMIT];
    uint8_t path[SPLICELOG_PATH_LIMIT];
    size_t length;
    snprintf(text, sizeof text, "r1/c7/k%u/t%u/f%02u", closure, tray, fibre);
    const uint32_t number = splicelog_path(text, path, &length);
    return number ? number : splicelog_put(store, sizeof store, work, sizeof work, path, length, value, sizeof value);
}

static uint32_t move_paths(const char *from_text, const char *to_text) {
    uint8_t from[SPLICELOG_PATH_LIMIT], to[SPLICELOG_PATH_LIMIT];
    size_t from_length, to_length;
    const uint32_t number = splicelog_path(from_text, from, &from_length);
    const uint32_t other = splicelog_path(to_text, to, &to_length);
    if (number != SPLICELOG_OK || other != SPLICELOG_OK)
        return SPLICELOG_MALFORMED_PATH;
    return splicelog_move(store, sizeof store, work, sizeof work, from, from_length, to, to_length);
}

/* Writes the image to a file: 0, or 1 where that fails. */
static int save(const char *name) {
    FILE *file = fopen(name, "wb");
    const int written = file && fwrite(store, 1, sizeof store, file) == sizeof store;
    if ((file && fclose(file) != 0) || !written) {
        perror(name);
        return 1;
    }
    return 0;
}

int main(int count, char **words) {
    if (count != 5) {
        fputs("usage: lesson BEFORE AFTER FROM TO\n", stderr);
        return 2;
    }
    if (refused("make", splicelog_make(store, sizeof store)))
        return 1;
    for (unsigned index = 0; index < SPLICES; index++)
        if (refused("put", put_splice(index)))
            return 1;
    if (refused("tidy", splicelog_tidy(store, sizeof store, work, sizeof work)) || save(words[1]))
        return 1;
    return refused("move", move_paths(words[3], words[4])) || save(words[2]);
}
