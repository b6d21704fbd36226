/* SPDX-License-Identifier: MIT
 *
 * A splicer's unit on a Cortex-M4: its store of 64 nodes is in RAM, and what changed is written back to flash. It writes the records of a
 * closure, renumbers the closure, is switched off and on, lists what it finds, and is wiped. The stack of each call is painted and measured;
 * these figures go to standard error, since they change with the compiler. It relies on flash.h for the flash and on newlib for printf.
 *
 * What to set aside for 64 nodes (at most 64 records): 65,536 bytes of flash, 65,536 of RAM for the image, 8,192 of RAM for the work area,
 * 32 KiB of stack. What a power cut between two writes of `keep` can leave: examples/firmware/unit.c says it.
 */
#include "flash.h"
#include "splicelog.h"
#include "stack.h"

#include <stdio.h>
#include <string.h>

enum { NODES = FLASH_BYTES / SPLICELOG_NODE_SIZE };
enum call { CHECK, MAKE, GET, NEXT, PUT, DROP, CLEAR, MOVE, TIDY, CALLS };
static const char *const call_names[CALLS] = {"check", "make", "get", "next", "put", "drop", "clear", "move", "tidy"};

static uint8_t store[NODES * SPLICELOG_NODE_SIZE], work[NODES * SPLICELOG_WORK_PER_NODE];
static size_t deepest[CALLS];

struct path {
    uint8_t bytes[SPLICELOG_PATH_LIMIT];
    size_t length;
};

/* The path of a text. One that is no path's becomes a path that every call refuses by 3. */
static struct path path(const char *text) {
    struct path made;
    if (splicelog_path(text, made.bytes, &made.length) != SPLICELOG_OK)
        printf("%s is no path\n", text);
    return made;
}

static void measured(enum call call) {
    const size_t used = stack_used();
    if (used > deepest[call])
        deepest[call] = used;
}

/* What a call answered, printed behind what was asked; 1 where it was accepted. */
static int accepted(const char *asked, uint32_t number) {
    printf("%s: %s\n", asked, splicelog_text(number));
    return number == SPLICELOG_OK;
}

/* Writes back the sectors that differ from flash, the one of node 0 last, since node 0 names the root. Gives 0 where flash fails. */
static int keep(void) {
    unsigned written = 0;
    for (size_t end = FLASH_BYTES; end > 0; end -= FLASH_SECTOR) {
        const size_t sector = end - FLASH_SECTOR;
        if (memcmp(flash_bytes() + sector, store + sector, FLASH_SECTOR) == 0)
            continue;
        if (!flash_erase(sector) || !flash_program(sector, store + sector, FLASH_SECTOR))
            return 0;
        written++;
    }
    printf("keep: %u of %u sectors written\n", written, FLASH_BYTES / FLASH_SECTOR);
    return 1;
}

/* The image from flash into RAM, checked. One that is not sound is replaced by an empty one. */
static int power_on(void) {
    size_t live;
    memcpy(store, flash_bytes(), sizeof store);
    stack_paint();
    uint32_t number = splicelog_check_store(store, sizeof store, &live);
    measured(CHECK);
    if (accepted("power on", number)) {
        printf("records: %u\n", (unsigned)live);
        return 1;
    }
    stack_paint();
    number = splicelog_make(store, sizeof store);
    measured(MAKE);
    return accepted("make", number) && keep();
}

static uint32_t put(const char *at, const char *value) {
    const struct path to = path(at);
    stack_paint();
    const uint32_t number = splicelog_put(store, sizeof store, work, sizeof work, to.bytes, to.length, (const uint8_t *)value, strlen(value));
    measured(PUT);
    return number;
}

/* Twelve records of a closure and four of its neighbour: four fibres in each tray, with their losses. */
static int write_records(void) {
    uint32_t number = SPLICELOG_OK;
    for (int i = 0; i < 16 && number == SPLICELOG_OK; i++) {
        char at[SPLICELOG_PATH_LIMIT], value[SPLICELOG_VALUE_LIMIT];
        snprintf(at, sizeof at, "r1/c7/k%d/t%d/f%d", i < 12 ? 2 : 3, i / 4 % 3 + 1, i % 4 + 1);
        snprintf(value, sizeof value, "0.%02ddB,2026-11-%02d", i * 7 % 11, i + 1);
        number = put(at, value);
    }
    return accepted("put 16 records", number) && keep();
}

static int renumber(const char *from, const char *to) {
    const struct path old = path(from), new = path(to);
    stack_paint();
    const uint32_t number = splicelog_move(store, sizeof store, work, sizeof work, old.bytes, old.length, new.bytes, new.length);
    measured(MOVE);
    printf("%s becomes %s\n", from, to);
    return accepted("move", number) && keep();
}

static int drop(const char *at) {
    const struct path of = path(at);
    stack_paint();
    const uint32_t number = splicelog_drop(store, sizeof store, work, sizeof work, of.bytes, of.length);
    measured(DROP);
    return accepted("drop", number);
}

/* The empty path is above every path, and needs no array. */
static int wipe(void) {
    stack_paint();
    const uint32_t number = splicelog_clear(store, sizeof store, work, sizeof work, NULL, 0);
    measured(CLEAR);
    return accepted("wipe", number) && keep();
}

static int tidy(void) {
    stack_paint();
    const uint32_t number = splicelog_tidy(store, sizeof store, work, sizeof work);
    measured(TIDY);
    return accepted("tidy", number) && keep();
}

/* One record of a listing: its path and its value. */
static void print_record(const struct splicelog_place *place) {
    char text[SPLICELOG_PATH_LIMIT];
    uint8_t value[SPLICELOG_VALUE_LIMIT];
    size_t length;
    stack_paint();
    const uint32_t number = splicelog_get_value(store, sizeof store, place->bytes, place->length, value, sizeof value, &length);
    measured(GET);
    if (number == SPLICELOG_OK && splicelog_path_text(place->bytes, place->length, text) == SPLICELOG_OK)
        printf("%s %.*s\n", text, (int)length, (const char *)value);
    else
        printf("not read: %s\n", splicelog_text(number));
}

static int list(const char *below) {
    const struct path top = path(below);
    struct splicelog_place place = {{0}, 0};
    uint32_t number;
    do {
        stack_paint();
        number = splicelog_step(store, sizeof store, top.bytes, top.length, &place);
        measured(NEXT);
        if (number == SPLICELOG_OK)
            print_record(&place);
    } while (number == SPLICELOG_OK);
    return number == SPLICELOG_NOT_FOUND;
}

static int life(void) {
    if (!power_on() || !write_records() || !renumber("r1/c7/k2", "r1/c7/k5"))
        return 0;
    memset(store, 0xAA, sizeof store); /* power off */
    return power_on() && list("/") && drop("r1/c7/k3/t1/f1") && tidy() && list("r1/c7/k3") && wipe() && power_on();
}

int main(void) {
    for (size_t sector = 0; sector < FLASH_BYTES; sector += FLASH_SECTOR)
        if (!flash_erase(sector))
            return 1;
    const int lived = life();
    puts(lived ? "power off" : "the unit failed");
    fprintf(stderr, "RAM: image %u bytes, work area %u\n", (unsigned)sizeof store, (unsigned)sizeof work);
    for (int call = 0; call < CALLS; call++)
        fprintf(stderr, "stack: %-5s %5u bytes at most\n", call_names[call], (unsigned)deepest[call]);
    return lived ? 0 : 1;
}
