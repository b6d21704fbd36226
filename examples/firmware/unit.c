/* A unit that keeps splice records in flash: `unit FLASH [new]`. The file FLASH stands for 64 KiB of flash. At start the unit judges the
 * image that it finds there; where that is not sound it says so and stops, and with the word `new` it makes an empty one instead. Then it
 * reads lines: put PATH TEXT, get PATH, list PATH, clear PATH, move PATH PATH; list / and clear / are for the depot, which looks through a
 * unit that came back and wipes it (what can stay of its bytes: splicelog(3), Erasure). The end of the input is the end of the power.
 *
 * What to set aside, for 64 nodes (at most 64 records):
 *   flash  65,536 bytes  the image                  1,024 x nodes
 *   RAM    65,536 bytes  the image                  1,024 x nodes
 *           8,192 bytes  the work area                128 x nodes
 *           1,024 bytes  one node, to compare with flash; none where flash is read as memory
 *   stack  32 KiB        for a call of the library (of those used here move takes most: 28,132 bytes measured on x86-64), beside
 *                        the unit's own
 *   heap   none
 *
 * A power cut between two writes of `keep` can leave an image that is neither the old nor the new one. Where it is not sound the next start
 * says so; but it may be sound. A unit that must outlive that keeps two images in flash and writes them by turns.
 */
#include "splicelog.h"

#include <stdio.h>
#include <string.h>

enum { NODE = SPLICELOG_NODE_SIZE, NODES = 64, WORK = SPLICELOG_WORK_PER_NODE * NODES, LINE_MOST = 255 };
enum { OK = 0, NO_FLASH = 1, USAGE = 2, NOT_SOUND = 3 };

static uint8_t store[NODES * NODE], work[WORK];

/* Flash. On a board these two are the driver's; here a file stands for it, and what it lacks is erased: FF. */
static FILE *flash;

static int flash_read(size_t node, uint8_t *to) {
    memset(to, 0xFF, NODE);
    if (fseek(flash, (long)(node * NODE), SEEK_SET) != 0)
        return 0;
    const size_t read = fread(to, 1, NODE, flash);
    return read == NODE || !ferror(flash);
}

static int flash_write(size_t node, const uint8_t *from) {
    return fseek(flash, (long)(node * NODE), SEEK_SET) == 0 && fwrite(from, 1, NODE, flash) == NODE && fflush(flash) == 0;
}

/* Writes back the nodes that differ from flash, node 0 last: it names the root, so that nodes which were free before the call mean nothing
 * until it is written. */
static int keep(void) {
    static uint8_t was[NODE];
    unsigned written = 0;
    for (size_t i = 1; i <= NODES; i++) {
        const size_t node = i % NODES;
        const uint8_t *is = store + node * NODE;
        if (!flash_read(node, was))
            return 0;
        if (memcmp(was, is, NODE) == 0)
            continue;
        if (!flash_write(node, is))
            return 0;
        written++;
    }
    fprintf(stderr, "nodes written: %u\n", written);
    return 1;
}

/* A path as the library takes it, made of its text in place: r1/c7 becomes r1 00 c7 00. The 00 that ends the text is the last one. A lone /
 * is the empty path, which every path is below. No other text gives length 0: that would wipe the unit. */
struct path {
    const uint8_t *bytes;
    size_t length;
};

static struct path path(char *text) {
    const struct path made = {(const uint8_t *)text, strcmp(text, "/") == 0 ? 0 : strlen(text) + 1};
    for (; *text; text++)
        if (*text == '/')
            *text = 0;
    return made;
}

static void print_path(const uint8_t *bytes, size_t length) {
    for (size_t i = 0; i + 1 < length; i++)
        putchar(bytes[i] ? bytes[i] : '/');
}

/* The image from flash into RAM, judged. A sound image is never replaced, and another one only if asked. */
static int start(int make_new) {
    for (size_t node = 0; node < NODES; node++)
        if (!flash_read(node, store + node * NODE))
            return NO_FLASH;
    size_t live;
    const uint32_t number = splicelog_check_store(store, sizeof store, &live);
    if (number == SPLICELOG_OK) {
        puts("start: the image is sound");
        return OK;
    }
    printf("start: refused %u, the image is not sound\n", (unsigned)number);
    if (!make_new)
        return NOT_SOUND;
    if (splicelog_make(store, sizeof store) != SPLICELOG_OK) /* refuses only a wrong length */
        return NOT_SOUND;
    if (!keep())
        return NO_FLASH;
    puts("start: made a new one");
    return OK;
}

/* What a call that changes the store answered. Flash is touched only where the call was accepted. */
static int changed(uint32_t number) {
    if (number != 0) {
        printf("refused %u\n", (unsigned)number);
        return 1;
    }
    if (!keep())
        return 0;
    puts("ok");
    return 1;
}

static void get(struct path of) {
    uint8_t value[SPLICELOG_VALUE_LIMIT];
    size_t length;
    const uint32_t number = splicelog_get_value(store, sizeof store, of.bytes, of.length, value, sizeof value, &length);
    if (number != SPLICELOG_OK)
        printf("refused %u\n", (unsigned)number);
    else
        printf("%.*s\n", (int)length, (const char *)value);
}

/* Each step moves the place on to the next path; a get has its value. After the last path the step says 8. */
static void list(struct path below) {
    struct splicelog_place place = {{0}, 0};
    uint32_t number;
    while ((number = splicelog_step(store, sizeof store, below.bytes, below.length, &place)) == 0) {
        print_path(place.bytes, place.length);
        putchar(' ');
        get((struct path){place.bytes, place.length});
    }
    if (number == 8)
        puts("end");
    else
        printf("refused %u\n", (unsigned)number);
}

/* One line; 0 if flash failed. */
static int obey(char *line) {
    const char *word = strtok(line, " ");
    char *first = strtok(NULL, " "), *second = strtok(NULL, " ");
    if (word && first && second && strcmp(word, "put") == 0) {
        const struct path at = path(first);
        return changed(splicelog_put(store, sizeof store, work, sizeof work, at.bytes, at.length, (const uint8_t *)second, strlen(second)));
    }
    if (word && first && second && strcmp(word, "move") == 0) {
        const struct path from = path(first), to = path(second);
        return changed(splicelog_move(store, sizeof store, work, sizeof work, from.bytes, from.length, to.bytes, to.length));
    }
    if (word && first && !second && strcmp(word, "clear") == 0) {
        const struct path top = path(first);
        return changed(splicelog_clear(store, sizeof store, work, sizeof work, top.bytes, top.length));
    }
    if (word && first && !second && strcmp(word, "get") == 0)
        get(path(first));
    else if (word && first && !second && strcmp(word, "list") == 0)
        list(path(first));
    else
        puts("bad");
    return 1;
}

int main(int count, char **words) {
    const int make_new = count == 3 && strcmp(words[2], "new") == 0;
    if (count != 2 && !make_new) {
        fputs("usage: unit FLASH [new]\n", stderr);
        return USAGE;
    }
    flash = fopen(words[1], "r+b");
    if (!flash && make_new)
        flash = fopen(words[1], "w+b");
    if (!flash) {
        perror(words[1]);
        return NO_FLASH;
    }
    int status = start(make_new);
    char line[LINE_MOST + 2];
    while (status == OK && fgets(line, sizeof line, stdin)) {
        const size_t length = strcspn(line, "\n");
        line[length] = 0;
        if (length > LINE_MOST) {
            for (int c = 0; c != '\n' && c != EOF;)
                c = getchar();
            puts("bad");
        } else if (!obey(line)) {
            status = NO_FLASH;
        }
    }
    if (status == NO_FLASH)
        fputs("unit: flash failed\n", stderr);
    if (fclose(flash) != 0)
        status = NO_FLASH;
    return status;
}
