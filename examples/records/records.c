/* SPDX-License-Identifier: MIT
 * Keeps splice records in a file with libsplicelog: see splicelog(3). A line of text is a path, a space and a value in
 * hexadecimal, as "r1/c2/k7/t1/f12 0a1f", or "-" for an empty value. Exit status: 0 done; 1 refused or not saved (the
 * image is then as it was) or not printed; 2 usage. One run at a time: a save writes IMAGE.new and may leave it behind.
 * Build: gcc -std=c99 -O1 -Wall -Wextra -Wpedantic -Wconversion -Werror records.c -lsplicelog -o records */
#define _POSIX_C_SOURCE 200809L /* fileno and fsync */
#include <errno.h>
#include <splicelog.h>
#include <stdio.h>
#include <string.h>
#include <unistd.h>

static uint8_t store[SPLICELOG_MOST_NODES * SPLICELOG_NODE_SIZE + 1]; /* one more: a longer file is seen and refused */
static uint8_t work[SPLICELOG_MOST_NODES * SPLICELOG_WORK_PER_NODE];
static size_t size = 256 * SPLICELOG_NODE_SIZE; /* the store's; a new one has 256 nodes, and room for 256 records */

/* Each function gives 0, or tells what went wrong and gives 1. What the library refuses is told by number and text. */
static int failed(const char *what, const char *why) { fprintf(stderr, "records: %s: %s\n", what, why); return 1; }
static int refused(const char *what, unsigned number) {
    if (number != SPLICELOG_OK) fprintf(stderr, "records: %s: refused %u: %s\n", what, number, splicelog_text(number));
    return number != SPLICELOG_OK;
}

/* Reads an image and has it judged before use, as anyone may have written it. Where no file is, fill makes a store. */
static int load(const char *image, int make) {
    size_t live;
    FILE *const file = fopen(image, "rb");
    if (file == NULL && errno == ENOENT && make) return refused(image, splicelog_make(store, size));
    if (file != NULL) size = fread(store, 1, sizeof store, file);
    if (file == NULL || ferror(file) || fclose(file) != 0) return failed(image, strerror(errno));
    return refused(image, splicelog_check_store(store, size, &live));
}

/* Writes a new file, which takes the image's name once all of it is on the disk: until then the old image stays. */
static int save(const char *image) {
    char name[4096];
    if (snprintf(name, sizeof name, "%s.new", image) >= (int)sizeof name) return failed(image, "too long a name");
    FILE *const out = fopen(name, "wb");
    const int whole = out != NULL && fwrite(store, 1, size, out) == size && fflush(out) == 0 && fsync(fileno(out)) == 0;
    if (out != NULL && fclose(out) == 0 && whole && rename(name, image) == 0) return 0;
    return failed("not saved", strerror(errno));
}

/* Puts the record of a line. Only the line's form is judged here: its path and its value are the library's to judge. */
static int put_line(const char *where, char *line) {
    struct splicelog_place path; /* bytes and their length */
    uint8_t value[2048];         /* enough, as a line has at most 4,095 characters */
    char *const space = strchr(line, ' ');
    const size_t digits = space == NULL ? 0 : strspn(space + 1, "0123456789abcdefABCDEF");
    if (space == NULL || (strcmp(space, " -\n") != 0 && (digits == 0 || digits % 2 != 0 || space[1 + digits] != '\n')))
        return failed(where, "is not a path, a space and pairs of hexadecimal digits or -");
    *space = 0; /* here the path's text ends */
    for (size_t i = 0; i < digits / 2; i++) sscanf(space + 1 + 2 * i, "%2hhx", &value[i]);
    return refused(where, splicelog_path(line, path.bytes, &path.length)) ||
           refused(where, splicelog_put(store, size, work, sizeof work, path.bytes, path.length, value, digits / 2));
}

/* Puts all lines or none: it goes on after a refusal, so that the user is told all of them, but nothing is saved. */
static int fill(const char *lines) {
    char line[4096], where[32];
    int status = 0;
    FILE *const file = fopen(lines, "r");
    for (unsigned long count = 1; file != NULL && fgets(line, sizeof line, file) != NULL; count++) {
        snprintf(where, sizeof where, "line %lu", count);
        if (strchr(line, '\n') == NULL) { status = failed(where, "is too long, or cut, or not text"); break; }
        if (put_line(where, line)) status = 1;
    }
    return file == NULL || ferror(file) || fclose(file) != 0 ? failed(lines, strerror(errno)) : status;
}

/* A move replaces all that is below its second path. So it is not made where there are records: they would be lost. */
static int renumber(const char *old, const char *new) {
    struct splicelog_place from, to, at = {{0}, 0};
    if (refused(old, splicelog_path(old, from.bytes, &from.length))) return 1;
    if (refused(new, splicelog_path(new, to.bytes, &to.length))) return 1;
    if (splicelog_step(store, size, to.bytes, to.length, &at) == SPLICELOG_OK) return failed(new, "is in use already");
    return refused(old, splicelog_move(store, size, work, sizeof work, from.bytes, from.length, to.bytes, to.length));
}

/* Prints the records below a path, all for /. After the last one the library answers 8: told only where none came. */
static int list(const char *top) {
    struct splicelog_place path, at = {{0}, 0};
    char name[SPLICELOG_PATH_LIMIT];
    uint8_t value[SPLICELOG_VALUE_LIMIT];
    size_t length;
    uint32_t number;
    if (refused(top, splicelog_path(top, path.bytes, &path.length))) return 1;
    while ((number = splicelog_step(store, size, path.bytes, path.length, &at)) == SPLICELOG_OK) {
        if (refused(top, splicelog_path_text(at.bytes, at.length, name))) return 1;
        if (refused(top, splicelog_get_value(store, size, at.bytes, at.length, value, sizeof value, &length))) return 1;
        printf("%s ", name);
        for (size_t i = 0; i < length; i++) printf("%02x", value[i]);
        puts(length == 0 ? "-" : "");
    }
    return number == SPLICELOG_NOT_FOUND && at.length > 0 ? 0 : refused(top, number);
}

int main(int argc, char **argv) {
    int status = 2;
    if (argc == 4 && strcmp(argv[1], "fill") == 0) status = load(argv[2], 1) || fill(argv[3]) || save(argv[2]);
    else if (argc == 5 && strcmp(argv[1], "renumber") == 0)
        status = load(argv[2], 0) || renumber(argv[3], argv[4]) || save(argv[2]);
    else if (argc == 4 && strcmp(argv[1], "list") == 0) status = load(argv[2], 0) || list(argv[3]);
    else if (argc == 2 && strcmp(argv[1], "numbers") == 0)
        for (unsigned n = 0; n <= SPLICELOG_LAST_NUMBER; n++) status = printf("%u %s\n", n, splicelog_text(n)) < 0;
    else fputs("usage: records fill IMAGE LINES | renumber IMAGE OLD NEW | list IMAGE PATH | numbers\n", stderr);
    return fflush(stdout) == 0 && !ferror(stdout) ? status : failed("standard output", strerror(errno));
}
