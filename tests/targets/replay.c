/* SPDX-License-Identifier: MIT
 *
 * Makes the calls of a file that was written on x86-64 (by tests/judge/examples/replay, whose recorder.rs has its layout): `replay FILE`.
 * After each call the answer and every byte of the store, the other store, the work area, the buffer and the arguments must be what the
 * x86-64 library left, and so must some bytes behind each. The stack below each call is painted, and the deepest use of each call is
 * printed. It relies on stdio, on Linux or by semihosting, and on examples/board/stack.h.
 */
#include "splicelog.h"
#include "stack.h"

#include <stdio.h>
#include <stdlib.h>
#include <string.h>

enum kind { MAKE, GET, NEXT, SAME, PUT, DROP, CLEAR, MOVE, SETTLE, TIDY, FLUSH, HEAL, BATCH, CHECK, KINDS, END = 0xFF };
static const char *const kind_names[KINDS] = {"make", "get",    "next", "same",  "put",  "drop", "clear",
                                              "move", "settle", "tidy", "flush", "heal", "batch", "check"};

enum { STORE, OTHER, WORK, BUFFER, FIRST, SECOND, ARRAYS };
static const char *const array_names[ARRAYS] = {"the store",  "the other store",    "the work area",
                                                "the buffer", "the first argument", "the second argument"};

/* As MOST in recorder.rs. Behind the bytes that a call is told of stand others, which must stay. Each array begins at an odd address, since a
 * caller's may: an aligned load of several bytes would fault or read elsewhere on some processors. */
enum { STORE_MOST = 1028 << 10, WORK_MOST = 256 << 10, ARGUMENT_MOST = 128 << 10 };
enum { BEHIND = 64, STACK_LIMIT = 32 << 10 };
static const size_t most[ARRAYS] = {STORE_MOST, STORE_MOST, WORK_MOST, ARGUMENT_MOST, ARGUMENT_MOST, ARGUMENT_MOST};

struct memory {
    _Alignas(8) uint8_t before[1];
    uint8_t store[STORE_MOST + BEHIND], other[STORE_MOST + BEHIND], work[WORK_MOST + BEHIND];
    uint8_t buffer[ARGUMENT_MOST + BEHIND], first[ARGUMENT_MOST + BEHIND], second[ARGUMENT_MOST + BEHIND];
};
static struct memory is, expected;

struct call {
    enum kind kind;
    size_t length[ARRAYS];
    uint64_t node, answer;
};

static FILE *file;
static unsigned long made;

static void fail(const char *what) {
    fprintf(stderr, "replay: call %lu: %s\n", made, what);
    exit(1);
}

static uint8_t *array(struct memory *of, int index) {
    uint8_t *const arrays[ARRAYS] = {of->store, of->other, of->work, of->buffer, of->first, of->second};
    return arrays[index];
}

static uint8_t read_byte(void) {
    const int byte = getc(file);
    if (byte == EOF)
        fail("the file ends too early");
    return (uint8_t)byte;
}

static uint64_t read_number(void) {
    uint64_t value = 0;
    for (unsigned shift = 0; shift < 64; shift += 7) {
        const uint8_t byte = read_byte();
        value |= (uint64_t)(byte & 0x7F) << shift;
        if (byte < 0x80)
            return value;
    }
    fail("a number of the file is too long");
    return 0;
}

/* The differences of an array, put into what is expected of it, and before the call into the array itself too. */
static void read_differences(int index, size_t length, int before) {
    uint8_t *const to = array(&expected, index), *const also = array(&is, index);
    size_t at = 0;
    for (;;) {
        const uint64_t skipped = read_number(), twice = read_number(), count = twice / 2;
        if (count == 0)
            return;
        if (skipped > length - at || count > length - at - skipped)
            fail("a difference of the file lies outside its array");
        at += (size_t)skipped;
        if (twice % 2 != 0)
            memset(to + at, read_byte(), (size_t)count);
        else if (fread(to + at, 1, (size_t)count, file) != count)
            fail("the file ends too early");
        if (before)
            memcpy(also + at, to + at, (size_t)count);
        at += (size_t)count;
    }
}

static void read_given(struct call *call) {
    for (int i = 0; i < ARRAYS; i++) {
        const uint64_t length = read_number();
        if (length > most[i])
            fail("an array of the file is too long");
        call->length[i] = (size_t)length;
        read_differences(i, call->length[i], 1);
    }
    call->node = read_number();
    call->answer = read_number();
}

__attribute__((noinline)) static uint64_t answer(const struct call *call) {
    const size_t *const n = call->length;
    const splicelog_size node = (splicelog_size)call->node;
    switch (call->kind) {
    case MAKE: return splicelog_make(is.store, n[STORE]);
    case GET: return splicelog_get(is.store, n[STORE], is.first, n[FIRST], is.buffer, n[BUFFER]);
    case NEXT: return splicelog_next(is.store, n[STORE], is.first, n[FIRST], is.second, n[SECOND], is.buffer, n[BUFFER]);
    case SAME: return splicelog_same(is.store, n[STORE], is.other, n[OTHER]);
    case PUT: return splicelog_put(is.store, n[STORE], is.work, n[WORK], is.first, n[FIRST], is.second, n[SECOND]);
    case DROP: return splicelog_drop(is.store, n[STORE], is.work, n[WORK], is.first, n[FIRST]);
    case CLEAR: return splicelog_clear(is.store, n[STORE], is.work, n[WORK], is.first, n[FIRST]);
    case MOVE: return splicelog_move(is.store, n[STORE], is.work, n[WORK], is.first, n[FIRST], is.second, n[SECOND]);
    case SETTLE: return splicelog_settle(is.store, n[STORE], is.work, n[WORK]);
    case TIDY: return splicelog_tidy(is.store, n[STORE], is.work, n[WORK]);
    case FLUSH: return splicelog_flush(is.store, n[STORE], is.work, n[WORK], node);
    case HEAL: return splicelog_heal(is.store, n[STORE], is.work, n[WORK], node);
    case BATCH: return splicelog_batch(is.store, n[STORE], is.work, n[WORK], is.first, n[FIRST], is.buffer, n[BUFFER]);
    case CHECK: return splicelog_check(is.store, n[STORE]);
    default: fail("no such kind of call"); return 0;
    }
}

/* How many bytes are equal before the first that differ. By words: newlib's memcmp takes odd addresses byte by byte. */
static size_t equal_bytes(const uint8_t *a, const uint8_t *b, size_t length) {
    size_t at = 0;
    for (uint64_t x, y; length - at >= sizeof x; at += sizeof x) {
        memcpy(&x, a + at, sizeof x);
        memcpy(&y, b + at, sizeof y);
        if (x != y)
            break;
    }
    while (at < length && a[at] == b[at])
        at++;
    return at;
}

static void compare(const struct call *call, uint64_t given) {
    char what[160];
    if (given != call->answer) {
        snprintf(what, sizeof what, "%s answers %08lX %08lX, on x86-64 %08lX %08lX", kind_names[call->kind],
                 (unsigned long)(given >> 32), (unsigned long)(uint32_t)given, (unsigned long)(call->answer >> 32),
                 (unsigned long)(uint32_t)call->answer);
        fail(what);
    }
    for (int i = 0; i < ARRAYS; i++) {
        const uint8_t *const a = array(&is, i), *const b = array(&expected, i);
        const size_t end = call->length[i] + BEHIND, at = equal_bytes(a, b, end);
        if (at == end)
            continue;
        snprintf(what, sizeof what, "%s leaves %02X at byte %lu of %s, on x86-64 %02X", kind_names[call->kind], a[at], (unsigned long)at,
                 array_names[i], b[at]);
        fail(what);
    }
}

static void replay(size_t deepest[KINDS], unsigned long count[KINDS]) {
    struct call call;
    uint64_t given;
    for (uint8_t kind; (kind = read_byte()) != END; made++) {
        if (kind >= KINDS)
            fail("no such kind of call");
        call.kind = (enum kind)kind;
        read_given(&call);
        stack_paint();
        given = answer(&call);
        const size_t used = stack_used();
        for (int i = 0; i < ARRAYS; i++)
            read_differences(i, call.length[i], 0);
        compare(&call, given);
        count[kind]++;
        if (used > deepest[kind])
            deepest[kind] = used;
    }
}

int main(int argc, char **argv) {
    static size_t deepest[KINDS];
    static unsigned long count[KINDS];
    int status = 0;
    file = argc == 2 ? fopen(argv[1], "rb") : NULL;
    if (!file) {
        fputs("usage: replay FILE, which tests/judge/examples/replay writes\n", stderr);
        return 2;
    }
    setvbuf(file, NULL, _IOFBF, 1 << 14);
    replay(deepest, count);
    for (int kind = 0; kind < KINDS; kind++) {
        const int deep = deepest[kind] > STACK_LIMIT;
        printf("%-6s %5lu calls, deepest stack %5lu bytes%s\n", kind_names[kind], count[kind], (unsigned long)deepest[kind],
               deep ? ": over 32 KiB" : "");
        status |= deep || count[kind] == 0;
    }
    printf("%lu calls replayed, every byte as on x86-64\n", made);
    return status;
}
