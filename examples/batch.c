/* SPDX-License-Identifier: MIT
 * A list of calls as one: a closure's trays are put, the closure is renumbered, and its trays are read, with one judgement of the image.
 * cc batch.c $(pkg-config --cflags --libs splicelog) */
#include <splicelog.h>
#include <stdio.h>

static uint8_t store[64 * SPLICELOG_NODE_SIZE], work[64 * SPLICELOG_WORK_PER_NODE], bytes[512], answers[512];

/* A path that is written in the program: the length goes with it. */
struct path {
    uint8_t bytes[SPLICELOG_PATH_LIMIT];
    size_t length;
};

static struct path path(const char *text) {
    struct path made;
    if (splicelog_path(text, made.bytes, &made.length) != SPLICELOG_OK)
        fprintf(stderr, "%s is no path\n", text); /* and every call refuses it */
    return made;
}

int main(void) {
    const struct path first = path("r1/c7/k2/t1"), second = path("r1/c7/k2/t2"), moved = path("r1/c7/k5/t1");
    const struct path old_closure = path("r1/c7/k2"), new_closure = path("r1/c7/k5");
    const uint8_t loss[] = {0x28};
    struct splicelog_calls calls = splicelog_begin_calls(bytes, sizeof bytes);
    const int fit = splicelog_add(&calls, SPLICELOG_PUT, first.bytes, first.length, loss, sizeof loss)
                    && splicelog_add(&calls, SPLICELOG_PUT, second.bytes, second.length, loss, sizeof loss)
                    && splicelog_add(&calls, SPLICELOG_MOVE, old_closure.bytes, old_closure.length, new_closure.bytes, new_closure.length)
                    && splicelog_add(&calls, SPLICELOG_GET, first.bytes, first.length, NULL, 0)
                    && splicelog_add(&calls, SPLICELOG_GET, moved.bytes, moved.length, NULL, 0)
                    && splicelog_add(&calls, SPLICELOG_NEXT, new_closure.bytes, new_closure.length, moved.bytes, moved.length);
    if (!fit || splicelog_make(store, sizeof store) != SPLICELOG_OK)
        return 1;
    const uint64_t done = splicelog_batch(store, sizeof store, work, sizeof work, bytes, calls.length, answers, sizeof answers);
    printf("%s; %u of %u calls done\n", splicelog_text(splicelog_batch_number(done)), (unsigned)splicelog_batch_done(done),
           (unsigned)calls.count);
    if (splicelog_batch_stop(bytes, calls.length, done) != SPLICELOG_STOP_END)
        return 1;
    size_t place = 0;
    struct splicelog_answer answer;
    while (splicelog_read_answer(answers, splicelog_batch_written(done), &place, &answer))
        printf("%u (%s), %u bytes\n", (unsigned)answer.number, splicelog_text(answer.number), (unsigned)answer.length);
    return 0;
}
