/* Prints each call of the splice log beside its equal in SQLite and LMDB, and how its cost grows: `peers FOLDER [--markdown] [--rounds N]`.
 * Relies on the peers that it is compiled with (-DHAVE_SQLITE, -DHAVE_LMDB) and on bench/peers/run, which builds it and makes the folder.
 */
#include "peers.h"

#include <stdio.h>
#include <stdlib.h>
#include <string.h>
#include <time.h>

/* The columns, ours first. NULL stands for a peer that is not on this machine. */
enum { OURS, JUDGED, TRUSTING, LMDB, COLUMNS };
static const struct peer *const columns[COLUMNS] = {
    &ours,
#ifdef HAVE_SQLITE
    &sqlite_judged, &sqlite_trusting,
#else
    NULL, NULL,
#endif
#ifdef HAVE_LMDB
    &lmdb_trusting,
#else
    NULL,
#endif
};

static const size_t sizes[] = {64, 256, 1024};
enum { SIZES = sizeof sizes / sizeof *sizes };

/* The least ratio to a judging SQLite in a settled store of each size, and the call that has it; and the ratio of puts in a row. */
struct worst {
    double ratio;
    enum call call;
};
static struct worst worst_settled[SIZES];
static double ratio_in_a_row[SIZES];

const char *folder;
static struct content content;
static struct series series;

static void first_line(const char *name, const char *begins, char *to, size_t room) {
    FILE *from = fopen(name, "r");
    snprintf(to, room, "unknown");
    while (from && fgets(to, (int)room, from))
        if (strncmp(to, begins, strlen(begins)) == 0)
            break;
    if (from)
        fclose(from);
    to[strcspn(to, "\n")] = 0;
}

static void print_machine(void) {
    char day[32], cpu[128], load[64];
    const time_t now = time(NULL);
    strftime(day, sizeof day, "%Y-%m-%d %H:%M UTC", gmtime(&now));
    first_line("/proc/cpuinfo", "model name", cpu, sizeof cpu);
    first_line("/proc/loadavg", "", load, sizeof load);
    const char *colon = strchr(cpu, ':');
    printf("Taken %s: %s, load %.4s at the start, gcc %s, SQLite %s, %s; the least of %zu rounds, %d arguments a call.\n", day,
           colon ? colon + 2 : cpu, load, __VERSION__, columns[JUDGED] ? columns[JUDGED]->version() : "missing",
           columns[LMDB] ? columns[LMDB]->version() : "LMDB missing", rounds, SINGLE);
}

/* The times of the series in the first so many columns; 0 where there is none. */
static void measure_columns(size_t many, double us[COLUMNS]) {
    const struct peer *present[COLUMNS];
    double times[COLUMNS];
    size_t count = 0;
    for (size_t c = 0; c < many; c++)
        if (columns[c])
            present[count++] = columns[c];
    in_turns(present, count, &series, times);
    count = 0;
    for (size_t c = 0; c < many; c++)
        us[c] = columns[c] ? times[count++] : 0;
}

static void print_columns_head(const char *first) {
    const char *const head[] = {first, "ours", "SQLite judged", "ratio", "SQLite trusting", "ratio", "LMDB trusting", "ratio"};
    table_head(head, 2 * COLUMNS);
}

/* Measures the series and prints its line; gives the ratio to a judging SQLite, 0 where there is none. */
static double print_columns(const char *first) {
    double us[COLUMNS];
    const char *cells[2 * COLUMNS] = {first};
    measure_columns(COLUMNS, us);
    cells[1] = figure(us[OURS]);
    for (size_t c = 1; c < COLUMNS; c++) {
        cells[2 * c] = figure(us[c]);
        cells[2 * c + 1] = figure(us[c] / us[OURS]);
    }
    table_row(cells, 2 * COLUMNS);
    return us[JUDGED] / us[OURS];
}

static void load(size_t many, size_t nodes, enum notes notes, struct state state) {
    content_make(&content, nodes, notes);
    ours_build(&content, state);
    for (size_t c = 0; c < many; c++)
        if (columns[c])
            columns[c]->load(&content);
}

static void keep_least(struct worst *least, double ratio, enum call call) {
    if (ratio > 0 && (least->ratio == 0 || ratio < least->ratio))
        *least = (struct worst){ratio, call};
}

static struct worst print_calls(void) {
    struct worst least = {0};
    print_columns_head("call");
    for (enum call call = 0; call < CALLS; call++) {
        series_single(&series, &content, call);
        keep_least(&least, print_columns(call_names[call]), call);
    }
    return least;
}

static void print_peers(size_t size) {
    load(COLUMNS, sizes[size], USUAL, (struct state){0});
    title("%zu nodes, %zu records, settled, in µs", content.nodes, content.nodes);
    worst_settled[size] = print_calls();
    load(COLUMNS, sizes[size], USUAL, (struct state){WAITING_MOST, BY_CALLS, PUTS});
    title("%zu nodes, %zu records, %zu puts waiting, the most that calls leave, in µs", content.nodes, content.nodes, content.waiting);
    print_calls();
}

static void print_longest(void) {
    load(COLUMNS, NODES_MOST, LONGEST, (struct state){0});
    title("%zu nodes, %zu records with values of %d bytes, settled, in µs", content.nodes, content.nodes, VALUE_MOST);
    print_calls();
}

static void print_in_a_row(void) {
    title("A put, the mean of %d in a row from a settled store, in µs", IN_A_ROW);
    print_columns_head("nodes");
    for (size_t size = 0; size < SIZES; size++) {
        char nodes[16];
        snprintf(nodes, sizeof nodes, "%zu", sizes[size]);
        load(COLUMNS, sizes[size], USUAL, (struct state){0});
        series_puts_in_a_row(&series, &content);
        ratio_in_a_row[size] = print_columns(nodes);
    }
}

static void print_worst(void) {
    static const char *const head[] = {"nodes", "settled", "call", "puts in a row", "wanted"};
    static const char *const wanted[SIZES] = {"4", "-", "1.5"};
    title("The least ratios to a judging SQLite");
    table_head(head, 5);
    for (size_t size = 0; size < SIZES; size++) {
        char nodes[16];
        snprintf(nodes, sizeof nodes, "%zu", sizes[size]);
        const char *cells[] = {nodes, figure(worst_settled[size].ratio), call_names[worst_settled[size].call], figure(ratio_in_a_row[size]),
                               wanted[size]};
        table_row(cells, 5);
    }
}

/* The least ratio to a judging SQLite of all calls in a state. */
static struct worst measure_state(size_t nodes, struct state state) {
    struct worst least = {0};
    load(JUDGED + 1, nodes, USUAL, state);
    for (enum call call = 0; call < CALLS; call++) {
        double us[COLUMNS];
        series_single(&series, &content, call);
        measure_columns(JUDGED + 1, us);
        keep_least(&least, us[JUDGED] / us[OURS], call);
    }
    return least;
}

static void print_states(void) {
    static const char *const head[] = {"nodes", "what waits", "most by calls", "ratio", "call", "most by batches", "ratio", "call",
                                       "full root", "ratio", "call"};
    title("The least ratios to a judging SQLite, by what waits in the root");
    table_head(head, 2 + 3 * WAYS);
    for (size_t size = 0; size < SIZES; size++)
        for (enum mix mix = 0; mix < MIXES; mix++) {
            char nodes[16], waiting[WAYS][16];
            snprintf(nodes, sizeof nodes, "%zu", sizes[size]);
            const char *cells[2 + 3 * WAYS] = {nodes, mix_names[mix]};
            for (enum way way = 0; way < WAYS; way++) {
                const struct worst least = measure_state(sizes[size], (struct state){WAITING_MOST, way, mix});
                snprintf(waiting[way], sizeof waiting[way], "%zu", content.waiting);
                cells[2 + 3 * way] = waiting[way];
                cells[3 + 3 * way] = figure(least.ratio);
                cells[4 + 3 * way] = call_names[least.call];
            }
            table_row(cells, 2 + 3 * WAYS);
        }
}

/* Our time of a call on the image that ours_build has made. */
static double measure_ours(enum call call) {
    const struct peer *const alone[] = {&ours};
    double us;
    ours.load(&content);
    series_single(&series, &content, call);
    in_turns(alone, 1, &series, &us);
    return us;
}

static void print_growth(void) {
    static const char *const head[] = {"nodes", "reachable nodes", "pass µs", "get µs", "get passes", "put µs", "put passes"};
    title("Growth with the size of a full, settled store");
    table_head(head, 7);
    for (size_t nodes = 32; nodes <= NODES_MOST; nodes *= 2) {
        uint16_t reachable[NODES_MOST];
        char first[16], second[16];
        content_make(&content, nodes, USUAL);
        ours_build(&content, (struct state){0});
        const double pass = pass_us(ours_pristine()), get = measure_ours(GET), put = measure_ours(PUT);
        snprintf(first, sizeof first, "%zu", nodes);
        snprintf(second, sizeof second, "%zu", image_reachable(ours_pristine(), reachable));
        const char *cells[] = {first, second, figure(pass), figure(get), figure(get / pass), figure(put), figure(put / pass)};
        table_row(cells, 7);
    }
}

static void print_waiting(void) {
    static const char *const head[] = {"messages waiting in the root", "pass µs", "get µs", "get passes"};
    static const size_t wanted[] = {0, 1, 4, 16, WAITING_MOST};
    title("Growth of get with the number of waiting messages, %d nodes", NODES_MOST);
    table_head(head, 4);
    for (size_t i = 0; i < sizeof wanted / sizeof *wanted; i++) {
        char count[32];
        content_make(&content, NODES_MOST, USUAL);
        ours_build(&content, (struct state){wanted[i], BY_HAND, PUTS});
        const double pass = pass_us(ours_pristine()), get = measure_ours(GET);
        snprintf(count, sizeof count, wanted[i] == WAITING_MOST ? "%zu (as many as fit)" : "%zu", content.waiting);
        const char *cells[] = {count, figure(pass), figure(get), figure(get / pass)};
        table_row(cells, 4);
    }
}

static void read_options(int count, char **words) {
    folder = count > 1 ? words[1] : ".";
    for (int i = 2; i < count; i++)
        if (strcmp(words[i], "--markdown") == 0)
            markdown = true;
        else if (strcmp(words[i], "--rounds") == 0 && i + 1 < count && atoi(words[i + 1]) > 0)
            rounds = (size_t)atoi(words[++i]);
        else
            fail("usage: bench/peers/run [--markdown] [--rounds N]");
}

int main(int count, char **words) {
    read_options(count, words);
    print_machine();
    for (size_t size = 0; size < SIZES; size++)
        print_peers(size);
    print_longest();
    print_in_a_row();
    if (columns[JUDGED]) {
        print_worst();
        print_states();
    }
    print_growth();
    print_waiting();
    return 0;
}
