/* SQLite as two peers. Judged: handed the bytes anew (sqlite3_deserialize on a connection that stays open), PRAGMA integrity_check, then
 * the call, its statement prepared anew since the schema is. Trusting: the bytes are open and read, the statement is prepared, nothing
 * is checked. The database stays in memory, its journal too. Relies on libsqlite3.
 */
#include "peers.h"

#include <sqlite3.h>
#include <string.h>

enum { ROOM = 1 << 20, STATEMENTS = 4 };

static uint8_t pristine[ROOM];
static size_t pristine_len;

/* A connection, the bytes that it is handed and the call's statements, for each peer its own. */
static struct session {
    sqlite3 *db;
    uint8_t buffer[ROOM];
    sqlite3_stmt *statements[STATEMENTS];
} judging, trusting;

/* ?1 path, ?2 its end, ?3 other, ?4 its end, ?5 value. */
static const char *const texts[CALLS][STATEMENTS] = {
    [GET] = {"SELECT value FROM log WHERE path = ?1"},
    [NEXT] = {"SELECT path FROM log WHERE path > ?3 AND path >= ?1 AND path < ?2 ORDER BY path LIMIT 1"},
    [PUT] = {"REPLACE INTO log VALUES (?1, ?5)"},
    [DROP] = {"DELETE FROM log WHERE path = ?1"},
    [CLEAR] = {"DELETE FROM log WHERE path >= ?1 AND path < ?2"},
    [MOVE] = {"BEGIN", "DELETE FROM log WHERE path >= ?3 AND path < ?4",
              "UPDATE log SET path = CAST(?3 || substr(path, length(?1) + 1) AS BLOB) WHERE path >= ?1 AND path < ?2", "COMMIT"},
    [TIDY] = {"VACUUM"},
};

static void must(const struct session *s, int status, const char *what) {
    if (status != SQLITE_OK)
        fail("SQLite: %s: %s", what, sqlite3_errmsg(s->db));
}

static void execute(struct session *s, const char *text) { must(s, sqlite3_exec(s->db, text, NULL, NULL, NULL), text); }

static sqlite3_stmt *prepared(struct session *s, const char *text) {
    sqlite3_stmt *made;
    must(s, sqlite3_prepare_v2(s->db, text, -1, &made, NULL), text);
    return made;
}

static void prepare(struct session *s, enum call call) {
    for (size_t i = 0; i < STATEMENTS && texts[call][i]; i++)
        s->statements[i] = prepared(s, texts[call][i]);
}

static void finalize(struct session *s) {
    for (size_t i = 0; i < STATEMENTS; i++) {
        sqlite3_finalize(s->statements[i]);
        s->statements[i] = NULL;
    }
}

/* Only those that the statement names; SQLite refuses others. */
static void bind(sqlite3_stmt *statement, const struct arguments *a) {
    const struct bytes *const all[] = {&a->path, &a->path_end, &a->other, &a->other_end, &a->value};
    const int count = sqlite3_bind_parameter_count(statement);
    for (int i = 0; i < count; i++)
        sqlite3_bind_blob(statement, i + 1, all[i]->at, (int)all[i]->len, SQLITE_STATIC);
}

static bool step(sqlite3_stmt *statement, const struct arguments *a, struct answer *answer) {
    bind(statement, a);
    int status = sqlite3_step(statement);
    if (status == SQLITE_ROW) {
        bytes_set(&answer->given, sqlite3_column_blob(statement, 0), (size_t)sqlite3_column_bytes(statement, 0));
        status = SQLITE_DONE;
    }
    sqlite3_reset(statement);
    return status == SQLITE_DONE;
}

static bool run_prepared(struct session *s, const struct arguments *a, struct answer *answer) {
    bool done = true;
    for (size_t i = 0; i < STATEMENTS && s->statements[i]; i++)
        done &= step(s->statements[i], a, answer);
    return done;
}

/* How long the database in the buffer is, by its own header: the page size at 16 and the number of pages at 28, high byte first. */
static sqlite3_int64 length(const uint8_t *at) {
    const sqlite3_int64 page = at[16] << 8 | at[17], pages = (sqlite3_int64)at[28] << 24 | at[29] << 16 | at[30] << 8 | at[31];
    return page * pages;
}

/* The buffer is the database from here on: changes are made in it, as in our caller's array. */
static void hand_over(struct session *s) {
    must(s, sqlite3_deserialize(s->db, "main", s->buffer, length(s->buffer), sizeof s->buffer, 0), "deserialize");
}

static void check(struct session *s) {
    sqlite3_stmt *statement = prepared(s, "PRAGMA integrity_check");
    if (sqlite3_step(statement) != SQLITE_ROW || strcmp((const char *)sqlite3_column_text(statement, 0), "ok") != 0)
        fail("SQLite: integrity_check finds damage");
    sqlite3_finalize(statement);
}

static void reset(struct session *s) {
    finalize(s);
    memcpy(s->buffer, pristine, pristine_len);
}

static void reset_judged(enum call call) {
    (void)call;
    reset(&judging);
}

/* There is something to finalize only in a row. */
static bool run_judged(enum call call, const struct arguments *a, struct answer *answer) {
    finalize(&judging);
    hand_over(&judging);
    check(&judging);
    prepare(&judging, call);
    return run_prepared(&judging, a, answer);
}

/* Every page is read once, so that none is fetched in measured time. */
static void reset_trusting(enum call call) {
    reset(&trusting);
    hand_over(&trusting);
    prepare(&trusting, call);
    execute(&trusting, "SELECT sum(length(path) + length(value)) FROM log");
}

static bool run_trusting(enum call call, const struct arguments *a, struct answer *answer) {
    (void)call;
    return run_prepared(&trusting, a, answer);
}

static uint64_t digest(struct session *s) {
    sqlite3_stmt *all = prepared(s, "SELECT path, value FROM log ORDER BY path");
    uint64_t hash = fnv_start();
    while (sqlite3_step(all) == SQLITE_ROW)
        hash = fnv_record(hash, sqlite3_column_blob(all, 0), (size_t)sqlite3_column_bytes(all, 0), sqlite3_column_blob(all, 1),
                          (size_t)sqlite3_column_bytes(all, 1));
    sqlite3_finalize(all);
    return hash;
}

static uint64_t digest_judged(void) { return digest(&judging); }
static uint64_t digest_trusting(void) { return digest(&trusting); }

static void put_all(struct session *s, const struct record *records, size_t count) {
    prepare(s, PUT);
    execute(s, "BEGIN");
    for (size_t i = 0; i < count; i++) {
        const struct arguments arguments = {.path = records[i].path, .value = records[i].value};
        struct answer none;
        if (!step(s->statements[0], &arguments, &none))
            fail("SQLite: a put failed: %s", sqlite3_errmsg(s->db));
    }
    execute(s, "COMMIT");
    finalize(s);
}

static void change_all(struct session *s, const struct change *changes, size_t count) {
    for (size_t i = 0; i < count; i++) {
        struct answer none;
        prepare(s, changes[i].call);
        if (!run_prepared(s, &changes[i].arguments, &none))
            fail("SQLite: a change failed: %s", sqlite3_errmsg(s->db));
        finalize(s);
    }
}

static void keep_pristine(struct session *s) {
    sqlite3_int64 size = 0;
    unsigned char *bytes = sqlite3_serialize(s->db, "main", &size, 0);
    if (!bytes || size > ROOM / 2)
        fail("SQLite: serialize gives %lld bytes", (long long)size);
    pristine_len = (size_t)size;
    memcpy(pristine, bytes, pristine_len);
    sqlite3_free(bytes);
}

/* Packed by VACUUM, as ours is by tidy, and then the later changes. */
static void load(struct session *s, const struct content *content) {
    finalize(s);
    sqlite3_close(s->db);
    must(s, sqlite3_open(":memory:", &s->db), "open");
    execute(s, "PRAGMA temp_store = MEMORY");
    execute(s, "CREATE TABLE log (path BLOB PRIMARY KEY, value BLOB NOT NULL) WITHOUT ROWID");
    put_all(s, content->rows, content->nodes);
    execute(s, "VACUUM");
    change_all(s, content->later, content->waiting);
    keep_pristine(s);
}

static void load_judged(const struct content *content) { load(&judging, content); }
static void load_trusting(const struct content *content) { load(&trusting, content); }

static const char *version(void) { return sqlite3_libversion(); }

const struct peer sqlite_judged = {"SQLite, judged", version,       load_judged,  reset_judged,
                                   run_judged,       digest_judged, {1, 1, 1, 1, 1, 1, 0, 1}};
const struct peer sqlite_trusting = {"SQLite, trusting", version,         load_trusting, reset_trusting,
                                     run_trusting,       digest_trusting, {1, 1, 1, 1, 1, 1, 0, 1}};
