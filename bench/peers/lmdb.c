/* LMDB as a peer: an open environment on tmpfs, no check, and no sync, which ours has none of either. Reads go by one reader that is
 * renewed, the cheapest way it offers; each change is one committed transaction. Relies on liblmdb and on the folder that run makes.
 */
#include "peers.h"

#include <fcntl.h>
#include <lmdb.h>
#include <stdio.h>
#include <string.h>
#include <unistd.h>

enum { MAP = 4 << 20, FLAGS = MDB_NOSUBDIR | MDB_NOSYNC | MDB_NOTLS };

static char file[256], copy[256];
static uint8_t pristine[MAP];
static size_t pristine_len;
static MDB_env *env;
static MDB_dbi dbi;
static MDB_txn *reader;

static void must(int status, const char *what) {
    if (status != 0)
        fail("LMDB: %s: %s", what, mdb_strerror(status));
}

static MDB_val val(const struct bytes *from) { return (MDB_val){from->len, (void *)from->at}; }

static void close_env(void) {
    if (!env)
        return;
    mdb_txn_abort(reader);
    mdb_env_close(env);
    env = NULL;
}

static void open_env(void) {
    MDB_txn *txn;
    must(mdb_env_create(&env), "create");
    must(mdb_env_set_mapsize(env, MAP), "map size");
    must(mdb_env_open(env, file, FLAGS, 0600), "open");
    must(mdb_txn_begin(env, NULL, 0, &txn), "begin");
    must(mdb_dbi_open(txn, NULL, 0, &dbi), "table");
    must(mdb_txn_commit(txn), "commit");
    must(mdb_txn_begin(env, NULL, MDB_RDONLY, &reader), "reader");
    mdb_txn_reset(reader);
}

static void write_file(void) {
    const int to = open(file, O_WRONLY | O_CREAT | O_TRUNC, 0600);
    if (to < 0 || write(to, pristine, pristine_len) != (ssize_t)pristine_len)
        fail("LMDB: cannot write %s", file);
    close(to);
}

static void read_file(void) {
    const int from = open(file, O_RDONLY);
    const ssize_t len = from < 0 ? -1 : read(from, pristine, sizeof pristine);
    if (len <= 0)
        fail("LMDB: cannot read %s", file);
    pristine_len = (size_t)len;
    close(from);
}

static uint64_t digest(void) {
    MDB_cursor *cursor;
    MDB_val key, value;
    uint64_t hash = fnv_start();
    must(mdb_txn_renew(reader), "renew");
    must(mdb_cursor_open(reader, dbi, &cursor), "cursor");
    while (mdb_cursor_get(cursor, &key, &value, MDB_NEXT) == 0)
        hash = fnv_record(hash, key.mv_data, key.mv_size, value.mv_data, value.mv_size);
    mdb_cursor_close(cursor);
    mdb_txn_reset(reader);
    return hash;
}

/* A listing reads every page once, so that none is mapped in measured time. */
static void reset(enum call call) {
    (void)call;
    close_env();
    unlink(copy);
    write_file();
    open_env();
    digest();
}

static bool get(const struct arguments *a, struct answer *answer) {
    MDB_val key = val(&a->path), value;
    bool found = mdb_txn_renew(reader) == 0 && mdb_get(reader, dbi, &key, &value) == 0;
    if (found)
        bytes_set(&answer->given, value.mv_data, value.mv_size);
    mdb_txn_reset(reader);
    return found;
}

static bool below(const MDB_val *key, const struct bytes *path) {
    return key->mv_size >= path->len && memcmp(key->mv_data, path->at, path->len) == 0;
}

static bool next(const struct arguments *a, struct answer *answer) {
    MDB_cursor *cursor;
    MDB_val key = val(&a->other), value;
    if (mdb_txn_renew(reader) != 0 || mdb_cursor_open(reader, dbi, &cursor) != 0)
        return false;
    int status = mdb_cursor_get(cursor, &key, &value, MDB_SET_RANGE);
    if (status == 0 && key.mv_size == a->other.len && memcmp(key.mv_data, a->other.at, key.mv_size) == 0)
        status = mdb_cursor_get(cursor, &key, &value, MDB_NEXT);
    const bool found = status == 0 && below(&key, &a->path);
    if (found)
        bytes_set(&answer->given, key.mv_data, key.mv_size);
    mdb_cursor_close(cursor);
    mdb_txn_reset(reader);
    return found;
}

static bool put(MDB_txn *txn, const struct bytes *path, const struct bytes *held) {
    MDB_val key = val(path), value = val(held);
    return mdb_put(txn, dbi, &key, &value, 0) == 0;
}

static bool drop(MDB_txn *txn, const struct bytes *path) {
    MDB_val key = val(path);
    return mdb_del(txn, dbi, &key, NULL) == 0;
}

/* Deletes what is below the path; keeps it in `taken`, where that is not NULL. */
static bool clear(MDB_txn *txn, const struct bytes *path, struct record *taken, size_t *count) {
    MDB_cursor *cursor;
    MDB_val key = val(path), value;
    if (mdb_cursor_open(txn, dbi, &cursor) != 0)
        return false;
    int status = mdb_cursor_get(cursor, &key, &value, MDB_SET_RANGE);
    while (status == 0 && below(&key, path)) {
        if (taken) {
            bytes_set(&taken[*count].path, key.mv_data, key.mv_size);
            bytes_set(&taken[(*count)++].value, value.mv_data, value.mv_size);
        }
        if (mdb_cursor_del(cursor, 0) != 0)
            return false;
        status = mdb_cursor_get(cursor, &key, &value, MDB_NEXT);
    }
    mdb_cursor_close(cursor);
    return true;
}

static bool move(MDB_txn *txn, const struct arguments *a) {
    static struct record taken[NODES_MOST];
    size_t count = 0;
    bool done = clear(txn, &a->other, NULL, NULL) && clear(txn, &a->path, taken, &count);
    for (size_t i = 0; done && i < count; i++) {
        struct bytes path = a->other;
        const size_t rest = taken[i].path.len - a->path.len;
        memcpy(path.at + path.len, taken[i].path.at + a->path.len, rest);
        path.len += rest;
        done = put(txn, &path, &taken[i].value);
    }
    return done;
}

static bool change(enum call call, const struct arguments *a) {
    MDB_txn *txn;
    if (mdb_txn_begin(env, NULL, 0, &txn) != 0)
        return false;
    const bool done = call == PUT    ? put(txn, &a->path, &a->value)
                      : call == DROP ? drop(txn, &a->path)
                      : call == MOVE ? move(txn, a)
                                     : clear(txn, &a->path, NULL, NULL);
    return mdb_txn_commit(txn) == 0 && done;
}

static bool run(enum call call, const struct arguments *a, struct answer *answer) {
    if (call == GET)
        return get(a, answer);
    if (call == NEXT)
        return next(a, answer);
    if (call == TIDY)
        return mdb_env_copy2(env, copy, MDB_CP_COMPACT) == 0;
    return change(call, a);
}

static void put_all(const struct record *records, size_t count) {
    MDB_txn *txn;
    must(mdb_txn_begin(env, NULL, 0, &txn), "begin");
    for (size_t i = 0; i < count; i++)
        if (!put(txn, &records[i].path, &records[i].value))
            fail("LMDB: a put failed");
    must(mdb_txn_commit(txn), "commit");
}

static void load(const struct content *content) {
    snprintf(file, sizeof file, "%s/data", folder);
    snprintf(copy, sizeof copy, "%s/copy", folder);
    close_env();
    unlink(file);
    open_env();
    put_all(content->rows, content->nodes);
    for (size_t i = 0; i < content->waiting; i++)
        if (!change(content->later[i].call, &content->later[i].arguments))
            fail("LMDB: a change failed");
    close_env();
    read_file();
}

static const char *version(void) { return mdb_version(NULL, NULL, NULL); }

const struct peer lmdb_trusting = {"LMDB, trusting", version, load, reset, run, digest, {1, 1, 1, 1, 1, 1, 0, 1}};
