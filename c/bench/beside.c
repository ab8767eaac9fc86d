/* beside.c: what LMDB and SQLite do with a reader that stays and with a byte that changed, as the table of README.md has it. No
 * part of the layer, and no test: a run says what is so of the versions at hand.
 *
 *     cc -O2 c/bench/beside.c -llmdb -lsqlite3 -o beside && ./beside DIRECTORY          an empty one */
#define _DEFAULT_SOURCE
#include <lmdb.h>
#include <sqlite3.h>
#include <stdio.h>
#include <stdlib.h>
#include <string.h>
#include <sys/stat.h>
#include <unistd.h>

enum { COMMITS = 5000 };

static void sure(int right, const char *what)
{
    if (right)
        return;
    fprintf(stderr, "beside: %s\n", what);
    exit(1);
}

static long size(const char *path)
{
    struct stat now;
    return stat(path, &now) ? 0 : (long)now.st_size;
}

/* Puts `new` in the place of every `old` in a file, which is as long, and answers how often. */
static int change(const char *path, const char *old, const char *new)
{
    long length = size(path), n = (long)strlen(old);
    char *bytes = malloc((size_t)length);
    FILE *file = fopen(path, "r+b");
    int count = 0;
    sure(file && bytes && fread(bytes, 1, (size_t)length, file) == (size_t)length, path);
    for (long i = 0; i + n <= length; i++)
        if (memcmp(bytes + i, old, (size_t)n) == 0)
            memcpy(bytes + i, new, (size_t)n), count++;
    rewind(file);
    sure(fwrite(bytes, 1, (size_t)length, file) == (size_t)length && fclose(file) == 0, path);
    free(bytes);
    return count;
}

/* LMDB */

static MDB_env *lmdb_open(const char *path, size_t map, MDB_dbi *dbi)
{
    MDB_env *env;
    MDB_txn *txn;
    sure(!mdb_env_create(&env) && !mdb_env_set_mapsize(env, map), path);
    sure(!mdb_env_open(env, path, MDB_NOSUBDIR | MDB_NOSYNC, 0644), path);
    sure(!mdb_txn_begin(env, NULL, 0, &txn) && !mdb_dbi_open(txn, NULL, 0, dbi) && !mdb_txn_commit(txn), path);
    return env;
}

static int lmdb_put(MDB_env *env, MDB_dbi dbi, const char *text)
{
    MDB_val key = {1, "k"}, value = {strlen(text) + 1, (void *)text};
    MDB_txn *txn;
    int refused = mdb_txn_begin(env, NULL, 0, &txn);
    if (refused == 0 && (refused = mdb_put(txn, dbi, &key, &value, 0)) != 0)
        mdb_txn_abort(txn);
    else if (refused == 0)
        refused = mdb_txn_commit(txn);
    return refused;
}

static const char *lmdb_get(MDB_txn *txn, MDB_dbi dbi)
{
    MDB_val key = {1, "k"}, value;
    return mdb_get(txn, dbi, &key, &value) ? "nothing" : value.mv_data;
}

static void lmdb_reader(const char *path, int stays, size_t map)
{
    MDB_dbi dbi;
    MDB_env *env = lmdb_open(path, map, &dbi);
    MDB_txn *reader = NULL;
    int done = 0, refused = lmdb_put(env, dbi, "first");
    sure(!refused && (!stays || !mdb_txn_begin(env, NULL, MDB_RDONLY, &reader)), path);
    for (; done < COMMITS && refused == 0; done++) {
        char text[32];
        snprintf(text, sizeof text, "value %d", done);
        refused = lmdb_put(env, dbi, text);
    }
    printf("  %s: %d commits%s%s, file of %ld bytes", stays ? "a reader stays" : "no reader", done,
           refused ? ", the last refused: " : "", refused ? mdb_strerror(refused) : "", size(path));
    printf(stays ? ", the reader sees '%s'\n" : "\n", stays ? lmdb_get(reader, dbi) : "");
    if (stays)
        mdb_txn_abort(reader);
    mdb_env_close(env);
}

static void lmdb_damage(const char *path)
{
    MDB_dbi dbi;
    MDB_env *env = lmdb_open(path, 1 << 20, &dbi);
    MDB_txn *reader;
    sure(!lmdb_put(env, dbi, "pull 100 kN"), path);
    mdb_env_close(env);
    sure(change(path, "pull 100 kN", "pull 900 kN"), path);
    env = lmdb_open(path, 1 << 20, &dbi);
    sure(!mdb_txn_begin(env, NULL, MDB_RDONLY, &reader), path);
    printf("  a changed byte: read as '%s'\n", lmdb_get(reader, dbi));
    mdb_txn_abort(reader);
    mdb_env_close(env);
}

/* SQLite */

static sqlite3 *sqlite_open(const char *path)
{
    sqlite3 *db;
    sure(sqlite3_open(path, &db) == SQLITE_OK, path);
    return db;
}

static void sqlite_do(sqlite3 *db, const char *sql)
{
    sure(sqlite3_exec(db, sql, NULL, NULL, NULL) == SQLITE_OK, sql);
}

static const char *sqlite_text(sqlite3 *db, const char *sql)
{
    static char text[200];
    sqlite3_stmt *ask;
    sure(sqlite3_prepare_v2(db, sql, -1, &ask, NULL) == SQLITE_OK && sqlite3_step(ask) == SQLITE_ROW, sql);
    snprintf(text, sizeof text, "%s", (const char *)sqlite3_column_text(ask, 0));
    sqlite3_finalize(ask);
    return text;
}

static void sqlite_reader(const char *path, const char *log, int stays)
{
    sqlite3 *writer = sqlite_open(path), *reader = sqlite_open(path);
    sqlite_do(writer, "pragma journal_mode = wal; pragma synchronous = off; create table t (v text); insert into t values ('first')");
    if (stays) {
        sqlite_do(reader, "begin");
        sqlite_text(reader, "select v from t");
    }
    for (int i = 0; i < COMMITS; i++)
        sqlite_do(writer, "update t set v = v || '.'; update t set v = 'later'");
    printf("  %s: %d commits, log of %ld bytes", stays ? "a reader stays" : "no reader", 2 * COMMITS, size(log));
    sqlite3_exec(writer, "pragma wal_checkpoint(truncate)", NULL, NULL, NULL);
    printf(", of %ld after a checkpoint", size(log));
    printf(stays ? ", the reader sees '%s'\n" : "\n", stays ? sqlite_text(reader, "select v from t") : "");
    sqlite3_close(reader);
    sqlite3_close(writer);
}

static void sqlite_damage(const char *path)
{
    sqlite3 *db = sqlite_open(path);
    sqlite_do(db, "create table t (v text); insert into t values ('pull 100 kN')");
    sqlite3_close(db);
    sure(change(path, "pull 100 kN", "pull 900 kN"), path);
    db = sqlite_open(path);
    printf("  a changed byte in the file: read as '%s'", sqlite_text(db, "select v from t"));
    printf(", integrity_check says '%s'\n", sqlite_text(db, "pragma integrity_check"));
    sqlite3_close(db);
}

/* A database whose log has two commits more, of which the first has a changed byte; its writer is cut off. */
static void sqlite_log_damage(const char *path, const char *log, const char *copy, const char *copied_log)
{
    char command[1000];
    sqlite3 *db = sqlite_open(path);
    sqlite_do(db, "pragma journal_mode = wal; create table t (v text); insert into t values ('one')");
    sqlite_do(db, "pragma wal_checkpoint(truncate)");
    sqlite_do(db, "insert into t values ('two')");
    sqlite_do(db, "insert into t values ('three')");
    snprintf(command, sizeof command, "cp %s %s && cp %s %s", path, copy, log, copied_log);
    sure(system(command) == 0, command);
    sqlite3_close(db);
    sure(change(copied_log, "two", "TWO"), copied_log);
    db = sqlite_open(copy);
    printf("  a changed byte in the log, in the first of two commits: recovered '%s'\n",
           sqlite_text(db, "select group_concat(v) from t"));
    sqlite3_close(db);
}

int main(int count, char **words)
{
    sure(count == 2 && chdir(words[1]) == 0, "usage: beside DIRECTORY");
    printf("%s\n", mdb_version(NULL, NULL, NULL));
    lmdb_reader("a.mdb", 0, 64 << 20);
    lmdb_reader("b.mdb", 1, 64 << 20);
    lmdb_reader("c.mdb", 1, 4 << 20);
    lmdb_damage("d.mdb");
    printf("SQLite %s, write-ahead log\n", sqlite3_libversion());
    sqlite_reader("a.db", "a.db-wal", 0);
    sqlite_reader("b.db", "b.db-wal", 1);
    sqlite_damage("c.db");
    sqlite_log_damage("d.db", "d.db-wal", "e.db", "e.db-wal");
    return 0;
}
