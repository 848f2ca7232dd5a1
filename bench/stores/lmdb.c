// LMDB as it is by default: each commit writes the changed pages, syncs them, and writes a meta page that is synced too.
#include "store.h"
#include <lmdb.h>
#include <stdio.h>
#include <string.h>

static MDB_env *env;
static MDB_txn *txn;
static MDB_dbi tables[TABLES];

static void check(int code) { demand(code == 0, mdb_strerror(code)); }

const char *store_name(void) {
    static char name[32];
    int major, minor, patch;
    mdb_version(&major, &minor, &patch);
    snprintf(name, sizeof name, "LMDB %d.%d.%d", major, minor, patch);
    return name;
}

void store_begin(int may_write) { check(mdb_txn_begin(env, NULL, may_write ? 0 : MDB_RDONLY, &txn)); }

void store_commit(void) { check(mdb_txn_commit(txn)); }

void store_open(const char *folder) {
    check(mdb_env_create(&env));
    check(mdb_env_set_maxdbs(env, TABLES));
    check(mdb_env_set_mapsize(env, (size_t)256 << 20));
    check(mdb_env_open(env, folder, 0, 0600));
    store_begin(1);
    for (int table = 0; table < TABLES; table++) {
        char name[] = {(char)('0' + table), 0};
        check(mdb_dbi_open(txn, name, MDB_CREATE | MDB_INTEGERKEY, &tables[table]));
    }
    store_commit();
}

int store_get(enum table table, uint64_t key, uint64_t *words) {
    MDB_val name = {sizeof key, &key}, value;
    int code = mdb_get(txn, tables[table], &name, &value);
    if (code == MDB_NOTFOUND) return 0;
    check(code);
    memcpy(words, value.mv_data, value.mv_size);
    return 1;
}

void store_put(enum table table, uint64_t key, const uint64_t *words) {
    MDB_val name = {sizeof key, &key}, value = {sizeof *words * row_words[table], (void *)words};
    check(mdb_put(txn, tables[table], &name, &value, 0));
}

int store_remove(enum table table, uint64_t key) {
    MDB_val name = {sizeof key, &key};
    int code = mdb_del(txn, tables[table], &name, NULL);
    if (code == MDB_NOTFOUND) return 0;
    check(code);
    return 1;
}

void store_close(void) { mdb_env_close(env); }
