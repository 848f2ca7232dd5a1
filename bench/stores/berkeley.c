// Berkeley DB with transactions, locks and its log, which each commit syncs, as it is by default.
#include "store.h"
#include <db.h>
#include <stdio.h>

static DB_ENV *env;
static DB_TXN *txn;
static DB *tables[TABLES];

static void check(int code) { demand(code == 0, db_strerror(code)); }

const char *store_name(void) {
    static char name[32];
    int major, minor, patch;
    db_version(&major, &minor, &patch);
    snprintf(name, sizeof name, "Berkeley DB %d.%d.%d", major, minor, patch);
    return name;
}

void store_begin(int may_write) {
    (void)may_write;
    check(env->txn_begin(env, NULL, &txn, 0));
}

void store_commit(void) { check(txn->commit(txn, 0)); }

void store_open(const char *folder) {
    check(db_env_create(&env, 0));
    check(env->set_cachesize(env, 0, 64 << 20, 1));
    // A transaction locks each page that it meets, and the population is put by one.
    check(env->set_lk_max_locks(env, 100000));
    check(env->set_lk_max_objects(env, 100000));
    check(env->open(env, folder, DB_CREATE | DB_INIT_MPOOL | DB_INIT_LOCK | DB_INIT_LOG | DB_INIT_TXN, 0600));
    for (int table = 0; table < TABLES; table++) {
        char name[] = {(char)('0' + table), 0};
        check(db_create(&tables[table], env, 0));
        check(tables[table]->open(tables[table], NULL, name, NULL, DB_BTREE, DB_CREATE | DB_AUTO_COMMIT, 0600));
    }
}

// Keys stand in the order of bytes, so the highest one comes first.
static DBT name_of(uint64_t *key) {
    *key = __builtin_bswap64(*key);
    return (DBT){.data = key, .size = sizeof *key};
}

int store_get(enum table table, uint64_t key, uint64_t *words) {
    DBT name = name_of(&key), value = {.data = words, .ulen = sizeof *words * MOST_WORDS, .flags = DB_DBT_USERMEM};
    int code = tables[table]->get(tables[table], txn, &name, &value, 0);
    if (code == DB_NOTFOUND) return 0;
    check(code);
    return 1;
}

void store_put(enum table table, uint64_t key, const uint64_t *words) {
    DBT name = name_of(&key), value = {.data = (void *)words, .size = sizeof *words * row_words[table]};
    check(tables[table]->put(tables[table], txn, &name, &value, 0));
}

int store_remove(enum table table, uint64_t key) {
    DBT name = name_of(&key);
    int code = tables[table]->del(tables[table], txn, &name, 0);
    if (code == DB_NOTFOUND) return 0;
    check(code);
    return 1;
}

void store_close(void) {
    for (int table = 0; table < TABLES; table++) check(tables[table]->close(tables[table], 0));
    check(env->close(env, 0));
}
