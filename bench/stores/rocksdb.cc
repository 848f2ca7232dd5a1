// RocksDB as it is by default, each write with WriteOptions.sync. A transaction is a batch with an index, so that it reads
// what it wrote; it is written as one, and the log is synced.
#include "store.h"
#include <cstring>
#include <rocksdb/db.h>
#include <rocksdb/utilities/write_batch_with_index.h>
#include <rocksdb/version.h>
#include <string>

using namespace rocksdb;

static DB *db;
static WriteOptions writes;
static WriteBatchWithIndex batch(BytewiseComparator(), 0, true);

static void check(const Status &status) { demand(status.ok(), status.ToString().c_str()); }

const char *store_name() {
    static const std::string name = "RocksDB " + GetRocksVersionAsString();
    return name.c_str();
}

void store_open(const char *folder) {
    Options options;
    options.create_if_missing = true;
    writes.sync = true;
    check(DB::Open(options, folder, &db));
}

void store_begin(int) {}

void store_commit() {
    if (batch.GetWriteBatch()->Count() == 0) return;
    check(db->Write(writes, batch.GetWriteBatch()));
    batch.Clear();
}

// The tables are one space of keys, with the table in the highest byte. They stand in the order of bytes, so that comes first.
static Slice name_of(enum table table, uint64_t *key) {
    *key = __builtin_bswap64((uint64_t)table << 56 | *key);
    return Slice((const char *)key, sizeof *key);
}

int store_get(enum table table, uint64_t key, uint64_t *words) {
    static std::string value;
    Slice name = name_of(table, &key);
    bool is_empty = batch.GetWriteBatch()->Count() == 0;
    Status status = is_empty ? db->Get(ReadOptions(), name, &value) : batch.GetFromBatchAndDB(db, ReadOptions(), name, &value);
    if (status.IsNotFound()) return 0;
    check(status);
    memcpy(words, value.data(), value.size());
    return 1;
}

void store_put(enum table table, uint64_t key, const uint64_t *words) {
    check(batch.Put(name_of(table, &key), Slice((const char *)words, sizeof *words * row_words[table])));
}

int store_remove(enum table table, uint64_t key) {
    uint64_t row[MOST_WORDS];
    if (!store_get(table, key, row)) return 0;
    check(batch.Delete(name_of(table, &key)));
    return 1;
}

void store_close() { delete db; }
