// The generated load as the stores get it, and what a store has to give. Each store is a program of its own: main.c reads
// the load and times it, one of sqlite.c, lmdb.c, rocksdb.c and berkeley.c is the store, and rows.c carries the requests
// out where a store knows no more than rows and keys.
#ifndef STORE_H
#define STORE_H
#include <stdint.h>
#ifdef __cplusplus
extern "C" {
#endif

enum kind {
    GET_SUBSCRIBER_DATA, GET_NEW_DESTINATION, GET_ACCESS_DATA, UPDATE_SUBSCRIBER_DATA, UPDATE_LOCATION,
    INSERT_CALL_FORWARDING, DELETE_CALL_FORWARDING, SYNC, KINDS
};

// Its fields are those of the request file, in order. docs/FORMATS.md has them, and what each request does.
struct request {
    enum kind kind;
    uint64_t fields[5];
};

enum reply { OK, NONE, NOFAC, DUP, REPLIES };

// The five tables of a home. A row is the words of its record behind the key and the link.
enum table { SUBSCRIBERS, NUMBERS, ACCESS, FACILITIES, CALLS, TABLES };
enum { LOCATION = 4, MOST_WORDS = 6 };
extern const int row_words[TABLES];

// The keys of a facility and of a call row.
static inline uint64_t facility_key(uint64_t s_id, uint64_t sf_type) { return 4 * s_id + sf_type - 1; }
static inline uint64_t call_key(uint64_t facility, uint64_t start_time) { return 3 * facility + start_time / 8; }

// Ends the program with these words where something doesn't hold.
void demand(int holds, const char *what);

// Its name and version.
const char *store_name(void);
// Makes a new one in this folder, which is there and empty.
void store_open(const char *folder);
// All that follows belongs to one transaction, which reads alone or may write, up to the commit. The commit of one that
// wrote returns when all of it is synced.
void store_begin(int may_write);
void store_commit(void);
// Carries a request out.
enum reply store_answer(const struct request *request);
// Gets a row, and tells whether it is there.
int store_get(enum table table, uint64_t key, uint64_t *words);
// Puts a row, over one of this key if there is one.
void store_put(enum table table, uint64_t key, const uint64_t *words);
// Removes a row, and tells whether it was there.
int store_remove(enum table table, uint64_t key);
void store_close(void);
#ifdef __cplusplus
}
#endif
#endif
