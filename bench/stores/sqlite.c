// SQLite with a write-ahead log that each commit syncs (journal_mode WAL, synchronous FULL), and otherwise as it is by
// default. The requests are statements of SQL. A row has the words of a home's row, and the numbers are an index.
#include "store.h"
#include <sqlite3.h>
#include <stdio.h>
#include <string.h>

static sqlite3 *db;

static const char schema[] =
    "PRAGMA journal_mode = WAL; PRAGMA synchronous = FULL;"
    "CREATE TABLE subscribers (s_id INTEGER PRIMARY KEY, bits INTEGER, low INTEGER, high INTEGER, msc_location INTEGER,"
    " vlr_location INTEGER, sub_nbr INTEGER UNIQUE);"
    "CREATE TABLE access (key INTEGER PRIMARY KEY, first INTEGER, second INTEGER);"
    "CREATE TABLE facilities (key INTEGER PRIMARY KEY, flags INTEGER, data_b INTEGER);"
    "CREATE TABLE calls (key INTEGER PRIMARY KEY, end_time INTEGER, numberx INTEGER);";

// A statement for each thing that is done, prepared at its first use.
enum statement {
    BEGIN, COMMIT, GET, PUT = GET + TABLES, REMOVE = PUT + TABLES, FIND_CALLS, SET_BIT, SET_DATA, SET_LOCATION, STATEMENTS
};
static const char *const texts[STATEMENTS] = {
    [BEGIN] = "BEGIN",
    [COMMIT] = "COMMIT",
    [GET + SUBSCRIBERS] = "SELECT bits, low, high, msc_location, vlr_location, sub_nbr FROM subscribers WHERE s_id = ?",
    [GET + NUMBERS] = "SELECT s_id FROM subscribers WHERE sub_nbr = ?",
    [GET + ACCESS] = "SELECT first, second FROM access WHERE key = ?",
    [GET + FACILITIES] = "SELECT flags, data_b FROM facilities WHERE key = ?",
    [GET + CALLS] = "SELECT end_time, numberx FROM calls WHERE key = ?",
    [PUT + SUBSCRIBERS] = "INSERT INTO subscribers VALUES (?, ?, ?, ?, ?, ?, ?)",
    [PUT + ACCESS] = "INSERT INTO access VALUES (?, ?, ?)",
    [PUT + FACILITIES] = "INSERT INTO facilities VALUES (?, ?, ?)",
    [PUT + CALLS] = "INSERT INTO calls VALUES (?, ?, ?)",
    [REMOVE] = "DELETE FROM calls WHERE key = ?",
    [FIND_CALLS] = "SELECT numberx FROM calls WHERE key BETWEEN ? AND ? AND end_time > ? ORDER BY key",
    [SET_BIT] = "UPDATE subscribers SET bits = bits & ~1 | ? WHERE s_id = ?",
    [SET_DATA] = "UPDATE facilities SET flags = flags & 65535 | ? WHERE key = ?",
    [SET_LOCATION] = "UPDATE subscribers SET vlr_location = ? WHERE sub_nbr = ?",
};
static sqlite3_stmt *statements[STATEMENTS];

static void check(int code) { demand(code == SQLITE_OK, sqlite3_errmsg(db)); }

// Runs a statement with these values. Counts its rows, and puts the first one's columns into `words` where they are wanted.
static int run(enum statement which, int count, const uint64_t *values, uint64_t *words) {
    int rows = 0, code;
    if (!statements[which]) check(sqlite3_prepare_v2(db, texts[which], -1, &statements[which], NULL));
    sqlite3_stmt *statement = statements[which];
    for (int at = 0; at < count; at++) check(sqlite3_bind_int64(statement, at + 1, (sqlite3_int64)values[at]));
    for (; (code = sqlite3_step(statement)) == SQLITE_ROW; rows++)
        for (int at = 0; words && rows == 0 && at < sqlite3_column_count(statement); at++)
            words[at] = (uint64_t)sqlite3_column_int64(statement, at);
    demand(code == SQLITE_DONE, sqlite3_errmsg(db));
    check(sqlite3_reset(statement));
    return rows;
}
#define RUN(which, ...) run(which, sizeof(uint64_t[]){__VA_ARGS__} / sizeof(uint64_t), (uint64_t[]){__VA_ARGS__}, NULL)

const char *store_name(void) {
    static char name[32];
    snprintf(name, sizeof name, "SQLite %s", sqlite3_libversion());
    return name;
}

void store_open(const char *folder) {
    char name[4096];
    snprintf(name, sizeof name, "%s/store.db", folder);
    check(sqlite3_open(name, &db));
    check(sqlite3_exec(db, schema, NULL, NULL, NULL));
}

void store_begin(int may_write) {
    (void)may_write;
    run(BEGIN, 0, NULL, NULL);
}

void store_commit(void) { run(COMMIT, 0, NULL, NULL); }

int store_get(enum table table, uint64_t key, uint64_t *words) { return run(GET + table, 1, &key, words); }

void store_put(enum table table, uint64_t key, const uint64_t *words) {
    uint64_t values[1 + MOST_WORDS] = {key};
    if (table == NUMBERS) return;
    memcpy(values + 1, words, sizeof *words * row_words[table]);
    run(PUT + table, 1 + row_words[table], values, NULL);
}

static enum reply insert_call(const uint64_t *fields) {
    uint64_t number[1];
    if (!store_get(NUMBERS, fields[0], number)) return NONE;
    uint64_t facility = facility_key(number[0], fields[1]), key = call_key(facility, fields[2]);
    if (!RUN(GET + FACILITIES, facility)) return NOFAC;
    if (RUN(GET + CALLS, key)) return DUP;
    RUN(PUT + CALLS, key, fields[3], fields[4]);
    return OK;
}

enum reply store_answer(const struct request *request) {
    const uint64_t *fields = request->fields;
    uint64_t words[MOST_WORDS], facility = facility_key(fields[0], fields[1]);
    switch (request->kind) {
    case GET_SUBSCRIBER_DATA: return store_get(SUBSCRIBERS, fields[0], words) ? OK : NONE;
    case GET_NEW_DESTINATION:
        if (!store_get(FACILITIES, facility, words) || !(words[0] & 0xFF)) return NONE;
        return RUN(FIND_CALLS, call_key(facility, 0), call_key(facility, fields[2]), fields[3]) ? OK : NONE;
    case GET_ACCESS_DATA: return store_get(ACCESS, facility, words) ? OK : NONE;
    case UPDATE_SUBSCRIBER_DATA:
        facility = facility_key(fields[0], fields[2]);
        if (!RUN(GET + SUBSCRIBERS, fields[0]) || !RUN(GET + FACILITIES, facility)) return NONE;
        RUN(SET_BIT, fields[1], fields[0]);
        RUN(SET_DATA, fields[3] << 16, facility);
        return OK;
    case UPDATE_LOCATION:
        RUN(SET_LOCATION, fields[1], fields[0]);
        return sqlite3_changes(db) ? OK : NONE;
    case INSERT_CALL_FORWARDING: return insert_call(fields);
    case DELETE_CALL_FORWARDING:
        if (!store_get(NUMBERS, fields[0], words)) return NONE;
        RUN(REMOVE, call_key(facility_key(words[0], fields[1]), fields[2]));
        return sqlite3_changes(db) ? OK : NONE;
    default: return OK;
    }
}

void store_close(void) {
    for (int which = 0; which < STATEMENTS; which++) check(sqlite3_finalize(statements[which]));
    check(sqlite3_close(db));
}
