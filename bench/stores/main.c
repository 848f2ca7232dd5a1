// main FOLDER ROWS REQUESTS CHANGES FINAL SUMMARY
//
// Makes a store in FOLDER, puts the ROWS of a new database into it, carries out the REQUESTS, a request file, and writes
// the rows that stand then to FINAL. Each request is a transaction; or, where CHANGES is over 1, those up to so many
// changes are one. SUMMARY gets the summary of the load, as `drive` prints it. Prints the store's name, and with tabs
// between the microseconds from the first request to the end of the last commit, the requests and the changes.
#include "store.h"
#include <stdio.h>
#include <stdlib.h>
#include <string.h>
#include <time.h>
#include <unistd.h>

const int row_words[TABLES] = {6, 1, 2, 2, 2};
static const char *const names[KINDS] = {
    "GET_SUBSCRIBER_DATA", "GET_NEW_DESTINATION", "GET_ACCESS_DATA", "UPDATE_SUBSCRIBER_DATA", "UPDATE_LOCATION",
    "INSERT_CALL_FORWARDING", "DELETE_CALL_FORWARDING", "SYNC"
};
enum { MOST_REQUESTS = 1 << 20, MOST_LINE = 256 };
static struct request requests[MOST_REQUESTS];
static uint64_t counts[KINDS], replies[KINDS][REPLIES], subscribers;
static char line[MOST_LINE];

void demand(int holds, const char *what) {
    if (holds) return;
    fprintf(stderr, "%s: %s\n", store_name(), what);
    exit(1);
}

static FILE *file_of(const char *name, const char *mode) {
    FILE *file = fopen(name, mode);
    demand(file != NULL, name);
    return file;
}

// Each line has the number of a table, a key and the words of a row, with spaces between.
static void put_rows(const char *name) {
    FILE *file = file_of(name, "r");
    store_begin(1);
    while (fgets(line, MOST_LINE, file)) {
        char *rest;
        enum table table = strtoul(line, &rest, 10);
        uint64_t key = strtoull(rest, &rest, 10), words[MOST_WORDS];
        for (int word = 0; word < row_words[table]; word++) words[word] = strtoull(rest, &rest, 10);
        store_put(table, key, words);
        subscribers += table == SUBSCRIBERS;
    }
    store_commit();
    fclose(file);
}

// The rows of all keys that there may be.
static void write_rows(const char *name) {
    FILE *file = file_of(name, "w");
    store_begin(0);
    for (enum table table = 0; table < TABLES; table++) {
        for (uint64_t key = 0; key < 12 * (subscribers + 1); key++) {
            uint64_t words[MOST_WORDS];
            if (!store_get(table, key, words)) continue;
            fprintf(file, "%d %llu", (int)table, (unsigned long long)key);
            for (int word = 0; word < row_words[table]; word++) fprintf(file, " %llu", (unsigned long long)words[word]);
            fprintf(file, "\n");
        }
    }
    store_commit();
    fclose(file);
}

static int read_requests(const char *name) {
    FILE *file = file_of(name, "r");
    int count = 0;
    for (; fgets(line, MOST_LINE, file); count++) {
        demand(count < MOST_REQUESTS, "too many requests");
        struct request *request = &requests[count];
        char *word = strtok(line, ",\n");
        while (request->kind < KINDS && strcmp(word, names[request->kind]) != 0) request->kind++;
        demand(request->kind < KINDS, word);
        for (int field = 0; (word = strtok(NULL, ",\n")); field++) request->fields[field] = strtoull(word, NULL, 10);
    }
    fclose(file);
    return count;
}

// Carries the requests out, and counts the changes.
static long run(int count, long most) {
    long changes = 0, waiting = 0;
    int open = 0;
    for (int index = 0; index < count; index++) {
        enum kind kind = requests[index].kind;
        int may_write = kind >= UPDATE_SUBSCRIBER_DATA && kind != SYNC;
        if (!open) store_begin(may_write || most > 1);
        enum reply reply = store_answer(&requests[index]);
        counts[kind]++;
        replies[kind][reply]++;
        waiting += may_write && reply == OK;
        changes += may_write && reply == OK;
        open = most > 1 && waiting < most && kind != SYNC && index + 1 < count;
        if (!open) {
            store_commit();
            waiting = 0;
        }
    }
    return changes;
}

static void write_summary(const char *name) {
    FILE *file = file_of(name, "w");
    for (enum kind kind = 0; kind < KINDS; kind++) {
        fprintf(file, "%s %llu", names[kind], (unsigned long long)counts[kind]);
        for (enum reply reply = 0; reply < REPLIES; reply++)
            fprintf(file, " %llu", (unsigned long long)(kind == SYNC ? 0 : replies[kind][reply]));
        fprintf(file, " 0\n");
    }
    fclose(file);
}

int main(int count, char **words) {
    struct timespec start, end;
    demand(count == 7, "main FOLDER ROWS REQUESTS CHANGES FINAL SUMMARY");
    store_open(words[1]);
    put_rows(words[2]);
    int many = read_requests(words[3]);
    // What was written up to now, also by earlier runs, isn't left to be written in the time.
    sync();
    clock_gettime(CLOCK_MONOTONIC, &start);
    long changes = run(many, atol(words[4]));
    clock_gettime(CLOCK_MONOTONIC, &end);
    write_rows(words[5]);
    write_summary(words[6]);
    store_close();
    long micros = (end.tv_sec - start.tv_sec) * 1000000 + (end.tv_nsec - start.tv_nsec) / 1000;
    printf("%s\t%ld\t%d\t%ld\n", store_name(), micros, many, changes);
    return 0;
}
