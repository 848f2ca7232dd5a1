// main IMAGE SEED COUNT THREADS LOCKS
//
// Carries out the load of `drive SEED COUNT THREADS` on the home of a new IMAGE, in a transactional memory that keeps
// nothing: each thread makes a file's requests, waits for the others, and carries them out. Prints on standard output the
// summary that `drive` prints, and on standard error, with tabs between, the microseconds from the first request carried out to
// the end of the last thread, the requests, the changes, the transactions that were begun anew, and the microseconds from the
// start of the threads to the printed summary: that is all that `drive` does once its image is open, but for keeping replies.
#include "home.h"
#include <pthread.h>
#include <stdio.h>
#include <stdlib.h>
#include <time.h>

enum { MOST_THREADS = 16, HEADER = 16, LINE = 8 };
static const char *const names[KINDS] = {
    "GET_SUBSCRIBER_DATA", "GET_NEW_DESTINATION", "GET_ACCESS_DATA", "UPDATE_SUBSCRIBER_DATA", "UPDATE_LOCATION",
    "INSERT_CALL_FORWARDING", "DELETE_CALL_FORWARDING", "SYNC"
};
// Of the first request for which w0 mod 100 is less.
static const uint32_t shares[SYNC] = {35, 45, 80, 82, 96, 98, 100};

struct worker {
    _Alignas(64) struct transaction transaction;
    pthread_t thread;
    struct timespec ready;
    struct request *requests;
    uint64_t seed, file, files, subscribers, count, sum, changes, replies[KINDS][REPLIES];
};
static struct worker workers[MOST_THREADS];
static pthread_barrier_t made;

struct generator { uint64_t state, step; };

static uint32_t next(struct generator *it) {
    uint64_t old = it->state;
    uint32_t mixed = (uint32_t)(((old >> 18) ^ old) >> 27), turned = (uint32_t)(old >> 59);
    it->state = old * 6364136223846793005u + it->step;
    return mixed >> turned | mixed << (-turned & 31);
}

static struct generator generator_of(uint64_t seed, uint64_t stream) {
    struct generator it = {0, stream << 1 | 1};
    it.state = seed + it.step;
    next(&it);
    return it;
}

// The request of the next seven words of file `file` of `files`, each of which has so many subscribers of its own.
static struct request request_of(struct generator *it, uint64_t file, uint64_t files, uint64_t own) {
    uint32_t word[7];
    struct request made = {0};
    for (int at = 0; at < 7; at++) word[at] = next(it);
    while (word[0] % 100 >= shares[made.kind]) made.kind++;
    made.subscriber = 1 + file + files * (word[1] % own);
    made.type = 1 + word[2] % 4;
    made.start_time = 8 * (word[3] % 3);
    made.end_time = 1 + word[4] % 24;
    made.value = made.kind == INSERT_CALL_FORWARDING ? word[6] : word[5];
    made.bit = word[6] % 2;
    return made;
}

static void demand(int holds, const char *what) {
    if (holds) return;
    fprintf(stderr, "%s\n", what);
    exit(1);
}

static void make_requests(struct worker *worker) {
    struct generator generator = generator_of(worker->seed, worker->file);
    worker->requests = malloc(worker->count * sizeof *worker->requests);
    demand(worker->requests != NULL || worker->count == 0, "no memory");
    for (uint64_t at = 0; at < worker->count; at++)
        worker->requests[at] = request_of(&generator, worker->file, worker->files, worker->subscribers / worker->files);
}

static void *work(void *given) {
    struct worker *worker = given;
    struct transaction *t = &worker->transaction;
    make_requests(worker);
    clock_gettime(CLOCK_MONOTONIC, &worker->ready);
    pthread_barrier_wait(&made);
    for (uint64_t at = 0; at < worker->count; at++) {
        const struct request *request = &worker->requests[at];
        (void)setjmp(t->again);
        memory_begin(t);
        enum reply reply = home_answer(t, request, &worker->sum);
        memory_commit(t);
        worker->replies[request->kind][reply]++;
        worker->changes += request->kind >= UPDATE_SUBSCRIBER_DATA && reply == OK;
    }
    return NULL;
}

// Opens the memory with the home of an image, and gives how many subscribers it has.
static uint64_t open_image(const char *name, uint64_t locks) {
    FILE *file = fopen(name, "rb");
    uint64_t header[HEADER];
    demand(file != NULL && fread(header, sizeof header, 1, file) == 1, name);
    uint64_t count = header[6] * 64, start = HEADER + header[4] * header[5] * LINE, *home = malloc(count * sizeof *home);
    demand(home != NULL && fseek(file, (long)(start * sizeof *home), SEEK_SET) == 0, name);
    demand(fread(home, sizeof *home, count, file) == count, "the image is too short");
    memory_open(home, count, locks);
    home_open(header[2], header[3]);
    free(home);
    fclose(file);
    return header[2];
}

static void print_summary(int threads) {
    for (enum kind kind = 0; kind < SYNC; kind++) {
        uint64_t replies[REPLIES] = {0}, all = 0;
        for (int at = 0; at < threads; at++)
            for (enum reply reply = 0; reply < REPLIES; reply++) {
                replies[reply] += workers[at].replies[kind][reply];
                all += workers[at].replies[kind][reply];
            }
        printf("%s %llu", names[kind], (unsigned long long)all);
        for (enum reply reply = 0; reply < REPLIES; reply++) printf(" %llu", (unsigned long long)replies[reply]);
        printf("\n");
    }
    printf("%s %d 0 0 0 0 0\n", names[SYNC], threads);
}

static long micros_between(const struct timespec *from, const struct timespec *to) {
    return (to->tv_sec - from->tv_sec) * 1000000 + (to->tv_nsec - from->tv_nsec) / 1000;
}

int main(int words, char **word) {
    demand(words == 6, "main IMAGE SEED COUNT THREADS LOCKS");
    uint64_t seed = strtoull(word[2], NULL, 10), count = strtoull(word[3], NULL, 10), changes = 0, anew = 0;
    int threads = atoi(word[4]);
    demand(threads >= 1 && threads <= MOST_THREADS, "THREADS is from 1 to 16");
    uint64_t subscribers = open_image(word[1], strtoull(word[5], NULL, 10));
    struct timespec start, end, printed;
    demand(pthread_barrier_init(&made, NULL, threads) == 0, "no barrier");
    clock_gettime(CLOCK_MONOTONIC, &start);
    for (int at = 0; at < threads; at++) {
        struct worker *worker = &workers[at];
        worker->transaction.owner = at;
        worker->seed = seed;
        worker->file = at;
        worker->files = threads;
        worker->subscribers = subscribers;
        worker->count = count;
        demand(pthread_create(&worker->thread, NULL, work, worker) == 0, "no thread");
    }
    for (int at = 0; at < threads; at++) pthread_join(workers[at].thread, NULL);
    clock_gettime(CLOCK_MONOTONIC, &end);
    print_summary(threads);
    clock_gettime(CLOCK_MONOTONIC, &printed);
    long carried_out = 0;
    for (int at = 0; at < threads; at++) {
        long since = micros_between(&workers[at].ready, &end);
        if (at == 0 || since < carried_out) carried_out = since;
        changes += workers[at].changes;
        anew += workers[at].transaction.aborts;
    }
    fprintf(stderr, "%ld\t%llu\t%llu\t%llu\t%ld\n", carried_out, (unsigned long long)(count * threads),
        (unsigned long long)changes, (unsigned long long)anew, micros_between(&start, &printed));
    return 0;
}
