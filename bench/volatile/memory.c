// A lock word is even where nobody owns it: twice the number of the last commit that wrote under it. Else it is odd: twice
// the owner, and one.
#include "memory.h"
#include <stdatomic.h>
#include <stdlib.h>

typedef _Atomic uint64_t word;
static word *words, *locks;
static uint64_t stripes;
static _Alignas(64) word clock_word;

static word *words_of(uint64_t count) {
    word *made = aligned_alloc(64, (count * sizeof(word) + 63) / 64 * 64);
    if (made == NULL) abort();
    for (uint64_t at = 0; at < count; at++) atomic_init(&made[at], 0);
    return made;
}

void memory_open(const uint64_t *given, uint64_t count, uint64_t many) {
    words = words_of(count);
    locks = words_of(many);
    stripes = many;
    for (uint64_t at = 0; at < count; at++) atomic_init(&words[at], given[at]);
}

uint64_t memory_word(uint64_t at) { return words[at]; }

void memory_begin(struct transaction *t) {
    t->reads = t->writes = t->locks = 0;
    t->snapshot = clock_word;
}

static uint64_t own(const struct transaction *t) { return 2 * t->owner + 1; }

// Gives the locks back with a word of their own each, or with what they held before.
static void release(struct transaction *t, const uint64_t *version) {
    for (int at = 0; at < t->locks; at++) {
        const struct held *held = &t->held[at];
        atomic_store_explicit(&locks[held->lock], version ? *version : held->word, memory_order_release);
    }
}

static void abort_it(struct transaction *t) {
    release(t, NULL);
    t->aborts++;
    longjmp(t->again, 1);
}

// The word that a lock held before this transaction took it.
static uint64_t before(const struct transaction *t, uint64_t lock) {
    for (int at = 0; at < t->locks; at++)
        if (t->held[at].lock == lock) return t->held[at].word;
    abort();
}

// Whether each lock that was read under still has the word that was seen there, or is this transaction's since.
static int is_valid(const struct transaction *t) {
    for (int at = 0; at < t->reads; at++) {
        uint64_t now = atomic_load_explicit(&locks[t->read[at].lock], memory_order_acquire);
        if (now == own(t)) now = before(t, t->read[at].lock);
        if (now != t->read[at].word) return 0;
    }
    return 1;
}

static void extend(struct transaction *t) {
    uint64_t now = clock_word;
    if (!is_valid(t)) abort_it(t);
    t->snapshot = now;
}

static const struct write *write_of(const struct transaction *t, uint64_t at) {
    for (int k = 0; k < t->writes; k++)
        if (t->written[k].at == at) return &t->written[k];
    return NULL;
}

uint64_t memory_read(struct transaction *t, uint64_t at) {
    uint64_t lock = at % stripes, seen = atomic_load_explicit(&locks[lock], memory_order_acquire);
    if (seen == own(t)) {
        const struct write *write = write_of(t, at);
        return write ? write->value : atomic_load_explicit(&words[at], memory_order_acquire);
    }
    for (;;) {
        if (seen & 1) abort_it(t);
        uint64_t value = atomic_load_explicit(&words[at], memory_order_acquire);
        uint64_t again = atomic_load_explicit(&locks[lock], memory_order_acquire);
        if (again != seen) {
            seen = again;
            continue;
        }
        if (seen / 2 > t->snapshot) {
            extend(t);
            seen = atomic_load_explicit(&locks[lock], memory_order_acquire);
            continue;
        }
        if (t->reads == MOST_READS) abort();
        t->read[t->reads++] = (struct seen){lock, seen};
        return value;
    }
}

void memory_write(struct transaction *t, uint64_t at, uint64_t value) {
    uint64_t lock = at % stripes, seen = atomic_load_explicit(&locks[lock], memory_order_acquire);
    if (seen != own(t)) {
        if (seen & 1) abort_it(t);
        if (seen / 2 > t->snapshot) extend(t);
        if (!atomic_compare_exchange_strong(&locks[lock], &seen, own(t))) abort_it(t);
        t->held[t->locks++] = (struct held){lock, seen};
    }
    struct write *write = (struct write *)write_of(t, at);
    if (write == NULL) {
        if (t->writes == MOST_WRITES) abort();
        write = &t->written[t->writes++];
        write->at = at;
    }
    write->value = value;
}

void memory_commit(struct transaction *t) {
    if (t->writes > 0) {
        uint64_t version = 2 * (atomic_fetch_add(&clock_word, 1) + 1);
        if (!is_valid(t)) abort_it(t);
        for (int at = 0; at < t->writes; at++)
            atomic_store_explicit(&words[t->written[at].at], t->written[at].value, memory_order_release);
        release(t, &version);
    }
    t->commits++;
}
