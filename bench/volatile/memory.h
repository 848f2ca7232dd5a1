// A transactional memory over words that threads share, which keeps nothing: a lock word for each stripe of words, a global
// clock, locks taken at the first write of a word, values written at the commit, reads checked at the commit. The design of
// Felber et al., PPoPP 2008, without the short cut that leaves the check at the commit out.
#ifndef MEMORY_H
#define MEMORY_H
#include <setjmp.h>
#include <stdint.h>

enum { MOST_READS = 4096, MOST_WRITES = 24 };

struct seen { uint64_t lock, word; };
struct write { uint64_t at, value; };
struct held { uint64_t lock, word; };

// A thread's transaction. Where one can't go on, it gives back what it holds and jumps to `again`.
struct transaction {
    uint64_t owner, snapshot, commits, aborts;
    int reads, writes, locks;
    jmp_buf again;
    struct seen read[MOST_READS];
    struct write written[MOST_WRITES];
    struct held held[MOST_WRITES];
};

// Words that all threads share, in so many stripes.
void memory_open(const uint64_t *words, uint64_t count, uint64_t locks);
void memory_begin(struct transaction *t);
uint64_t memory_read(struct transaction *t, uint64_t at);
void memory_write(struct transaction *t, uint64_t at, uint64_t value);
void memory_commit(struct transaction *t);
// A word, while no thread has a transaction.
uint64_t memory_word(uint64_t at);
#endif
