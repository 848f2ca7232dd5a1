// The seven transactions on the home of five tables, in the words of the memory. docs/FORMATS.md has the tables and what each
// request does.
#ifndef HOME_H
#define HOME_H
#include "memory.h"

enum kind {
    GET_SUBSCRIBER_DATA, GET_NEW_DESTINATION, GET_ACCESS_DATA, UPDATE_SUBSCRIBER_DATA, UPDATE_LOCATION,
    INSERT_CALL_FORWARDING, DELETE_CALL_FORWARDING, SYNC, KINDS
};
enum reply { OK, NONE, NOFAC, DUP, FULL, REPLIES };

// `subscriber` is its s_id or its phone number, `type` its sf_type or ai_type.
struct request {
    enum kind kind;
    uint64_t subscriber, type, start_time, end_time, value, bit;
};

// Places the tables of a home of so many subscribers and calls.
void home_open(uint64_t subscribers, uint64_t calls);
// Answers a request as part of a transaction. What a read found is summed up, so that it is read.
enum reply home_answer(struct transaction *t, const struct request *request, uint64_t *sum);
#endif
