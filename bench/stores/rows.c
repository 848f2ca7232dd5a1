// Carries requests out on a store that gets, puts and removes rows by key.
#include "store.h"

static enum reply new_destination(const uint64_t *fields) {
    uint64_t facility = facility_key(fields[0], fields[1]), row[MOST_WORDS];
    enum reply reply = NONE;
    if (!store_get(FACILITIES, facility, row) || !(row[0] & 0xFF)) return NONE;
    for (uint64_t start = 0; start <= fields[2]; start += 8)
        if (store_get(CALLS, call_key(facility, start), row) && fields[3] < row[0]) reply = OK;
    return reply;
}

static enum reply update_subscriber(const uint64_t *fields) {
    uint64_t facility = facility_key(fields[0], fields[2]), subscriber[MOST_WORDS], row[MOST_WORDS];
    if (!store_get(SUBSCRIBERS, fields[0], subscriber) || !store_get(FACILITIES, facility, row)) return NONE;
    subscriber[0] = (subscriber[0] & ~(uint64_t)1) | fields[1];
    row[0] = (row[0] & 0xFFFF) | fields[3] << 16;
    store_put(SUBSCRIBERS, fields[0], subscriber);
    store_put(FACILITIES, facility, row);
    return OK;
}

static enum reply update_location(const uint64_t *fields) {
    uint64_t number[MOST_WORDS], row[MOST_WORDS];
    if (!store_get(NUMBERS, fields[0], number)) return NONE;
    demand(store_get(SUBSCRIBERS, number[0], row), "a number without a subscriber");
    row[LOCATION] = fields[1];
    store_put(SUBSCRIBERS, number[0], row);
    return OK;
}

static enum reply insert_call(const uint64_t *fields) {
    uint64_t number[MOST_WORDS], row[MOST_WORDS];
    if (!store_get(NUMBERS, fields[0], number)) return NONE;
    uint64_t facility = facility_key(number[0], fields[1]), key = call_key(facility, fields[2]);
    if (!store_get(FACILITIES, facility, row)) return NOFAC;
    if (store_get(CALLS, key, row)) return DUP;
    store_put(CALLS, key, (uint64_t[]){fields[3], fields[4]});
    return OK;
}

static enum reply delete_call(const uint64_t *fields) {
    uint64_t number[MOST_WORDS];
    if (!store_get(NUMBERS, fields[0], number)) return NONE;
    return store_remove(CALLS, call_key(facility_key(number[0], fields[1]), fields[2])) ? OK : NONE;
}

enum reply store_answer(const struct request *request) {
    const uint64_t *fields = request->fields;
    uint64_t row[MOST_WORDS];
    switch (request->kind) {
    case GET_SUBSCRIBER_DATA: return store_get(SUBSCRIBERS, fields[0], row) ? OK : NONE;
    case GET_NEW_DESTINATION: return new_destination(fields);
    case GET_ACCESS_DATA: return store_get(ACCESS, facility_key(fields[0], fields[1]), row) ? OK : NONE;
    case UPDATE_SUBSCRIBER_DATA: return update_subscriber(fields);
    case UPDATE_LOCATION: return update_location(fields);
    case INSERT_CALL_FORWARDING: return insert_call(fields);
    case DELETE_CALL_FORWARDING: return delete_call(fields);
    default: return OK;
    }
}
