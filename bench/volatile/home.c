#include "home.h"

struct table { uint64_t header, buckets, count, records, words; };
static struct table subscriber_table, number_table, access_table, facility_table, call_table;
enum { KEY, LINK, FIRST, SECOND, MSC_LOCATION = 5, LOCATION = 6, PHONE = 7 };

static uint64_t up8(uint64_t count) { return (count + 7) / 8 * 8; }

static uint64_t place(struct table *table, uint64_t at, uint64_t buckets, uint64_t records, uint64_t words) {
    *table = (struct table){at, at + 8, buckets, at + 8 + up8(buckets), words};
    return table->records + up8(records * words);
}

void home_open(uint64_t subscribers, uint64_t calls) {
    uint64_t at = place(&subscriber_table, 0, subscribers, subscribers, 8);
    at = place(&number_table, at, subscribers, subscribers, 4);
    at = place(&access_table, at, 4 * subscribers, 4 * subscribers, 4);
    at = place(&facility_table, at, 4 * subscribers, 4 * subscribers, 4);
    place(&call_table, at, calls, calls, 4);
}

// The record of a key, or 0. A link is that of a record, and no record stands at word 0. `*holder` is the word that links it.
static uint64_t find(struct transaction *t, const struct table *table, uint64_t key, uint64_t *holder) {
    *holder = table->buckets + key % table->count;
    uint64_t record = memory_read(t, *holder);
    while (record != 0 && memory_read(t, record + KEY) != key) {
        *holder = record + LINK;
        record = memory_read(t, *holder);
    }
    return record;
}

static uint64_t row(struct transaction *t, const struct table *table, uint64_t key) {
    uint64_t holder;
    return find(t, table, key, &holder);
}

static uint64_t facility_key(uint64_t s_id, uint64_t type) { return 4 * s_id + type - 1; }
static uint64_t call_key(uint64_t facility, uint64_t start_time) { return 3 * facility + start_time / 8; }

static enum reply subscriber_data(struct transaction *t, const struct request *request, uint64_t *sum) {
    uint64_t record = row(t, &subscriber_table, request->subscriber);
    if (record == 0) return NONE;
    for (int word = FIRST; word <= PHONE; word++) *sum += memory_read(t, record + word);
    return OK;
}

static enum reply new_destination(struct transaction *t, const struct request *request, uint64_t *sum) {
    uint64_t facility = facility_key(request->subscriber, request->type), record = row(t, &facility_table, facility);
    enum reply reply = NONE;
    if (record == 0 || !(memory_read(t, record + FIRST) & 0xFF)) return NONE;
    for (uint64_t start = 0; start <= request->start_time; start += 8) {
        uint64_t call = row(t, &call_table, call_key(facility, start));
        if (call == 0 || request->end_time >= memory_read(t, call + FIRST)) continue;
        *sum += memory_read(t, call + SECOND);
        reply = OK;
    }
    return reply;
}

static enum reply access_data(struct transaction *t, const struct request *request, uint64_t *sum) {
    uint64_t record = row(t, &access_table, facility_key(request->subscriber, request->type));
    if (record == 0) return NONE;
    *sum += memory_read(t, record + FIRST) + memory_read(t, record + SECOND);
    return OK;
}

static enum reply update_subscriber(struct transaction *t, const struct request *request) {
    uint64_t subscriber = row(t, &subscriber_table, request->subscriber);
    if (subscriber == 0) return NONE;
    uint64_t facility = row(t, &facility_table, facility_key(request->subscriber, request->type));
    if (facility == 0) return NONE;
    uint64_t bits = memory_read(t, subscriber + FIRST), data = memory_read(t, facility + FIRST);
    memory_write(t, subscriber + FIRST, (bits & ~(uint64_t)1) | request->bit);
    memory_write(t, facility + FIRST, (data & 0xFFFF) | (request->value & 0xFF) << 16);
    return OK;
}

// The s_id behind a phone number, or 0.
static uint64_t subscriber_of(struct transaction *t, uint64_t phone) {
    uint64_t number = row(t, &number_table, phone);
    return number == 0 ? 0 : memory_read(t, number + FIRST);
}

static enum reply update_location(struct transaction *t, const struct request *request) {
    uint64_t s_id = subscriber_of(t, request->subscriber);
    if (s_id == 0) return NONE;
    memory_write(t, row(t, &subscriber_table, s_id) + LOCATION, request->value);
    return OK;
}

static enum reply insert_call(struct transaction *t, const struct request *request) {
    uint64_t s_id = subscriber_of(t, request->subscriber), header = call_table.header, holder;
    if (s_id == 0) return NONE;
    uint64_t facility = facility_key(s_id, request->type), key = call_key(facility, request->start_time);
    if (row(t, &facility_table, facility) == 0) return NOFAC;
    if (find(t, &call_table, key, &holder) != 0) return DUP;
    uint64_t record = memory_read(t, header), bucket = call_table.buckets + key % call_table.count;
    if (record == 0) return FULL;
    memory_write(t, header, memory_read(t, record + LINK));
    memory_write(t, header + 1, memory_read(t, header + 1) + 1);
    memory_write(t, record + KEY, key);
    memory_write(t, record + LINK, memory_read(t, bucket));
    memory_write(t, record + FIRST, request->end_time);
    memory_write(t, record + SECOND, request->value);
    memory_write(t, bucket, record);
    return OK;
}

static enum reply delete_call(struct transaction *t, const struct request *request) {
    uint64_t s_id = subscriber_of(t, request->subscriber), header = call_table.header, holder;
    if (s_id == 0) return NONE;
    uint64_t key = call_key(facility_key(s_id, request->type), request->start_time);
    uint64_t record = find(t, &call_table, key, &holder);
    if (record == 0) return NONE;
    memory_write(t, holder, memory_read(t, record + LINK));
    memory_write(t, record + LINK, memory_read(t, header));
    memory_write(t, header, record);
    memory_write(t, header + 1, memory_read(t, header + 1) - 1);
    return OK;
}

enum reply home_answer(struct transaction *t, const struct request *request, uint64_t *sum) {
    switch (request->kind) {
    case GET_SUBSCRIBER_DATA: return subscriber_data(t, request, sum);
    case GET_NEW_DESTINATION: return new_destination(t, request, sum);
    case GET_ACCESS_DATA: return access_data(t, request, sum);
    case UPDATE_SUBSCRIBER_DATA: return update_subscriber(t, request);
    case UPDATE_LOCATION: return update_location(t, request);
    case INSERT_CALL_FORWARDING: return insert_call(t, request);
    case DELETE_CALL_FORWARDING: return delete_call(t, request);
    default: return OK;
    }
}
