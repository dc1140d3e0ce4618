/* A trace as document 01 has it: two settings and a list of events. */
#ifndef TRACE_H
#define TRACE_H

#include <stddef.h>
#include <stdint.h>

enum {
    MOST_EVENTS = 1984,
    MOST_BLOCKS = 64,
    BLOCK_BYTES = 512,
    HEADER_BYTES = 16,
    RECORD_BYTES = 16,
    RECORDS_PER_BLOCK = 31,
    MOST_ALPHA = 1000000,
    MOST_TICKS_PER_BYTE = 64,
    MOST_LENGTH = 2048,
    WAITING_ROOM = 64
};

#define MOST_INSTANT UINT64_C(1000000000000000)

enum kind { UNMARKED = 1, MARKED = 2, ADVANCE = 3 };

struct event {
    enum kind kind;
    uint64_t length;
    uint64_t place;
    uint64_t instant;
};

struct trace {
    uint64_t alpha;
    uint64_t ticks_per_byte;
    size_t count;
    struct event events[MOST_EVENTS];
};

#endif
