/* The marker for the second program: buckets that fill as the clock goes on. */
#ifndef SECOND_MARKER_H
#define SECOND_MARKER_H

#include "trace.h"

enum { MOST_FLOWS = 8, MOST_RATE = 10000000, MOST_DEPTH = 65535 };

/* A rate is bytes per so many ticks, hence so many millionths of a byte for each tick. */
enum { MILLION = 1000000 };

/* Wide enough for every rate times every span. */
typedef unsigned __int128 second_millionths;

struct second_flow {
    uint64_t rate;
    uint64_t depth;
};

struct second_bucket {
    struct second_flow flow;
    second_millionths held;     /* at the clock */
};

struct second_marker {
    uint64_t clock;
    uint64_t count;
    struct second_bucket buckets[MOST_FLOWS];
};

/* What a packet is answered; marked is 0 where it is refused. */
struct second_marking {
    int refusal;
    int marked;
};

/* Gives 0, 51, 52 or 53.  Only the first count flows are looked at, and none where count is
 * refused; a refused opening opens one flow with rate and depth at their least. */
int second_open_marker(struct second_marker *marker, uint64_t count,
                       const struct second_flow *flows);

/* What the bucket of an opened flow holds at an instant that is not before the clock. */
second_millionths second_held(const struct second_marker *marker, uint64_t flow, uint64_t at);

struct second_marking second_mark(struct second_marker *marker, uint64_t flow, uint64_t length,
                                  uint64_t at);

#endif
