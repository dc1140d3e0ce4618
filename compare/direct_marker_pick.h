/* Picks the calls of a list on several markers. */
#ifndef DIRECT_MARKER_PICK_H
#define DIRECT_MARKER_PICK_H

#include "bilgethrum.h"
#include "random.h"
#include "second_marker.h"

enum marker_step_kind { MARKER_OPEN, MARKER_MARK, MARKER_COPY };

/* One step of a list; what its kind has no use for is 0. */
struct marker_step {
    enum marker_step_kind kind;
    unsigned marker;
    unsigned from;                      /* the marker that a copy is made of */
    bilgethrum_flows flows;
    uint32_t flow;
    uint32_t length;
    uint64_t at;
};

/* How a list goes: its steps, and in how many of a hundred a number is a wild one. */
struct marker_course {
    size_t steps;
    unsigned wild;
    unsigned markers;
};

enum { MOST_MARKERS = 3, MOST_MARKER_STEPS = 500 };

/* What a packet is aimed by: the buckets, and when each flow had its last packet. */
struct marker_aim {
    const struct second_marker *marker;
    const uint64_t *last;
};

struct marker_course pick_marker_course(struct random *random);

/* Any flows, in range more often than not; those beyond the count may be anything. */
bilgethrum_flows pick_flows(struct random *random);

/* A packet of an opened flow, where wild is 0. */
struct marker_step pick_mark(struct random *random, unsigned wild, struct marker_aim aim);

#endif
