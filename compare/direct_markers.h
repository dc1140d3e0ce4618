/* Makes calls on markers that are written down with their answers. */
#ifndef DIRECT_MARKERS_H
#define DIRECT_MARKERS_H

#include "bilgethrum.h"

enum { MOST_CASE_PACKETS = 65 };

struct marker_case {
    const char *name;
    bilgethrum_flows flows;
    uint32_t refusal;           /* of the opening */
    struct {
        uint32_t flow;
        uint32_t length;
        uint64_t at;
        bilgethrum_marking answer;
    } packets[MOST_CASE_PACKETS];
    int count;
};

/* Opens a marker on both sides and makes the calls; the answers must be those. */
void hold_marker_case(const struct marker_case *written);

#endif
