/* Counts what calls on markers reached. */
#ifndef DIRECT_MARKER_COUNTS_H
#define DIRECT_MARKER_COUNTS_H

#include <stdbool.h>

#include "direct_marker_pick.h"

void count_marker_opening(const bilgethrum_flows *flows, uint32_t refusal);

/* A packet before it is judged, refused or not. */
void count_marker_packet(const struct second_marker *marker, const struct marker_step *step);

/* A packet that was judged: its flow's bucket as that left it, at the packet's own instant,
 * and the span since the flow's last packet. */
void count_judgement(const struct second_bucket *bucket, const struct marker_step *step,
                     uint64_t span, bool marked);

#endif
