/* The marker's bound, held on every stretch of accepted calls. */
#ifndef DIRECT_MARKER_BOUND_H
#define DIRECT_MARKER_BOUND_H

#include <stdbool.h>

#include "direct_marker_pick.h"

/* The calls that a marker accepted since its opening. */
struct marker_past {
    size_t count;
    struct {
        uint32_t flow;
        uint32_t unmarked;      /* bytes: the length, or 0 of a marked packet */
        uint64_t at;
    } calls[MOST_MARKER_STEPS];
};

enum marker_bound { BOUND_KEPT, BOUND_JUST_KEPT, BOUND_BROKEN };

void past_add(struct marker_past *past, const struct marker_step *step, bool marked);

/* Over all stretches that end with the last call, for its flow; just kept only where there is
 * a span. */
enum marker_bound past_bound(const struct marker_past *past, struct second_flow flow);

#endif
