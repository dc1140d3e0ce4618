/* Adds up unmarked bytes backwards from the last call and holds each sum to depth and rate. */
#include "direct_marker_bound.h"

void past_add(struct marker_past *past, const struct marker_step *step, bool marked)
{
    past->calls[past->count].flow = step->flow;
    past->calls[past->count].unmarked = marked ? 0 : step->length;
    past->calls[past->count].at = step->at;
    past->count++;
}

enum marker_bound past_bound(const struct marker_past *past, struct second_flow flow)
{
    enum marker_bound worst = BOUND_KEPT;
    second_millionths unmarked = 0;
    size_t last = past->count - 1;
    for (size_t first = past->count; first-- > 0;) {
        if (past->calls[first].flow != past->calls[last].flow)
            continue;
        uint64_t span = past->calls[last].at - past->calls[first].at;
        unmarked += (second_millionths)past->calls[first].unmarked * MILLION;
        second_millionths most = (second_millionths)flow.depth * MILLION
                                 + (second_millionths)flow.rate * span;
        if (unmarked > most)
            return BOUND_BROKEN;
        if (unmarked == most && span > 0)
            worst = BOUND_JUST_KEPT;
    }
    return worst;
}
