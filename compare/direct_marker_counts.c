/* Tells from a call on a marker and the second program's buckets which outcomes it is. */
#include "direct_marker_counts.h"

#include "direct_counters.h"

/* The most ticks that any bucket takes to fill. */
#define LONG_SPAN ((uint64_t)MOST_DEPTH * MILLION)

static bool rate_is_wrong(const bilgethrum_flow *flow)
{
    return flow->rate < 1 || flow->rate > MOST_RATE;
}

static bool depth_is_wrong(const bilgethrum_flow *flow)
{
    return flow->depth < 1 || flow->depth > MOST_DEPTH;
}

void count_marker_opening(const bilgethrum_flows *flows, uint32_t refusal)
{
    const bilgethrum_flow *flow = &flows->each[MOST_FLOWS - 1];
    if (refusal == 0 && flows->count < MOST_FLOWS && rate_is_wrong(flow) && depth_is_wrong(flow))
        count_outcome(OPENED_BESIDE_WRONG_FLOWS);
    if (refusal != BILGETHRUM_REFUSED_RATE)
        return;
    flow = flows->each;
    while (!rate_is_wrong(flow) && !depth_is_wrong(flow))
        flow++;
    if (!rate_is_wrong(flow))
        count_outcome(REFUSED_RATE_BEHIND_DEPTH);
}

void count_marker_packet(const struct second_marker *marker, const struct marker_step *step)
{
    int failing = (step->flow >= marker->count)
                  + (step->length < 1 || step->length > MOST_LENGTH)
                  + (step->at > MOST_INSTANT || step->at < marker->clock);
    if (failing > 1)
        count_outcome(REFUSED_TWICE_OVER);
}

void count_judgement(const struct second_bucket *bucket, const struct marker_step *step,
                     uint64_t span, bool marked)
{
    uint64_t rate = bucket->flow.rate, depth = bucket->flow.depth;
    uint64_t held = (uint64_t)bucket->held;
    uint64_t price = step->length * (uint64_t)MILLION;
    count_outcome(marked ? MARKED_AT_THE_DOOR : LEFT_UNMARKED);
    if (!marked && held == 0)
        count_outcome(step->length == depth ? FULL_TO_THE_LENGTH : FILLED_TO_THE_LENGTH);
    if (marked && held + 1 == price)
        count_outcome(A_MILLIONTH_SHORT);
    if (marked && held + rate >= price && step->length <= depth)
        count_outcome(A_TICK_SHORT);
    if (marked && held == depth * MILLION)
        count_outcome(LONGER_THAN_THE_DEPTH);
    if (span > LONG_SPAN)
        count_outcome(FILLED_OVER_A_LONG_SPAN);
    if ((second_millionths)rate * span > UINT64_MAX)
        count_outcome(FILLED_BEYOND_64_BITS);
}
