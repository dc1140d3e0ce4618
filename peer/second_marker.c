/* Follows the marker's rules word by word, with no thought for speed. */
#include "second_marker.h"

static int opening_refusal(uint64_t count, const struct second_flow *flows)
{
    if (count < 1 || count > MOST_FLOWS)
        return 51;
    for (uint64_t i = 0; i < count; i++)
        if (flows[i].rate < 1 || flows[i].rate > MOST_RATE)
            return 52;
    for (uint64_t i = 0; i < count; i++)
        if (flows[i].depth < 1 || flows[i].depth > MOST_DEPTH)
            return 53;
    return 0;
}

static second_millionths full(const struct second_bucket *bucket)
{
    return (second_millionths)bucket->flow.depth * MILLION;
}

int second_open_marker(struct second_marker *marker, uint64_t count,
                       const struct second_flow *flows)
{
    static const struct second_flow least = { .rate = 1, .depth = 1 };
    int refusal = opening_refusal(count, flows);
    marker->clock = 0;
    marker->count = refusal == 0 ? count : 1;
    for (uint64_t i = 0; i < marker->count; i++) {
        struct second_bucket *bucket = &marker->buckets[i];
        bucket->flow = refusal == 0 ? flows[i] : least;
        bucket->held = full(bucket);
    }
    return refusal;
}

second_millionths second_held(const struct second_marker *marker, uint64_t flow, uint64_t at)
{
    const struct second_bucket *bucket = &marker->buckets[flow];
    uint64_t span = at - marker->clock;
    second_millionths held = bucket->held + (second_millionths)bucket->flow.rate * span;
    return held < full(bucket) ? held : full(bucket);
}

static int packet_refusal(const struct second_marker *marker, uint64_t flow, uint64_t length,
                          uint64_t at)
{
    if (flow >= marker->count)
        return 51;
    if (length < 1 || length > MOST_LENGTH)
        return 1;
    if (at > MOST_INSTANT)
        return 2;
    if (at < marker->clock)
        return 3;
    return 0;
}

/* The clock goes on for all flows, so every bucket is filled up to it. */
static void fill_all(struct second_marker *marker, uint64_t at)
{
    for (uint64_t i = 0; i < marker->count; i++)
        marker->buckets[i].held = second_held(marker, i, at);
    marker->clock = at;
}

struct second_marking second_mark(struct second_marker *marker, uint64_t flow, uint64_t length,
                                  uint64_t at)
{
    int refusal = packet_refusal(marker, flow, length, at);
    if (refusal != 0)
        return (struct second_marking){ .refusal = refusal };
    fill_all(marker, at);
    struct second_bucket *bucket = &marker->buckets[flow];
    second_millionths price = (second_millionths)length * MILLION;
    if (bucket->held < price)
        return (struct second_marking){ .marked = 1 };
    bucket->held -= price;
    return (struct second_marking){ .marked = 0 };
}
