/* The baseline's marker: a bucket is filled when its flow has a packet, in numbers of 64 bits. */
#ifndef BASELINE_MARKER_H
#define BASELINE_MARKER_H

#include "bilgethrum.h"

#define BASELINE_MILLION UINT64_C(1000000)

/* After so many ticks every bucket is full, even the deepest at the least rate.  With a
 * shorter span, rate times span has room in 64 bits. */
#define BASELINE_FILLED (BILGETHRUM_MOST_DEPTH * BASELINE_MILLION)

_Static_assert(BASELINE_FILLED <= (UINT64_MAX - BASELINE_FILLED) / BILGETHRUM_MOST_RATE,
               "a bucket's filling stays within 64 bits");

/* What is held is counted in millionths of a byte: the rate is what one tick brings. */
struct baseline_bucket {
    uint64_t rate;
    uint64_t full;
    uint64_t held;      /* when it was last looked at */
    uint64_t looked_at;
};

struct baseline_marker {
    uint64_t clock;
    uint32_t count;
    struct baseline_bucket buckets[BILGETHRUM_MOST_FLOWS];
};

_Static_assert(sizeof(struct baseline_marker) <= sizeof(bilgethrum_marker)
               && _Alignof(struct baseline_marker) <= _Alignof(bilgethrum_marker),
               "the baseline's marker lies in the host's words");

/* The words are never looked at as words here, so no two views of them can clash. */
static inline struct baseline_marker *baseline_marker_in(bilgethrum_marker *words)
{
    return (struct baseline_marker *)(void *)words;
}

static inline uint32_t baseline_flows_refusal(const bilgethrum_flows *flows)
{
    uint32_t rates = 0, depths = 0;
    if (flows->count - 1 >= BILGETHRUM_MOST_FLOWS)
        return BILGETHRUM_REFUSED_FLOW;
    for (uint32_t i = 0; i < flows->count; i++) {
        rates |= flows->each[i].rate - 1 >= BILGETHRUM_MOST_RATE;
        depths |= flows->each[i].depth - 1 >= BILGETHRUM_MOST_DEPTH;
    }
    if (rates != 0)
        return BILGETHRUM_REFUSED_RATE;
    return depths != 0 ? BILGETHRUM_REFUSED_DEPTH : BILGETHRUM_NOT_REFUSED;
}

static inline uint32_t baseline_open_marker(bilgethrum_marker *words, bilgethrum_flows flows)
{
    struct baseline_marker *marker = baseline_marker_in(words);
    uint32_t refusal = baseline_flows_refusal(&flows);
    if (refusal != 0)
        flows = (bilgethrum_flows){ .count = 1, .each = { { .rate = 1, .depth = 1 } } };
    marker->clock = 0;
    marker->count = flows.count;
    for (uint32_t i = 0; i < flows.count; i++) {
        uint64_t full = flows.each[i].depth * BASELINE_MILLION;
        marker->buckets[i] =
            (struct baseline_bucket){ .rate = flows.each[i].rate, .full = full, .held = full };
    }
    return refusal;
}

static inline uint64_t baseline_held(const struct baseline_bucket *bucket, uint64_t at)
{
    uint64_t span = at - bucket->looked_at;
    if (span >= BASELINE_FILLED)
        return bucket->full;
    uint64_t held = bucket->held + bucket->rate * span;
    return held < bucket->full ? held : bucket->full;
}

/* Whether a packet can be paid for cannot be foreseen, so the price is taken without a jump,
 * and given back where it does not go; that a packet is not refused can be. */
static inline bilgethrum_marking baseline_mark(bilgethrum_marker *words, uint32_t flow,
                                               uint32_t length, uint64_t at)
{
    struct baseline_marker *marker = baseline_marker_in(words);
    if (flow >= marker->count)
        return (bilgethrum_marking){ .refusal = BILGETHRUM_REFUSED_FLOW };
    if (length - 1 >= BILGETHRUM_MOST_LENGTH)
        return (bilgethrum_marking){ .refusal = BILGETHRUM_REFUSED_LENGTH };
    if (at > BILGETHRUM_MOST_INSTANT)
        return (bilgethrum_marking){ .refusal = BILGETHRUM_REFUSED_INSTANT };
    if (at < marker->clock)
        return (bilgethrum_marking){ .refusal = BILGETHRUM_REFUSED_BEFORE_CLOCK };
    struct baseline_bucket *bucket = &marker->buckets[flow];
    uint64_t held = baseline_held(bucket, at);
    uint64_t left;
    uint64_t marked = __builtin_sub_overflow(held, length * BASELINE_MILLION, &left);
    bucket->held = marked ? held : left;
    bucket->looked_at = at;
    marker->clock = at;
    return (bilgethrum_marking){ .marked = (uint32_t)marked };
}

#endif
