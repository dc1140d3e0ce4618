/* Aims packets at the instants at which a bucket just holds them, or just does not, and makes
 * some numbers wild. */
#include "direct_marker_pick.h"

#include "direct_pick.h"

#define COUNT(array) (sizeof(array) / sizeof(array)[0])
#define PICK(random, array) (array)[random_below(random, COUNT(array))]

struct marker_course pick_marker_course(struct random *random)
{
    static const unsigned wild[] = { 0, 0, 3, 10, 50 };
    static const unsigned markers[] = { 1, 1, 2, MOST_MARKERS };
    static const size_t most[] = { 20, 80, 80, MOST_MARKER_STEPS };
    return (struct marker_course){ .wild = PICK(random, wild), .markers = PICK(random, markers),
                                   .steps = random_between(random, 1, PICK(random, most)) };
}

/* With a rate that divides a million every length can be met exactly. */
static uint32_t pick_rate(struct random *random)
{
    static const uint32_t some[] = { 1, 1, 2, 3, 10, 64, 125, 1000, 18446, 18447, 125000, 999999,
                                     1000000, 1000001, MOST_RATE - 1, MOST_RATE };
    static const uint32_t most[] = { 10, 1000, 100000, MOST_RATE };
    if (random_percent(random, 60))
        return PICK(random, some);
    return (uint32_t)random_between(random, 1, PICK(random, most));
}

static uint32_t pick_depth(struct random *random)
{
    static const uint32_t some[] = { 1, 2, 1000, 2047, 2048, 2049, 4294, 4295, MOST_DEPTH - 1,
                                     MOST_DEPTH };
    static const uint32_t most[] = { 100, 3000, MOST_DEPTH };
    if (random_percent(random, 40))
        return PICK(random, some);
    return (uint32_t)random_between(random, 1, PICK(random, most));
}

/* Some of these are in range once they are cut to 8, 16 or 24 bits. */
static const uint32_t wrong_counts[] = { 0, 0, 9, 16, 256, 257, 65536 + 8, UINT32_C(1) << 31,
                                         UINT32_MAX };
static const uint32_t wrong_rates[] = { 0, 0, MOST_RATE + 1, (UINT32_C(1) << 24) + 1,
                                        UINT32_C(1) << 31, UINT32_MAX };
static const uint32_t wrong_depths[] = { 0, 0, MOST_DEPTH + 1, MOST_DEPTH + 2,
                                         UINT32_C(1) << 31, UINT32_MAX };

/* Makes wrong any of the count, a rate and a depth, the last two in any flows. */
static void spoil(struct random *random, bilgethrum_flows *flows)
{
    uint32_t count = flows->count;
    if (random_percent(random, 60))
        flows->each[random_below(random, count)].rate = PICK(random, wrong_rates);
    if (random_percent(random, 60))
        flows->each[random_below(random, count)].depth = PICK(random, wrong_depths);
    if (random_percent(random, 40))
        flows->count = PICK(random, wrong_counts);
}

bilgethrum_flows pick_flows(struct random *random)
{
    static const uint32_t most[] = { 2, MOST_FLOWS };
    bilgethrum_flows flows = { .count = (uint32_t)random_between(random, 1, PICK(random, most)) };
    bool beyond_are_right = random_percent(random, 30);
    for (uint32_t i = 0; i < MOST_FLOWS; i++) {
        bool right = i < flows.count || beyond_are_right;
        flows.each[i].rate = right ? pick_rate(random) : PICK(random, wrong_rates);
        flows.each[i].depth = right ? pick_depth(random) : PICK(random, wrong_depths);
    }
    if (random_percent(random, 12))
        spoil(random, &flows);
    return flows;
}

static uint64_t least(uint64_t one, uint64_t other)
{
    return one < other ? one : other;
}

static const struct second_bucket *bucket_of(struct marker_aim aim, uint64_t flow)
{
    return &aim.marker->buckets[flow];
}

/* Around what the bucket holds or could hold, or any. */
static uint32_t some_length(struct random *random, uint64_t held, uint64_t depth)
{
    uint64_t length = random_between(random, 1, MOST_LENGTH);
    switch (random_below(random, 6)) {
    case 0:
        length = held / MILLION;
        break;
    case 1:
        length = held / MILLION + 1;
        break;
    case 2:
        length = depth + random_below(random, 2);
        break;
    case 3:
        length = MOST_LENGTH;
        break;
    default:
        break;
    }
    return (uint32_t)(length < 1 ? 1 : least(length, MOST_LENGTH));
}

/* Finds a length and an instant at which the bucket holds that length, or a millionth less;
 * failing that, the first instant at which it holds enough, or the tick before.  Gives false
 * where it holds every length. */
static bool aim_at_length(struct random *random, struct marker_aim aim, struct marker_step *step)
{
    const struct second_bucket *bucket = bucket_of(aim, step->flow);
    uint64_t held = (uint64_t)bucket->held;
    uint64_t rate = bucket->flow.rate;
    uint64_t most = least(bucket->flow.depth, MOST_LENGTH);
    uint64_t less = random_percent(random, 40);
    if (held >= most * MILLION)
        return false;
    for (int tries = 0; tries < 16; tries++) {
        uint64_t length = held / MILLION + 1;
        step->length = (uint32_t)(tries == 0 ? length : random_between(random, length, most));
        uint64_t missing = step->length * (uint64_t)MILLION - held - less;
        step->at = aim.marker->clock + missing / rate;
        if (missing % rate == 0)
            return true;
    }
    step->at += 1 - less;
    return true;
}

/* A span that a slip would take for a short one: where it, or the rate times it, is cut. */
static uint64_t wrapping_span(struct random *random, uint64_t rate)
{
    static const unsigned bits[] = { 31, 32, 32, 63, 64, 64 };
    second_millionths wrapped = (second_millionths)1 << PICK(random, bits);
    uint64_t divisor = random_percent(random, 30) ? 1 : rate;
    second_millionths span = wrapped * random_between(random, 1, 3) / divisor + 1;
    return (uint64_t)(span < MOST_INSTANT ? span : MOST_INSTANT);
}

static uint64_t any_span(struct random *random)
{
    uint64_t most = 1;
    for (uint64_t digits = random_below(random, 16); digits > 0; digits--)
        most *= 10;
    return random_between(random, 0, most);
}

/* A later instant, counted from the flow's last packet; never past the last of all. */
static uint64_t later_instant(struct random *random, struct marker_aim aim, uint32_t flow)
{
    uint64_t rate = bucket_of(aim, flow)->flow.rate;
    uint64_t pick = random_below(random, 100);
    uint64_t at = aim.last[flow];
    if (pick < 50)
        at += random_between(random, 0, MOST_LENGTH * (uint64_t)MILLION / rate);
    else if (pick < 75)
        at += wrapping_span(random, rate);
    else if (pick < 98)
        at += any_span(random);
    else
        at = MOST_INSTANT;
    return at < aim.marker->clock ? aim.marker->clock : least(at, MOST_INSTANT);
}

static struct marker_step aimed_packet(struct random *random, struct marker_aim aim)
{
    struct marker_step step = { .kind = MARKER_MARK, .at = aim.marker->clock };
    step.flow = (uint32_t)random_below(random, aim.marker->count);
    uint64_t pick = random_below(random, 100);
    /* Half of those that cannot be aimed, the bucket being full, go with the longest packet. */
    step.length = MOST_LENGTH;
    if (pick < 60 && (aim_at_length(random, aim, &step) || pick < 30))
        return step;
    if (pick >= 85)
        step.at = later_instant(random, aim, step.flow);
    step.length = some_length(random, (uint64_t)second_held(aim.marker, step.flow, step.at),
                              bucket_of(aim, step.flow)->flow.depth);
    return step;
}

/* Flows that were not opened, the last unless all were, and some that would be if they were cut. */
static uint32_t wild_flow(struct random *random, uint32_t count)
{
    const uint32_t some[] = { count, MOST_FLOWS - 1, MOST_FLOWS, 256, 65536,
                              UINT32_C(1) << 31, UINT32_MAX };
    return PICK(random, some);
}

struct marker_step pick_mark(struct random *random, unsigned wild, struct marker_aim aim)
{
    struct marker_step step = aimed_packet(random, aim);
    if (random_percent(random, wild))
        step.at = wild_instant(random, aim.marker->clock);
    if (random_percent(random, wild))
        step.length = wild_length(random);
    if (random_percent(random, wild / 2))
        step.flow = wild_flow(random, (uint32_t)aim.marker->count);
    return step;
}
