/* Makes lists of open_marker and mark on several markers at once, on both sides. */
#include "direct_markers.h"

#include <inttypes.h>
#include <stdio.h>
#include <string.h>

#include "areas.h"
#include "direct.h"
#include "direct_counters.h"
#include "direct_marker_bound.h"
#include "direct_marker_counts.h"
#include "direct_tell.h"
#include "hold.h"

/* One marker on both sides.  The archive's lies in area, among guard bytes. */
struct pair {
    struct second_marker second;
    struct marker_past past;
    uint64_t last[MOST_FLOWS];          /* when each flow's last packet was accepted */
    struct area area;
    bool refused_flows;
    bool reopened;
    bool copied;
};

static struct room rooms[MOST_MARKERS];
static struct pair pairs[MOST_MARKERS];
static struct marker_step list[MOST_MARKERS + MOST_MARKER_STEPS];
static size_t listed;
static bilgethrum_marker before;

void markers_begin(void)
{
    for (int i = 0; i < MOST_MARKERS; i++)
        rooms[i] = room_of(sizeof(bilgethrum_marker));
}

static bilgethrum_marker *marker_of(const struct pair *pair)
{
    return (bilgethrum_marker *)(void *)area_bytes(&pair->area);
}

static _Noreturn void failed(const char *why)
{
    printf("the list of calls, the last of which differs:\n");
    for (size_t i = 0; i < listed; i++)
        tell_marker_step(&list[i]);
    hold_failed(why);
}

/* A refused packet leaves every word as it was; no call may touch what lies around them. */
static void hold_words(const struct pair *pair, bool must_be_as_before)
{
    if (!untouched_from(&pair->area, pair->area.length))
        failed("bytes around the marker's words were changed");
    if (must_be_as_before && memcmp(marker_of(pair), &before, sizeof before) != 0)
        failed("a call that must change no word of the marker changed one");
}

static uint32_t open_pair(struct pair *pair, const struct marker_step *step)
{
    struct second_flow flows[MOST_FLOWS];
    for (int i = 0; i < MOST_FLOWS; i++)
        flows[i] = (struct second_flow){ step->flows.each[i].rate, step->flows.each[i].depth };
    int wanted = second_open_marker(&pair->second, step->flows.count, flows);
    uint32_t given = bilgethrum_open_marker(marker_of(pair), step->flows);
    count_call(CALL_OPEN_MARKER, given);
    if (given != (uint32_t)wanted) {
        printf("wanted: refusal %d\ngiven: refusal %" PRIu32 "\n", wanted, given);
        failed("an opening of a marker");
    }
    hold_words(pair, false);
    count_marker_opening(&step->flows, given);
    memset(pair->last, 0, sizeof pair->last);
    pair->past.count = 0;
    pair->refused_flows = wanted != 0;
    pair->copied = false;
    return given;
}

/* The answers of both sides are alike by now, so this holds both to the bound. */
static void hold_bound(struct pair *pair, const struct marker_step *step, bool marked)
{
    past_add(&pair->past, step, marked);
    enum marker_bound bound = past_bound(&pair->past, pair->second.buckets[step->flow].flow);
    if (bound == BOUND_BROKEN)
        failed("more bytes were left unmarked than depth and rate allow");
    if (bound == BOUND_JUST_KEPT && !marked)
        count_outcome(BOUND_REACHED);
}

/* What an accepted packet leaves to count and to keep. */
static void follow(struct pair *pair, const struct marker_step *step, bool marked)
{
    count_judgement(&pair->second.buckets[step->flow], step, step->at - pair->last[step->flow],
                    marked);
    if (pair->refused_flows)
        count_outcome(JUDGED_UNDER_REFUSED_FLOWS);
    if (pair->copied)
        count_outcome(JUDGED_FROM_COPY);
    if (pair->reopened)
        count_outcome(JUDGED_AFTER_REOPENING);
    hold_bound(pair, step, marked);
    pair->last[step->flow] = step->at;
}

static bilgethrum_marking mark_at_pair(struct pair *pair, const struct marker_step *step)
{
    count_marker_packet(&pair->second, step);
    struct second_marking answer = second_mark(&pair->second, step->flow, step->length, step->at);
    bilgethrum_marking wanted = { (uint32_t)answer.refusal, (uint32_t)answer.marked };
    bilgethrum_marking given = bilgethrum_mark(marker_of(pair), step->flow, step->length, step->at);
    count_call(CALL_MARK, given.refusal);
    if (given.refusal != wanted.refusal || given.marked != wanted.marked) {
        tell_marking("wanted", wanted);
        tell_marking("given", given);
        failed("a marking");
    }
    hold_words(pair, wanted.refusal != 0);
    if (wanted.refusal == 0)
        follow(pair, step, wanted.marked != 0);
    return given;
}

static void copy_pair(const struct marker_step *step)
{
    struct pair *to = &pairs[step->marker];
    const struct pair *from = &pairs[step->from];
    struct area area = to->area;
    memcpy(marker_of(to), marker_of(from), sizeof(bilgethrum_marker));
    *to = *from;
    to->area = area;
    to->copied = true;
}

/* Gives the answer; an opening's has its refusal alone. */
static bilgethrum_marking make(const struct marker_step *picked)
{
    struct marker_step *step = &list[listed++];
    *step = *picked;
    struct pair *pair = &pairs[step->marker];
    memcpy(&before, marker_of(pair), sizeof before);
    switch (step->kind) {
    case MARKER_OPEN:
        return (bilgethrum_marking){ .refusal = open_pair(pair, step) };
    case MARKER_MARK:
        return mark_at_pair(pair, step);
    case MARKER_COPY:
        copy_pair(step);
        break;
    }
    return (bilgethrum_marking){ .refusal = 0 };
}

static void tell_and_make(const struct marker_step *step, bool aloud)
{
    if (aloud) {
        tell_marker_step(step);
        fflush(stdout);
    }
    make(step);
}

/* Begins a list on so many markers, whose words hold anything; odd and even ones lie at the
 * two ends of their rooms. */
static void begin_list(unsigned markers, uint64_t index, struct random *random)
{
    listed = 0;
    for (unsigned i = 0; i < markers; i++) {
        struct pair *pair = &pairs[i];
        pair->area = lend(&rooms[i], sizeof(bilgethrum_marker), sizeof(uint64_t),
                          (index + i) % 2 == 0);
        for (int word = 0; word < BILGETHRUM_MARKER_WORDS; word++)
            marker_of(pair)->words[word] = random_next(random);
        pair->reopened = false;
    }
}

/* Towards the end of the clock fewer instants are left to aim at, so a marker is soon opened
 * anew there. */
static struct marker_step next_step(struct random *random, const struct marker_course *course)
{
    unsigned marker = (unsigned)random_below(random, course->markers);
    unsigned other = (unsigned)random_below(random, course->markers);
    uint64_t pick = random_below(random, 100);
    struct pair *pair = &pairs[marker];
    if (pick == 0 && other != marker)
        return (struct marker_step){ .kind = MARKER_COPY, .marker = marker, .from = other };
    if (pick < (pair->second.clock < MOST_INSTANT / 2 ? 2 : 15))
        return (struct marker_step){ .kind = MARKER_OPEN, .marker = marker,
                                     .flows = pick_flows(random) };
    struct marker_step step = pick_mark(random, course->wild,
                                        (struct marker_aim){ &pair->second, pair->last });
    step.marker = marker;
    return step;
}

void hold_markers(uint64_t index, uint64_t seed, bool aloud)
{
    static char what[96];
    struct random random = random_for(seed, index);
    struct marker_course course = pick_marker_course(&random);
    snprintf(what, sizeof what, "calls on markers, list %" PRIu64 " of seed %" PRIu64, index, seed);
    hold_now(what);
    begin_list(course.markers, index, &random);
    for (unsigned i = 0; i < course.markers; i++) {
        struct marker_step open = { .kind = MARKER_OPEN, .marker = i,
                                    .flows = pick_flows(&random) };
        tell_and_make(&open, aloud);
    }
    for (size_t i = 0; i < course.steps; i++) {
        struct marker_step step = next_step(&random, &course);
        tell_and_make(&step, aloud);
        pairs[step.marker].reopened |= step.kind == MARKER_OPEN;
    }
}

void hold_marker_case(const struct marker_case *written)
{
    struct random random = random_for(0, 0);
    struct marker_step open = { .kind = MARKER_OPEN, .flows = written->flows };
    hold_now(written->name);
    begin_list(1, 0, &random);
    if (make(&open).refusal != written->refusal)
        failed("an opening that is written down");
    for (int i = 0; i < written->count; i++) {
        struct marker_step step = { .kind = MARKER_MARK, .flow = written->packets[i].flow,
                                    .length = written->packets[i].length,
                                    .at = written->packets[i].at };
        bilgethrum_marking given = make(&step);
        if (given.refusal != written->packets[i].answer.refusal
            || given.marked != written->packets[i].answer.marked)
            failed("a marking that is written down");
    }
}
