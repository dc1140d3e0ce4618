/* Makes traces event by event, looking at the baseline's line to aim at ties, departure
 * instants and full rooms.  A baseline that erred would aim badly, not judge badly. */
#include "generate.h"

/* How often each kind of event comes, and how often an instant is just the clock. */
struct mood {
    unsigned unmarked;
    unsigned marked;
    unsigned advance;
    unsigned at_clock;
};

static const struct mood moods[] = {
    { 30, 30, 40, 40 },         /* a bit of everything */
    { 80, 10, 10, 85 },         /* fills the unmarked room */
    { 10, 80, 10, 85 },         /* fills the marked room */
    { 47, 47, 6, 95 },          /* fills both */
    { 10, 50, 40, 30 },         /* many marked: drops and ties */
    { 10, 10, 80, 30 },         /* drains the queue */
    { 30, 30, 40, 5 },          /* wild instants */
};

enum { MOODS = sizeof moods / sizeof moods[0] };

static uint64_t later(uint64_t one, uint64_t other)
{
    return one > other ? one : other;
}

static uint64_t smaller(uint64_t one, uint64_t other)
{
    return one < other ? one : other;
}

static uint64_t less(uint64_t from, uint64_t amount)
{
    return from < amount ? 0 : from - amount;
}

uint64_t generate_alpha(struct random *random)
{
    static const uint64_t some[] = { 1, 2, 63, 64, 65, 131072, 999999, MOST_ALPHA };
    switch (random_below(random, 8)) {
    case 0:
        return some[random_below(random, sizeof some / sizeof some[0])];
    case 1:
        return random_between(random, 1, MOST_ALPHA);
    case 2:
        return random_between(random, 1, 5000);
    case 3:
        return random_between(random, 1, 40);
    default:
        return random_between(random, 50, 300);
    }
}

uint64_t generate_ticks(struct random *random)
{
    static const uint64_t some[] = { 1, 1, 1, 1, 2, 3, MOST_TICKS_PER_BYTE };
    if (random_percent(random, 20))
        return random_between(random, 1, MOST_TICKS_PER_BYTE);
    return some[random_below(random, sizeof some / sizeof some[0])];
}

/* Block boundaries often; the longest traces seldom, as they take the longest. */
static size_t pick_count(struct random *random)
{
    static const size_t boundaries[] = { 1, 2, 30, 31, 32, 61, 62, 63, 93, 94 };
    static const size_t longest[] = { 1953, 1954, 1983, MOST_EVENTS };
    unsigned pick = (unsigned)random_below(random, 1000);
    if (pick < 200)
        return boundaries[random_below(random, sizeof boundaries / sizeof boundaries[0])];
    if (pick < 205)
        return longest[random_below(random, sizeof longest / sizeof longest[0])];
    if (pick < 215)
        return random_between(random, 400, MOST_EVENTS);
    if (pick < 600)
        return random_between(random, 1, 60);
    return random_between(random, 60, 400);
}

static uint64_t pick_instant(struct random *random, const struct mood *mood,
                             const struct baseline_line *line)
{
    uint64_t clock = line->clock;
    uint64_t due = later(clock, line->free);
    if (random_percent(random, mood->at_clock))
        return clock;
    switch (random_below(random, 16)) {
    case 0:
        return due + 1;
    case 1:
        return less(clock, 1);
    case 2:
        return less(clock, random_below(random, 100));
    case 3:
        return clock + random_below(random, 200);
    case 4:
        return due + random_below(random, 5000);
    case 5:
    case 6:
        return less(due, 1);
    case 7:
    case 8:
    case 9:
        return random_between(random, clock, due);
    default:
        return due;
    }
}

static uint64_t pick_unmarked_length(struct random *random)
{
    switch (random_below(random, 8)) {
    case 0:
        return 1;
    case 1:
        return random_between(random, MOST_LENGTH - 1, MOST_LENGTH);
    case 2:
        return random_between(random, 1, MOST_LENGTH);
    default:
        return random_between(random, 1, 80);
    }
}

static uint64_t pick_marked_length(struct random *random, const struct baseline_line *line)
{
    uint64_t longest = line->alpha / line->ticks_per_byte;
    uint64_t room = less(line->alpha, line->bound) / line->ticks_per_byte;
    switch (random_below(random, 12)) {
    case 0:
        return longest + 1;
    case 1:
        return longest;
    case 2:
        return random_between(random, 1, MOST_LENGTH);
    case 3:
        return 1;
    case 4:
        return room;            /* reaches alpha with what waits now */
    case 5:
        return room + 1;
    default:
        return random_between(random, 1, longest / 3 + 1);
    }
}

static uint64_t in_length_range(uint64_t length)
{
    return smaller(later(length, 1), MOST_LENGTH);
}

/* The instant at which a first unmarked packet would have such an extra delay that
 * some of the marked packets ahead of it just reach alpha; one earlier passes it. */
static uint64_t tie_instant(struct random *random, const struct baseline_line *line)
{
    uint32_t marked = baseline_marked_waiting(line);
    uint64_t starts = random_between(random, 1, smaller(marked, 4));
    uint64_t times = 0;
    for (uint32_t i = 0; i < starts; i++)
        times += baseline_time(line, line->gone + 1 + i);
    return less(line->free, less(line->alpha, times) + random_below(random, 2));
}

static uint64_t pick_unmarked_instant(struct random *random, const struct mood *mood,
                                      const struct baseline_line *line)
{
    bool first = baseline_unmarked_waiting(line) == 0;
    if (first && baseline_marked_waiting(line) != 0 && random_percent(random, 60)) {
        uint64_t instant = tie_instant(random, line);
        if (instant >= line->clock)
            return instant;
    }
    return pick_instant(random, mood, line);
}

/* An advance mostly goes just to the due instant. */
static uint64_t pick_advance_instant(struct random *random, const struct mood *mood,
                                     const struct baseline_line *line)
{
    if (random_percent(random, 70))
        return later(line->clock, line->free);
    return random_below(random, 2000) == 0 ? MOST_INSTANT : pick_instant(random, mood, line);
}

static uint64_t pick_place(struct random *random)
{
    switch (random_below(random, 4)) {
    case 0:
        return random_next(random) & UINT32_MAX;
    case 1:
        return UINT32_MAX;
    default:
        return random_below(random, 3);
    }
}

static struct event pick_event(struct random *random, const struct mood *mood,
                               const struct baseline_line *line)
{
    struct event event = { .kind = ADVANCE };
    uint64_t pick = random_below(random, mood->unmarked + mood->marked + mood->advance);
    if (pick < mood->unmarked) {
        event.kind = UNMARKED;
        event.length = pick_unmarked_length(random);
        event.instant = pick_unmarked_instant(random, mood, line);
    } else if (pick < mood->unmarked + mood->marked) {
        event.kind = MARKED;
        event.length = in_length_range(pick_marked_length(random, line));
        event.instant = pick_instant(random, mood, line);
    } else {
        event.instant = pick_advance_instant(random, mood, line);
    }
    if (event.kind != ADVANCE)
        event.place = pick_place(random);
    event.instant = smaller(event.instant, MOST_INSTANT);
    return event;
}

void aim_open(struct aim *aim, struct random *random, uint64_t alpha, uint64_t ticks_per_byte)
{
    aim->mood = &moods[random_below(random, MOODS)];
    baseline_open(&aim->line, (uint32_t)alpha, (uint32_t)ticks_per_byte);
}

struct event aim_event(struct aim *aim, struct random *random)
{
    if (random_percent(random, 2))
        aim->mood = &moods[random_below(random, MOODS)];
    return pick_event(random, aim->mood, &aim->line);
}

/* Out of these ranges an event is refused with 1 or 2 and changes nothing. */
static bool in_range(const struct event *event)
{
    return event->instant <= MOST_INSTANT
           && (event->kind == ADVANCE || in_length_range(event->length) == event->length);
}

void aim_follow(struct aim *aim, const struct event *event)
{
    uint32_t extra_delay;
    bool decided;
    struct baseline_start start;
    if (!in_range(event))
        return;
    if (event->kind == UNMARKED)
        baseline_unmarked(&aim->line, (uint32_t)event->length, event->instant, &extra_delay);
    else if (event->kind == MARKED)
        baseline_marked(&aim->line, (uint32_t)event->length, event->instant);
    else
        baseline_advance(&aim->line, event->instant, &decided, &start);
}

void generate_trace(struct random *random, struct trace *trace)
{
    struct aim aim;
    trace->alpha = generate_alpha(random);
    trace->ticks_per_byte = generate_ticks(random);
    trace->count = pick_count(random);
    aim_open(&aim, random, trace->alpha, trace->ticks_per_byte);
    size_t i = 0;
    if (random_percent(random, 8)) {        /* a run that ends near the last instant */
        trace->events[0] = (struct event){
            .kind = ADVANCE, .instant = MOST_INSTANT - random_below(random, 20000) };
        aim_follow(&aim, &trace->events[i++]);
    }
    for (; i < trace->count; i++) {
        trace->events[i] = aim_event(&aim, random);
        aim_follow(&aim, &trace->events[i]);
    }
}
