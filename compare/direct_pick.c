/* Takes aimed events and makes some of their numbers wild; now and then opens or copies a line. */
#include "direct_pick.h"

#include <string.h>

#define COUNT(array) (sizeof(array) / sizeof(array)[0])

struct course pick_course(struct random *random)
{
    static const unsigned wild[] = { 0, 1, 5, 40 };
    struct course course = { .wild = wild[random_below(random, COUNT(wild))],
                             .lines = (unsigned)random_between(random, 1, MOST_LINES) };
    uint64_t pick = random_below(random, 100);
    if (pick == 0)
        course.steps = random_between(random, 600, MOST_STEPS);
    else
        course.steps = random_between(random, 1, pick < 30 ? 60 : 600);
    return course;
}

static uint64_t pick_alpha(struct random *random)
{
    static const uint64_t some[] = { 0, 1, MOST_ALPHA, MOST_ALPHA + 1, UINT64_C(1) << 32,
                                     (UINT64_C(1) << 32) + 100, UINT64_MAX };
    if (random_percent(random, 85))
        return generate_alpha(random);
    return some[random_below(random, COUNT(some))];
}

static uint32_t pick_ticks(struct random *random)
{
    static const uint32_t some[] = { 0, 1, 64, 65, 256, 257, 65535, 65536, 65537, UINT32_MAX };
    if (random_percent(random, 85))
        return (uint32_t)generate_ticks(random);
    return some[random_below(random, COUNT(some))];
}

bilgethrum_settings pick_settings(struct random *random)
{
    return (bilgethrum_settings){ .alpha = pick_alpha(random),
                                  .ticks_per_byte = pick_ticks(random) };
}

uint64_t wild_instant(struct random *random, uint64_t clock)
{
    switch (random_below(random, 9)) {
    case 0:
        return MOST_INSTANT + 1;
    case 1:
        return UINT64_MAX;
    case 2:
        return clock - 1;               /* at 0 this is the last of all numbers */
    case 3:
        return 0;
    case 4:
        return UINT64_C(1) << 63 | clock;
    case 5:
        return clock & UINT32_MAX;
    case 6:
        return random_next(random);
    case 7:
        return random_percent(random, 5) ? MOST_INSTANT : MOST_INSTANT + 2;
    default:
        return random_percent(random, 5) ? clock + (UINT64_C(1) << 32) : clock;
    }
}

uint32_t wild_length(struct random *random)
{
    static const uint32_t some[] = { 0, 0, MOST_LENGTH, MOST_LENGTH + 1, 65536, 65537,
                                     UINT32_C(1) << 31, UINT32_MAX };
    if (random_percent(random, 20))
        return (uint32_t)random_next(random);
    return some[random_below(random, COUNT(some))];
}

/* Anything but 0 is marked, whichever of its bytes is not 0. */
static uint32_t some_marked(struct random *random)
{
    static const uint32_t some[] = { 2, 256, 65536, UINT32_C(1) << 31, UINT32_MAX };
    return random_percent(random, 90) ? 1 : some[random_below(random, COUNT(some))];
}

struct step pick_open(struct random *random, unsigned line)
{
    return (struct step){ .kind = STEP_OPEN, .line = line, .settings = pick_settings(random) };
}

struct step step_of(const struct event *event, unsigned line)
{
    if (event->kind == ADVANCE)
        return (struct step){ .kind = STEP_ADVANCE, .line = line, .at = event->instant };
    return (struct step){
        .kind = STEP_ARRIVE,
        .line = line,
        .packet = { .arrival = event->instant, .length = (uint32_t)event->length,
                    .place = (uint32_t)event->place, .marked = event->kind == MARKED } };
}

static struct step pick_call(struct random *random, unsigned wild, unsigned line,
                             struct aim *aim)
{
    struct event event = aim_event(aim, random);
    if (random_percent(random, wild))
        event.instant = wild_instant(random, aim->line.clock);
    if (event.kind != ADVANCE && random_percent(random, wild))
        event.length = wild_length(random);
    struct step step = step_of(&event, line);
    if (event.kind == MARKED)
        step.packet.marked = some_marked(random);
    return step;
}

struct step pick_step(struct random *random, const struct course *course, struct aim *aims)
{
    unsigned line = (unsigned)random_below(random, course->lines);
    unsigned other = (unsigned)random_below(random, course->lines);
    uint64_t pick = random_below(random, 200);
    if (pick == 0)
        return pick_open(random, line);
    if (pick == 1 && other != line)
        return (struct step){ .kind = STEP_COPY, .line = line, .from = other };
    return pick_call(random, course->wild, line, &aims[line]);
}

struct event event_of(const struct step *step)
{
    if (step->kind == STEP_ADVANCE)
        return (struct event){ .kind = ADVANCE, .instant = step->at };
    return (struct event){ .kind = step->packet.marked != 0 ? MARKED : UNMARKED,
                           .length = step->packet.length, .place = step->packet.place,
                           .instant = step->packet.arrival };
}

void fill_gaps(struct step *step)
{
    bilgethrum_settings settings = step->settings;
    bilgethrum_packet packet = step->packet;
    memset(&step->settings, 0xa5, sizeof step->settings);
    memset(&step->packet, 0xa5, sizeof step->packet);
    step->settings.alpha = settings.alpha;
    step->settings.ticks_per_byte = settings.ticks_per_byte;
    step->packet.arrival = packet.arrival;
    step->packet.length = packet.length;
    step->packet.place = packet.place;
    step->packet.marked = packet.marked;
}
