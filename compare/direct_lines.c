/* Makes lists of open, arrive, advance and tally on several lines at once, on both sides. */
#include <inttypes.h>
#include <stdio.h>
#include <string.h>

#include "areas.h"
#include "direct.h"
#include "direct_counters.h"
#include "direct_pick.h"
#include "direct_tell.h"
#include "hold.h"
#include "second_line.h"

/* One line on both sides.  The archive's lies in area, among guard bytes. */
struct pair {
    struct second_line second;
    struct area area;
    bool refused_settings;
    bool reopened;
    bool copied;
};

static struct room rooms[MOST_LINES];
static struct pair pairs[MOST_LINES];
static struct aim aims[MOST_LINES];
static struct step list[MOST_LINES + MOST_STEPS];
static size_t listed;
static bilgethrum_line before;

void lines_begin(void)
{
    for (int i = 0; i < MOST_LINES; i++)
        rooms[i] = room_of(sizeof(bilgethrum_line));
}

static bilgethrum_line *line_of(const struct pair *pair)
{
    return (bilgethrum_line *)(void *)area_bytes(&pair->area);
}

static _Noreturn void failed(const char *why)
{
    printf("the list of calls, the last of which differs:\n");
    for (size_t i = 0; i < listed; i++)
        tell_step(&list[i]);
    hold_failed(why);
}

/* A refused call leaves every word as it was; no call may touch what lies around them. */
static void hold_words(const struct pair *pair, bool must_be_as_before)
{
    if (!untouched_from(&pair->area, pair->area.length))
        failed("bytes around the line's words were changed");
    if (must_be_as_before && memcmp(line_of(pair), &before, sizeof before) != 0)
        failed("a call that must change no word of the line changed one");
}

static void open_pair(struct pair *pair, struct aim *aim, struct random *random,
                      const struct step *step)
{
    int wanted = second_open(&pair->second, step->settings.alpha, step->settings.ticks_per_byte);
    uint32_t given = bilgethrum_open(line_of(pair), step->settings);
    count_call(CALL_OPEN, given);
    if (given != (uint32_t)wanted) {
        printf("wanted: refusal %d\ngiven: refusal %" PRIu32 "\n", wanted, given);
        failed("an opening");
    }
    hold_words(pair, false);
    aim_open(aim, random, pair->second.alpha, pair->second.ticks_per_byte);
    pair->refused_settings = wanted != 0;
}

static void arrive_at_pair(struct pair *pair, const struct step *step)
{
    struct event event = event_of(step);
    struct second_answer answer = second_take(&pair->second, &event);
    bilgethrum_arrival wanted = { (uint32_t)answer.refusal, (uint32_t)answer.number,
                                  answer.extra_delay };
    bilgethrum_arrival given = bilgethrum_arrive(line_of(pair), step->packet);
    count_call(CALL_ARRIVE, given.refusal);
    if (given.refusal != wanted.refusal || given.number != wanted.number
        || given.extra != wanted.extra) {
        tell_arrival("wanted", wanted);
        tell_arrival("given", given);
        failed("an arrival");
    }
    hold_words(pair, wanted.refusal != 0);
    if (wanted.refusal != 0)
        return;
    count_outcome(event.kind == MARKED ? MARKED_ADMITTED : UNMARKED_ADMITTED);
    if (pair->refused_settings)
        count_outcome(ADMITTED_UNDER_REFUSED_SETTINGS);
}

static void count_decision(const struct pair *pair, const bilgethrum_decision *decision)
{
    if (decision->number == 0) {
        count_outcome(NOTHING_DUE);
        return;
    }
    count_outcome(decision->packet.marked != 0 ? MARKED_STARTED : UNMARKED_STARTED);
    if (decision->dropped != 0)
        count_outcome(decision->dropped == 1 ? STARTED_DROPPING_ONE : STARTED_DROPPING_SEVERAL);
    if (decision->dropped == WAITING_ROOM)
        count_outcome(STARTED_DROPPING_ALL);
    if (pair->copied)
        count_outcome(STARTED_FROM_COPY);
    if (pair->reopened)
        count_outcome(STARTED_AFTER_REOPENING);
}

static bool same_packet(const bilgethrum_packet *one, const bilgethrum_packet *other)
{
    return one->arrival == other->arrival && one->length == other->length
           && one->place == other->place && one->marked == other->marked;
}

static void advance_pair(struct pair *pair, const struct step *step)
{
    struct event event = event_of(step);
    struct second_answer answer = second_take(&pair->second, &event);
    bilgethrum_decision wanted = {
        .refusal = (uint32_t)answer.refusal, .number = (uint32_t)answer.number,
        .start = answer.start, .extra = answer.extra_delay, .dropped = (uint32_t)answer.dropped,
        .packet = { .arrival = answer.packet.arrival, .length = (uint32_t)answer.packet.length,
                    .place = (uint32_t)answer.packet.place,
                    .marked = answer.packet.marking == MARKED } };
    bilgethrum_decision given = bilgethrum_advance(line_of(pair), step->at);
    count_call(CALL_ADVANCE, given.refusal);
    if (given.refusal != wanted.refusal || given.number != wanted.number
        || given.start != wanted.start || given.extra != wanted.extra
        || given.dropped != wanted.dropped || !same_packet(&given.packet, &wanted.packet)) {
        tell_decision("wanted", wanted);
        tell_decision("given", given);
        failed("an advance");
    }
    hold_words(pair, wanted.refusal != 0);
    if (wanted.refusal == 0)
        count_decision(pair, &wanted);
}

static void hold_tallies(const struct pair *pair)
{
    const struct second_line *second = &pair->second;
    bilgethrum_tallies wanted = { (uint32_t)second_admitted(second, UNMARKED),
                                  (uint32_t)second_admitted(second, MARKED),
                                  (uint32_t)second_tally(second, UNMARKED, STARTED),
                                  (uint32_t)second_tally(second, MARKED, STARTED),
                                  (uint32_t)second_tally(second, MARKED, DROPPED) };
    memcpy(&before, line_of(pair), sizeof before);
    bilgethrum_tallies given = bilgethrum_tally(line_of(pair));
    count_call(CALL_TALLY, 0);
    /* Five numbers of one width have no bytes between them. */
    if (memcmp(&given, &wanted, sizeof given) != 0) {
        tell_tallies("wanted", wanted);
        tell_tallies("given", given);
        failed("the tallies");
    }
    hold_words(pair, true);
}

static void copy_pair(const struct step *step)
{
    struct pair *to = &pairs[step->line];
    const struct pair *from = &pairs[step->from];
    memcpy(line_of(to), line_of(from), sizeof(bilgethrum_line));
    to->second = from->second;
    to->refused_settings = from->refused_settings;
    to->copied = true;
    aims[step->line] = aims[step->from];
}

static void make(const struct step *picked, struct random *random)
{
    struct step *step = &list[listed++];
    *step = *picked;
    fill_gaps(step);
    struct pair *pair = &pairs[step->line];
    memcpy(&before, line_of(pair), sizeof before);
    switch (step->kind) {
    case STEP_OPEN:
        open_pair(pair, &aims[step->line], random, step);
        break;
    case STEP_ARRIVE:
        arrive_at_pair(pair, step);
        break;
    case STEP_ADVANCE:
        advance_pair(pair, step);
        break;
    case STEP_COPY:
        copy_pair(step);
        break;
    }
    if (step->kind == STEP_ARRIVE || step->kind == STEP_ADVANCE) {
        struct event event = event_of(step);
        aim_follow(&aims[step->line], &event);
    }
    hold_tallies(pair);
}

static void tell_and_make(const struct step *step, struct random *random, bool aloud)
{
    if (aloud) {
        tell_step(step);
        fflush(stdout);
    }
    make(step, random);
}

/* Begins a list on so many lines; odd and even lines lie at the two ends of their rooms. */
static void begin_list(unsigned lines, uint64_t index)
{
    listed = 0;
    for (unsigned i = 0; i < lines; i++) {
        pairs[i].area = lend(&rooms[i], sizeof(bilgethrum_line), sizeof(uint32_t),
                             (index + i) % 2 == 0);
        pairs[i].reopened = false;
        pairs[i].copied = false;
    }
}

void hold_lines(uint64_t index, uint64_t seed, bool aloud)
{
    static char what[96];
    struct random random = random_for(seed, index);
    struct course course = pick_course(&random);
    snprintf(what, sizeof what, "calls on lines, list %" PRIu64 " of seed %" PRIu64, index, seed);
    hold_now(what);
    begin_list(course.lines, index);
    for (unsigned i = 0; i < course.lines; i++) {
        struct step open = pick_open(&random, i);
        tell_and_make(&open, &random, aloud);
    }
    for (size_t i = 0; i < course.steps; i++) {
        struct step step = pick_step(&random, &course, aims);
        tell_and_make(&step, &random, aloud);
        pairs[step.line].reopened |= step.kind == STEP_OPEN;
    }
}

void hold_trace_by_calls(const char *name, const struct trace *trace)
{
    struct random random = random_for(0, 0);
    struct step open = { .kind = STEP_OPEN,
                         .settings = { trace->alpha, (uint32_t)trace->ticks_per_byte } };
    hold_now(name);
    begin_list(1, 0);
    make(&open, &random);
    for (size_t i = 0; i < trace->count; i++) {
        struct step step = step_of(&trace->events[i], 0);
        make(&step, &random);
    }
}
