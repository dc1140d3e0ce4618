/* Counts lines, refusals and situations; a replay on the baseline's line tells the situations. */
#include "counters.h"

#include <stdio.h>
#include <string.h>

#include "baseline_line.h"

enum situation {
    TIE_AT_ALPHA,
    ONE_ABOVE_ALPHA,
    ALPHA_EXTRA,
    ARRIVAL_AT_DEPARTURE,
    AFTER_MARKED_START_AT_DEPARTURE,
    EXTRA_FROM_PREDECESSOR,
    PREDECESSOR_ON_LINE,
    UNMARKED_ROOM_FULL,
    MARKED_ROOM_FULL,
    BOTH_ROOMS_FULL,
    UNMARKED_REFUSED_6,
    MARKED_REFUSED_6,
    UNMARKED_AFTER_FULL,
    MARKED_AFTER_FULL,
    START_BEFORE_CLOCK,
    START_BY_ARRIVAL,
    LAST_INSTANT,
    LONGEST_TIME,
    SITUATIONS
};

static const char *const situation_names[SITUATIONS] = {
    [TIE_AT_ALPHA] = "marked starts with extra delay plus time exactly alpha",
    [ONE_ABOVE_ALPHA] = "marked dropped with extra delay plus time alpha + 1",
    [ALPHA_EXTRA] = "unmarked starts with extra delay exactly alpha",
    [ARRIVAL_AT_DEPARTURE] = "unmarked arrives at a departure instant, none waiting",
    [AFTER_MARKED_START_AT_DEPARTURE] = "unmarked arrives just as a marked one started (as P8)",
    [EXTRA_FROM_PREDECESSOR] = "extra delay below U, from a waiting predecessor",
    [PREDECESSOR_ON_LINE] = "extra delay below U, from a predecessor on the line",
    [UNMARKED_ROOM_FULL] = "unmarked room fills up",
    [MARKED_ROOM_FULL] = "marked room fills up",
    [BOTH_ROOMS_FULL] = "both rooms full at once",
    [UNMARKED_REFUSED_6] = "unmarked refused with 6",
    [MARKED_REFUSED_6] = "marked refused with 6",
    [UNMARKED_AFTER_FULL] = "unmarked admitted again after 6",
    [MARKED_AFTER_FULL] = "marked admitted again after 6",
    [START_BEFORE_CLOCK] = "start dated before the instant of the advance",
    [START_BY_ARRIVAL] = "start due by the head's arrival, not by the line",
    [LAST_INSTANT] = "event at 10^15 not refused",
    [LONGEST_TIME] = "transmission of 131,072 ticks admitted"
};

/* Event counts at which blocks fill up. */
static const size_t boundary_counts[] = { 1, 30, 31, 32, 62, 63, MOST_EVENTS };

/* Refusals of an image that are a block's, and those that are a record's. */
static const int block_refusals[] = { 12, 13, 14, 15, 16, 19 };
static const int record_refusals[] = { 17, 41, 42, 43, 44 };

enum {
    BOUNDARIES = sizeof boundary_counts / sizeof boundary_counts[0],
    BLOCK_REFUSALS = sizeof block_refusals / sizeof block_refusals[0],
    RECORD_REFUSALS = sizeof record_refusals / sizeof record_refusals[0],
    REFUSALS = 45
};

static unsigned long long situations[SITUATIONS];
static unsigned long long letters[128];
static unsigned long long starts_dropping[3];       /* none, one, several */
static unsigned long long unmarked_with_extra;
static unsigned long long line_refusals[8];
static unsigned long long image_refusals[REFUSALS][2][2];   /* block 0 or later, record so too */
static unsigned long long at_boundary[BOUNDARIES];

static void count_line(const char *line)
{
    unsigned long long number, start, extra, dropped, block, record;
    letters[(unsigned char)line[0]]++;
    if (sscanf(line, "S %llu %llu %llu %llu", &number, &start, &extra, &dropped) == 4)
        starts_dropping[dropped < 2 ? dropped : 2]++;
    else if (sscanf(line, "A %llu %llu", &number, &extra) == 2)
        unmarked_with_extra += extra != 0;
    else if (sscanf(line, "R %llu", &number) == 1)
        line_refusals[number % 8]++;
    else if (sscanf(line, "X %llu %llu %llu", &number, &block, &record) == 3)
        image_refusals[number % REFUSALS][block != 0][record != 0]++;
}

void count_text(const struct text *text)
{
    static char line[64];
    size_t at = 0;
    while (at < text->length) {
        const uint8_t *end = memchr(text->bytes + at, '\n', text->length - at);
        size_t length = (size_t)(end - (text->bytes + at));
        memcpy(line, text->bytes + at, length);
        line[length] = 0;
        count_line(line);
        at += length + 1;
    }
}

/* What the replay remembers between events. */
struct replay {
    struct baseline_line line;
    bool unmarked_was_refused;
    bool marked_was_refused;
    uint64_t last_start;
    bool last_was_marked;
};

static void count_rooms(struct replay *replay, bool *was_refused, int refusal,
                        enum situation refused, enum situation again)
{
    situations[refused] += refusal == 6;
    situations[again] += refusal == 0 && *was_refused;
    situations[BOTH_ROOMS_FULL] += refusal == 0
        && baseline_unmarked_waiting(&replay->line) == BASELINE_ROOM
        && baseline_marked_waiting(&replay->line) == BASELINE_ROOM;
    if (refusal == 0 || refusal == 6)
        *was_refused = refusal == 6;
}

static void replay_unmarked(struct replay *replay, const struct event *event)
{
    struct baseline_line *line = &replay->line;
    struct baseline_line before = *line;
    uint32_t extra;
    int refusal = baseline_unmarked(line, (uint32_t)event->length, event->instant, &extra);
    count_rooms(replay, &replay->unmarked_was_refused, refusal, UNMARKED_REFUSED_6,
                UNMARKED_AFTER_FULL);
    if (refusal != 0)
        return;
    uint64_t rest = before.free > event->instant ? before.free - event->instant : 0;
    bool none_waited = baseline_unmarked_waiting(&before) == 0;
    bool below = extra < rest + before.unmarked_work;
    situations[EXTRA_FROM_PREDECESSOR] += below && !none_waited;
    situations[PREDECESSOR_ON_LINE] += below && none_waited;
    situations[ARRIVAL_AT_DEPARTURE] += none_waited && before.unmarked_started != 0
                                        && before.free == event->instant;
    situations[AFTER_MARKED_START_AT_DEPARTURE] += none_waited && before.unmarked_started != 0
        && replay->last_was_marked && replay->last_start == event->instant;
    situations[UNMARKED_ROOM_FULL] += baseline_unmarked_waiting(line) == BASELINE_ROOM;
    situations[LONGEST_TIME] += event->length * line->ticks_per_byte == 131072;
    situations[LAST_INSTANT] += event->instant == MOST_INSTANT;
}

static void replay_marked(struct replay *replay, const struct event *event)
{
    struct baseline_line *line = &replay->line;
    int refusal = baseline_marked(line, (uint32_t)event->length, event->instant);
    count_rooms(replay, &replay->marked_was_refused, refusal, MARKED_REFUSED_6,
                MARKED_AFTER_FULL);
    if (refusal == 0)
        situations[MARKED_ROOM_FULL] += baseline_marked_waiting(line) == BASELINE_ROOM;
}

/* A marked packet at the head with unmarked ones waiting: how near alpha it comes. */
static void count_nearness(const struct baseline_line *before, const struct baseline_start *start)
{
    if (before->first_unmarked == 0 || before->first_unmarked == before->gone + 1)
        return;
    uint32_t time = baseline_time(before, before->gone + 1);
    situations[TIE_AT_ALPHA] += time == before->spare && start->dropped == 0;
    situations[ONE_ABOVE_ALPHA] += time == before->spare + 1 && start->dropped != 0;
}

static void replay_advance(struct replay *replay, const struct event *event)
{
    struct baseline_line *line = &replay->line;
    struct baseline_line before = *line;
    bool decided;
    struct baseline_start start;
    if (baseline_advance(line, event->instant, &decided, &start) != 0)
        return;
    situations[LAST_INSTANT] += event->instant == MOST_INSTANT;
    if (!decided)
        return;
    count_nearness(&before, &start);
    replay->last_start = start.instant;
    replay->last_was_marked = start.marked;
    situations[ALPHA_EXTRA] += start.extra_delay == line->alpha;
    situations[START_BEFORE_CLOCK] += start.instant < event->instant;
}

/* The line idle when a packet comes means that its arrival is the due instant. */
static void count_idle(const struct replay *replay, const struct event *event)
{
    situations[START_BY_ARRIVAL] += event->kind != ADVANCE && !baseline_waiting(&replay->line)
                                    && replay->line.free < event->instant;
}

void count_trace(const struct trace *trace)
{
    struct replay replay = { .last_was_marked = false };
    baseline_open(&replay.line, (uint32_t)trace->alpha, (uint32_t)trace->ticks_per_byte);
    for (size_t i = 0; i < BOUNDARIES; i++)
        at_boundary[i] += trace->count == boundary_counts[i];
    for (size_t i = 0; i < trace->count; i++) {
        const struct event *event = &trace->events[i];
        count_idle(&replay, event);
        if (event->kind == UNMARKED)
            replay_unmarked(&replay, event);
        else if (event->kind == MARKED)
            replay_marked(&replay, event);
        else
            replay_advance(&replay, event);
    }
}

static bool print_counter(unsigned long long count, const char *name)
{
    printf("%12llu  %s%s\n", count, name, count == 0 ? "   <-- NEVER REACHED" : "");
    return count != 0;
}

static bool print_lines(void)
{
    bool all = print_counter(letters['A'], "A unmarked admitted");
    all &= print_counter(unmarked_with_extra, "  with an extra delay above 0");
    all &= print_counter(letters['M'], "M marked admitted");
    all &= print_counter(letters['S'], "S started");
    all &= print_counter(starts_dropping[0], "  dropping none");
    all &= print_counter(starts_dropping[1], "  dropping one");
    all &= print_counter(starts_dropping[2], "  dropping several");
    all &= print_counter(letters['N'], "N nothing due");
    all &= print_counter(line_refusals[3], "R 3");
    all &= print_counter(line_refusals[4], "R 4");
    all &= print_counter(line_refusals[5], "R 5");
    all &= print_counter(line_refusals[6], "R 6");
    return all & print_counter(letters['T'], "T tally lines");
}

/* 11 has block 0 only; every other refusal must come in block 0 and in a later one, and a
 * record's in record 0 and in a later one of each. */
static bool print_image_refusals(void)
{
    static const char *const blocks[] = { "block 0", "a later block" };
    static const char *const records[] = { "record 0", "a later record" };
    char name[64];
    bool all = print_counter(image_refusals[11][0][0], "X 11");
    for (int i = 0; i < 2 * BLOCK_REFUSALS; i++) {
        int refusal = block_refusals[i / 2], block = i % 2;
        snprintf(name, sizeof name, "X %d in %s", refusal, blocks[block]);
        all &= print_counter(image_refusals[refusal][block][0], name);
    }
    for (int i = 0; i < 4 * RECORD_REFUSALS; i++) {
        int refusal = record_refusals[i / 4], block = i / 2 % 2, record = i % 2;
        snprintf(name, sizeof name, "X %d in %s of %s", refusal, records[record], blocks[block]);
        all &= print_counter(image_refusals[refusal][block][record], name);
    }
    return all;
}

bool print_counters(void)
{
    char name[64];
    printf("lines reached:\n");
    bool all = print_lines();
    printf("refusals of images reached:\n");
    all &= print_image_refusals();
    printf("situations reached:\n");
    for (int i = 0; i < SITUATIONS; i++)
        all &= print_counter(situations[i], situation_names[i]);
    printf("traces at a boundary:\n");
    for (int i = 0; i < BOUNDARIES; i++) {
        snprintf(name, sizeof name, "%zu events", boundary_counts[i]);
        all &= print_counter(at_boundary[i], name);
    }
    return all;
}
