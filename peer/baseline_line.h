/* The baseline's scheduler: a ring of times and a difference queue, constant time per event. */
#ifndef BASELINE_LINE_H
#define BASELINE_LINE_H

#include <stdbool.h>
#include <stdint.h>

/* A ring of all waiting packets has two rooms, one for each marking. */
enum { BASELINE_ROOM = 64, BASELINE_RING = 2 * BASELINE_ROOM };

#define BASELINE_MOST_INSTANT UINT64_C(1000000000000000)

/* Later than every instant: when the next decision is due while none waits. */
#define BASELINE_NEVER UINT64_MAX

/* More than all marked packets take together, and far from where a number wraps. */
#define BASELINE_AMPLE (UINT64_C(1) << 60)

/* Aligned as a word of 32 bits, so that a line may lie in a host's array of those. */
typedef uint64_t baseline_ticks __attribute__((aligned(4)));

/* A waiting unmarked packet. */
struct baseline_unmarked {
    uint32_t number;
    uint32_t difference;    /* its predecessor's extra delay less its own */
};

/* Admitted packets are numbered without gaps, so those that wait are gone + 1 to admitted,
 * the number tells a packet's slot in a ring, and the marked ones ahead of an unmarked one
 * are counted by subtraction.
 *
 * No two numbers that one call changes stand side by side: the compiler would join them in a
 * wide register first, and the next call would wait longer for them. */
struct baseline_line {
    baseline_ticks clock;
    uint32_t alpha;
    uint32_t ticks_per_byte;
    baseline_ticks free;        /* when the line falls free; while packets wait: the due instant */
    uint32_t unmarked_started;
    uint32_t marked_dropped;
    baseline_ticks due;         /* free while packets wait, else BASELINE_NEVER */
    uint32_t first_unmarked;    /* the number of the first waiting unmarked packet, or 0 */
    uint32_t admitted;
    baseline_ticks spare;       /* alpha less the extra delay of the first waiting unmarked packet,
                                   or ample where none waits */
    uint32_t gone;              /* the last number that started or was dropped */
    uint32_t unmarked_admitted;
    baseline_ticks bound;       /* what a new extra delay is at most: that of the last unmarked
                                   packet, or more where a marked one started since */
    uint32_t unmarked_work;     /* transmission times of all waiting unmarked packets */
    uint32_t time[BASELINE_RING];                       /* by number */
    struct baseline_unmarked unmarked[BASELINE_ROOM];   /* by how many unmarked came before */
};

struct baseline_start {
    uint64_t instant;
    uint32_t number;
    uint32_t extra_delay;
    uint32_t dropped;
    bool marked;
};

static inline void baseline_open(struct baseline_line *line, uint32_t alpha,
                                 uint32_t ticks_per_byte)
{
    line->clock = 0;
    line->free = 0;
    line->due = BASELINE_NEVER;
    line->spare = BASELINE_AMPLE;
    line->bound = 0;
    line->alpha = alpha;
    line->ticks_per_byte = ticks_per_byte;
    line->unmarked_work = 0;
    line->gone = 0;
    line->admitted = 0;
    line->first_unmarked = 0;
    line->unmarked_started = 0;
    line->unmarked_admitted = 0;
    line->marked_dropped = 0;
}

static inline bool baseline_waiting(const struct baseline_line *line)
{
    return line->gone != line->admitted;
}

static inline uint32_t baseline_unmarked_waiting(const struct baseline_line *line)
{
    return line->unmarked_admitted - line->unmarked_started;
}

static inline uint32_t baseline_marked_waiting(const struct baseline_line *line)
{
    return line->admitted - line->gone - baseline_unmarked_waiting(line);
}

static inline uint32_t baseline_marked_admitted(const struct baseline_line *line)
{
    return line->admitted - line->unmarked_admitted;
}

static inline uint32_t baseline_marked_started(const struct baseline_line *line)
{
    return line->gone - line->unmarked_started - line->marked_dropped;
}

static inline uint32_t baseline_time(const struct baseline_line *line, uint32_t number)
{
    return line->time[number % BASELINE_RING];
}

/* The refusals that both markings share, after 4 was looked for. */
static inline int baseline_no_room(const struct baseline_line *line, uint32_t waiting,
                                   uint64_t instant)
{
    if (line->due < instant)
        return 5;
    if (waiting == BASELINE_ROOM)
        return 6;
    return line->admitted == UINT32_MAX ? 7 : 0;
}

/* Where packets wait, the line falls free no earlier than the instant, since 5 was looked
 * for; so free changes only where none waits. */
static inline void baseline_admit(struct baseline_line *line, uint64_t instant, uint32_t time)
{
    line->clock = instant;
    line->free = line->free > instant ? line->free : instant;
    line->due = line->free;
    line->admitted++;
    line->time[line->admitted % BASELINE_RING] = time;
}

/* Puts the packet just admitted behind the unmarked ones that wait. */
static inline void baseline_line_up(struct baseline_line *line, uint32_t extra)
{
    uint32_t slot = line->unmarked_admitted % BASELINE_ROOM;
    line->unmarked[slot].number = line->admitted;
    line->unmarked[slot].difference = (uint32_t)line->bound - extra;
    line->bound = extra;
    line->unmarked_admitted++;
    if (line->first_unmarked == 0) {
        line->first_unmarked = line->admitted;
        line->spare = line->alpha - extra;
    }
}

/* Gives the refusal, or 0 and the packet's extra delay in *extra_delay.  Lengths and
 * the last instant are the caller's to judge: a trace's reader has done so before. */
static inline int baseline_unmarked(struct baseline_line *line, uint32_t length,
                                    uint64_t instant, uint32_t *extra_delay)
{
    if (instant < line->clock)
        return 3;
    int refusal = baseline_no_room(line, baseline_unmarked_waiting(line), instant);
    if (refusal != 0)
        return refusal;
    uint32_t time = length * line->ticks_per_byte;
    baseline_admit(line, instant, time);
    uint64_t extra = line->free - instant + line->unmarked_work;
    if (line->bound < extra)
        extra = line->bound;
    line->unmarked_work += time;
    baseline_line_up(line, (uint32_t)extra);
    *extra_delay = (uint32_t)extra;
    return 0;
}

static inline int baseline_marked(struct baseline_line *line, uint32_t length, uint64_t instant)
{
    uint32_t time = length * line->ticks_per_byte;
    if (instant < line->clock)
        return 3;
    if (time > line->alpha)
        return 4;
    int refusal = baseline_no_room(line, baseline_marked_waiting(line), instant);
    if (refusal != 0)
        return refusal;
    baseline_admit(line, instant, time);
    return 0;
}

/* Starts this packet: those between the head and it are dropped. */
static inline struct baseline_start baseline_start_of(struct baseline_line *line, uint32_t number,
                                                      bool marked)
{
    struct baseline_start start = { .instant = line->free, .number = number,
                                    .extra_delay = marked ? 0
                                                          : line->alpha - (uint32_t)line->spare,
                                    .dropped = number - line->gone - 1, .marked = marked };
    line->marked_dropped += start.dropped;
    line->gone = number;
    line->free += baseline_time(line, number);
    line->due = baseline_waiting(line) ? line->free : BASELINE_NEVER;
    return start;
}

/* Every waiting unmarked packet is put off by the marked one that starts.  Where none
 * waits, what is ample stays so, and the bound is no less than the rest of the packet on the
 * line, which is then the whole extra delay of the next that arrives. */
static inline struct baseline_start baseline_start_marked(struct baseline_line *line)
{
    uint32_t number = line->gone + 1;
    uint32_t time = baseline_time(line, number);
    line->spare -= time;
    line->bound += time;
    return baseline_start_of(line, number, true);
}

/* The next unmarked packet, if one waits, becomes the first. */
static inline void baseline_follow_up(struct baseline_line *line)
{
    uint32_t slot = ++line->unmarked_started % BASELINE_ROOM;
    bool waits = baseline_unmarked_waiting(line) != 0;
    line->first_unmarked = waits ? line->unmarked[slot].number : 0;
    line->spare = waits ? line->spare + line->unmarked[slot].difference : BASELINE_AMPLE;
}

static inline struct baseline_start baseline_start_unmarked(struct baseline_line *line)
{
    struct baseline_start start = baseline_start_of(line, line->first_unmarked, false);
    line->unmarked_work -= baseline_time(line, start.number);
    baseline_follow_up(line);
    return start;
}

static inline bool baseline_marked_is_next(const struct baseline_line *line)
{
    uint32_t head = line->gone + 1;
    return (line->first_unmarked != head) & (baseline_time(line, head) <= line->spare);
}

/* What comes of an advance before anything starts: gives 3, or 0 and the clock has passed on. */
static inline int baseline_pass(struct baseline_line *line, uint64_t instant)
{
    if (instant < line->clock)
        return 3;
    line->clock = instant;
    return 0;
}

static inline bool baseline_is_due(const struct baseline_line *line, uint64_t instant)
{
    return line->due <= instant;
}

/* Gives 3, or 0 with *decided saying whether a decision was due, then in *start. */
static inline int baseline_advance(struct baseline_line *line, uint64_t instant,
                                   bool *decided, struct baseline_start *start)
{
    int refusal = baseline_pass(line, instant);
    if (refusal != 0)
        return refusal;
    *decided = baseline_is_due(line, instant);
    if (*decided)
        *start = baseline_marked_is_next(line) ? baseline_start_marked(line)
                                               : baseline_start_unmarked(line);
    return 0;
}

#endif
