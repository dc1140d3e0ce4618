/* Makes the benchmark's images; the random ones look at the baseline's line, so that most calls
 * are admitted. */
#include "images.h"

#include "baseline_line.h"
#include "random.h"
#include "trace_text.h"

static struct trace trace;

static void begin(uint64_t alpha, uint64_t ticks_per_byte)
{
    trace.alpha = alpha;
    trace.ticks_per_byte = ticks_per_byte;
    trace.count = 0;
}

/* Events past the most that a trace may have are left out. */
static void append(enum kind kind, uint64_t length, uint64_t instant)
{
    if (trace.count < MOST_EVENTS)
        trace.events[trace.count++] =
            (struct event){ .kind = kind, .length = length, .instant = instant };
}

static void finish(struct image *image)
{
    image->length = trace_to_image(&trace, image->bytes);
    image->events = trace.count;
}

void image_periodic(struct image *image, bool drops, uint64_t from)
{
    begin(100, 1);
    for (uint64_t at = from; trace.count < MOST_EVENTS; at += 200) {
        append(MARKED, 100, at);
        append(ADVANCE, 0, at);
        for (uint64_t i = 0; i < 3; i++)
            append(MARKED, drops ? 60 : 10, at + 10 * i);
        append(UNMARKED, 20, at + 30);
        for (int i = 0; i < (drops ? 1 : 4); i++)
            append(ADVANCE, 0, at + 199);
    }
    finish(image);
}

/* An instant before the clock is refused with 3, one past the due instant with 5. */
static uint64_t refused_instant(struct random *random, const struct baseline_line *line)
{
    return random_percent(random, 50) && line->clock != 0 ? line->clock - 1 : line->free + 1;
}

/* While packets wait, arrivals come up to the due instant, and most advances go there. */
static uint64_t random_instant(struct random *random, const struct baseline_line *line,
                               enum kind kind)
{
    if (random_percent(random, 3))
        return refused_instant(random, line);
    if (!baseline_waiting(line))
        return line->clock + random_below(random, 500);
    if (line->free <= line->clock)
        return line->clock;
    if (kind == ADVANCE && random_percent(random, 85))
        return line->free;
    return random_between(random, line->clock, line->free);
}

static enum kind random_kind(struct random *random)
{
    if (random_percent(random, 50))
        return ADVANCE;
    return random_percent(random, 40) ? UNMARKED : MARKED;
}

static void follow(struct baseline_line *line, const struct event *event)
{
    uint32_t extra_delay;
    bool decided;
    struct baseline_start start;
    if (event->kind == UNMARKED)
        baseline_unmarked(line, (uint32_t)event->length, event->instant, &extra_delay);
    else if (event->kind == MARKED)
        baseline_marked(line, (uint32_t)event->length, event->instant);
    else
        baseline_advance(line, event->instant, &decided, &start);
}

/* Without drops alpha is more than all marked packets that can wait take together; with
 * drops it is some of them, or a bit less than the longest. */
void image_random(struct image *image, bool drops, uint64_t from, uint64_t seed)
{
    struct random random = random_for(seed, drops);
    uint64_t ticks_per_byte = random_between(&random, 1, drops ? MOST_TICKS_PER_BYTE : 8);
    uint64_t longest = random_between(&random, 100, drops ? MOST_LENGTH : 1500);
    uint64_t alpha = drops ? longest * ticks_per_byte * random_between(&random, 95, 400) / 100
                           : random_between(&random, 800000, MOST_ALPHA);
    struct baseline_line line;
    begin(alpha, ticks_per_byte);
    baseline_open(&line, (uint32_t)alpha, (uint32_t)ticks_per_byte);
    append(ADVANCE, 0, from);
    while (trace.count < MOST_EVENTS) {
        follow(&line, &trace.events[trace.count - 1]);
        enum kind kind = random_kind(&random);
        uint64_t length = kind == ADVANCE ? 0 : random_between(&random, 1, longest);
        append(kind, length, random_instant(&random, &line, kind));
    }
    finish(image);
}

enum { UNMARKED_TIME = 2048 * 64, MARKED_TIME = 64 };

/* All extra delays and most starts have equally many digits, whatever waits, so that only
 * the number waiting makes a difference. */
void image_waiting(uint64_t waiting, struct image *filled, struct image *whole)
{
    begin(MOST_ALPHA, 64);
    append(MARKED, 2048, 0);
    append(ADVANCE, 0, 0);
    for (uint64_t i = 0; i < waiting; i++)
        append(i % 2 == 0 ? UNMARKED : MARKED, i % 2 == 0 ? 2048 : 1, 0);
    finish(filled);
    uint64_t due = UNMARKED_TIME;
    for (int i = 0; i < TURNED_EVENTS / 2; i++) {
        append(ADVANCE, 0, due);
        append(i % 2 == 0 ? UNMARKED : MARKED, i % 2 == 0 ? 2048 : 1, due);
        due += i % 2 == 0 ? UNMARKED_TIME : MARKED_TIME;
    }
    finish(whole);
}

void image_of_kind(struct image *image, enum kind kind)
{
    begin(100, 1);
    while (trace.count < MOST_EVENTS)
        append(kind, kind == ADVANCE ? 0 : 50, trace.count);
    finish(image);
}

void image_spoil(struct image *image, size_t block)
{
    image->bytes[block * BLOCK_BYTES] ^= 1;
}
