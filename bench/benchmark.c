/* Measures the archive against the baseline, by ratios from one run.
 *
 * Both are called by turns on the same images and area, which an untimed call has warmed.
 * A figure is the lower quartile of many such turns, and a line for bench/table.awk, which
 * puts several such programs together whose code lies at different addresses. */
#include <stdio.h>
#include <stdlib.h>
#include <string.h>

#include "baseline.h"
#include "images.h"
#include "marks.h"
#include "pairs.h"
#include "turns.h"

typedef int64_t run_function(const uint8_t *, size_t, uint8_t *, size_t);

/* In a turn each image is run so often; random ones are many, lest the processor learn one. */
enum { CALLS = 8, CHECKS = 512 };

/* Images that are run one after the other, and what a run took. */
struct job {
    struct image *images;
    int count;
    int rounds;
    struct times times;
};

static uint8_t answer[BILGETHRUM_ANSWER_ENOUGH];

static double time_of(run_function *run, const struct job *job)
{
    double begin = nanoseconds();
    for (int round = 0; round < job->rounds; round++)
        for (int i = 0; i < job->count; i++)
            run(job->images[i].bytes, job->images[i].length, answer, sizeof answer);
    return (nanoseconds() - begin) / (job->rounds * job->count);
}

/* A ratio of two programs that do different work would say nothing. */
static void demand_same_text(const struct image *image)
{
    static uint8_t other[BILGETHRUM_ANSWER_ENOUGH];
    int64_t one = bilgethrum_run(image->bytes, image->length, answer, sizeof answer);
    int64_t two = baseline_run(image->bytes, image->length, other, sizeof other);
    if (one < 0 || one != two || memcmp(answer, other, (size_t)one) != 0) {
        fprintf(stderr, "benchmark: archive and baseline give different texts\n");
        exit(1);
    }
}

/* The machine's speed drifts, so what is to be compared is called by turns, and neither
 * side is always the first. */
static void measure_turn(struct job *job, int turn)
{
    if (turn % 2 == 0)
        job->times.archive[turn] = time_of(bilgethrum_run, job);
    job->times.baseline[turn] = time_of(baseline_run, job);
    if (turn % 2 != 0)
        job->times.archive[turn] = time_of(bilgethrum_run, job);
}

static void measure_by_turns(struct job *jobs, int count)
{
    for (int i = 0; i < count; i++)
        for (int j = 0; j < jobs[i].count; j++)
            demand_same_text(&jobs[i].images[j]);
    for (int turn = 0; turn < TURNS; turn++)
        for (int i = 0; i < count; i++)
            measure_turn(&jobs[i], turn);
}

static struct image images[CALLS];

/* The cost of a run on the first of the images, this many by turns. */
static struct cost measure(int count, int calls)
{
    static struct job job;
    job = (struct job){ .images = images, .count = count, .rounds = calls / count };
    measure_by_turns(&job, 1);
    return lower_quartiles(&job.times);
}

static void measure_periodic(const char *what, bool drops, uint64_t from)
{
    image_periodic(&images[0], drops, from);
    print_row(what, "ns/event", measure(1, CALLS), (double)images[0].events);
}

static void measure_random(const char *what, bool drops, uint64_t from)
{
    for (int i = 0; i < CALLS; i++)
        image_random(&images[i], drops, from, (uint64_t)i);
    print_row(what, "ns/event", measure(CALLS, CALLS), (double)images[0].events);
}

static void measure_advances(const char *what)
{
    image_of_kind(&images[0], ADVANCE);
    print_row(what, "ns/event", measure(1, CALLS), (double)images[0].events);
}

static void measure_judging(const char *what, enum kind kind)
{
    image_of_kind(&images[0], kind);
    image_spoil(&images[0], MOST_BLOCKS - 1);
    print_row(what, "ns/byte", measure(1, CALLS), (double)images[0].length);
}

static void measure_judging_random(const char *what)
{
    for (int i = 0; i < CALLS; i++) {
        image_random(&images[i], true, 0, (uint64_t)i);
        image_spoil(&images[i], MOST_BLOCKS - 1);
    }
    print_row(what, "ns/byte", measure(CALLS, CALLS), (double)images[0].length);
}

/* What the second job costs more than the first. */
static struct cost cost_over(struct job *first, struct job *second)
{
    struct cost less = lower_quartiles(&first->times), more = lower_quartiles(&second->times);
    return (struct cost){ more.archive - less.archive, more.baseline - less.baseline };
}

/* A call that is refused for block 0's check, over one that is refused for its length and
 * comes to no check. */
static void measure_check(const char *what)
{
    static struct job jobs[2];
    image_of_kind(&images[1], UNMARKED);
    image_spoil(&images[1], 0);
    images[0] = images[1];
    images[0].length--;
    for (int i = 0; i < 2; i++)
        jobs[i] = (struct job){ .images = &images[i], .count = 1, .rounds = CHECKS };
    measure_by_turns(jobs, 2);
    print_row(what, "ns/byte", cost_over(&jobs[0], &jobs[1]), BLOCK_BYTES);
}

/* How many packets wait, where the cost of an event is held against that. */
static const uint64_t waiting_counts[] = { 2, 64, 128 };

enum { COUNTS = sizeof waiting_counts / sizeof waiting_counts[0] };

static struct cost times_as_much(struct cost cost, struct cost as)
{
    return (struct cost){ cost.archive / as.archive, cost.baseline / as.baseline };
}

/* For each of those an image that fills the queue, and one that goes on from there. */
static void measure_waiting(void)
{
    static struct image pictures[2 * COUNTS];
    static struct job jobs[2 * COUNTS];
    struct cost costs[COUNTS];
    for (int i = 0; i < 2 * COUNTS; i++)
        jobs[i] = (struct job){ .images = &pictures[i], .count = 1, .rounds = CALLS };
    for (int i = 0; i < COUNTS; i++)
        image_waiting(waiting_counts[i], &pictures[2 * i], &pictures[2 * i + 1]);
    measure_by_turns(jobs, 2 * COUNTS);
    for (int i = 0; i < COUNTS; i++)
        costs[i] = cost_over(&jobs[2 * i], &jobs[2 * i + 1]);
    print_row("one event, 1 or 2 waiting", "ns/event", costs[0], TURNED_EVENTS);
    print_row("one event, 64 waiting", "ns/event", costs[1], TURNED_EVENTS);
    print_row("one event, 128 waiting", "ns/event", costs[2], TURNED_EVENTS);
    print_row("one event, 64 waiting to 1 or 2", "times", times_as_much(costs[1], costs[0]), 1);
    print_row("one event, 128 waiting to 1 or 2", "times", times_as_much(costs[2], costs[0]), 1);
}

int main(void)
{
    printf("# images of at most %zu bytes, answer area of %zu, both warm\n",
           sizeof images[0].bytes, sizeof answer);
    printf("# lower quartiles of %d turns of %d runs (%d of one block's check)\n", TURNS, CALLS,
           CHECKS);
    measure_periodic("whole run, three drops at each start", true, 0);
    measure_periodic("whole run, no drops", false, 0);
    measure_periodic("whole run, three drops at each start, long instants", true, LONG_INSTANT);
    measure_periodic("whole run, no drops, long instants", false, LONG_INSTANT);
    measure_random("whole run, random with drops", true, 0);
    measure_random("whole run, random without drops", false, 0);
    measure_random("whole run, random with drops, long instants", true, LONG_INSTANT);
    measure_random("whole run, random without drops, long instants", false, LONG_INSTANT);
    measure_advances("whole run, advances with nothing due");
    measure_waiting();
    measure_pairs();
    measure_marks();
    measure_judging("64 blocks of arrivals, refused in the last", UNMARKED);
    measure_judging("64 blocks of advances, refused in the last", ADVANCE);
    measure_judging_random("64 blocks of random events, refused in the last");
    measure_check("one block refused by its check");
    return 0;
}
