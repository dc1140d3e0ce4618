/* Measures the marker's call, on packets that are drawn anew for each turn. */
#include "marks.h"

#include <stdio.h>
#include <stdlib.h>

#include "baseline.h"
#include "random.h"
#include "turns.h"

/* The marker's calls of one side, and the marker they are made on. */
struct side {
    uint32_t (*open)(bilgethrum_marker *, bilgethrum_flows);
    bilgethrum_marking (*mark)(bilgethrum_marker *, uint32_t, uint32_t, uint64_t);
    bilgethrum_marker marker;
};

static struct side archive_side = { bilgethrum_open_marker, bilgethrum_mark, { { 0 } } };
static struct side baseline_side = { baseline_call_open_marker, baseline_call_mark, { { 0 } } };

/* Flows that have packets in random order, with so many ticks from one to the next on average. */
struct traffic {
    uint32_t flows;
    uint32_t rate;
    uint64_t ticks;
};

enum { PACKETS = 4096, DEPTH = 4096 };

static struct {
    uint32_t flow;
    uint32_t length;
    uint64_t at;
} packets[PACKETS];

/* New ones for each turn, lest the processor learn which are marked. */
static void draw_packets(const struct traffic *traffic, uint64_t turn)
{
    struct random random = random_for(turn, 0);
    uint64_t at = 0;
    for (int i = 0; i < PACKETS; i++) {
        packets[i].flow = (uint32_t)random_below(&random, traffic->flows);
        packets[i].length = (uint32_t)random_between(&random, 1, BILGETHRUM_MOST_LENGTH);
        packets[i].at = at;
        at += random_below(&random, 2 * traffic->ticks);
    }
}

static void open_side(struct side *side, const struct traffic *traffic)
{
    bilgethrum_flows flows = { .count = traffic->flows };
    for (uint32_t i = 0; i < traffic->flows; i++)
        flows.each[i] = (bilgethrum_flow){ .rate = traffic->rate, .depth = DEPTH };
    side->open(&side->marker, flows);
}

/* Gives 1 if it is marked. */
static inline int mark_packet(struct side *side, int i)
{
    return (int)side->mark(&side->marker, packets[i].flow, packets[i].length, packets[i].at).marked;
}

static double time_of_marks(struct side *side, const struct traffic *traffic)
{
    open_side(side, traffic);
    double begin = nanoseconds();
    for (int i = 0; i < PACKETS; i++)
        mark_packet(side, i);
    return (nanoseconds() - begin) / PACKETS;
}

/* A ratio of two sides that mark differently, or another mixture than is said, would say
 * nothing. */
static void demand_markings(const struct traffic *traffic, int least, int most)
{
    draw_packets(traffic, TURNS);
    open_side(&archive_side, traffic);
    open_side(&baseline_side, traffic);
    int marked = 0, unlike = 0;
    for (int i = 0; i < PACKETS; i++) {
        int given = mark_packet(&archive_side, i);
        unlike += given != mark_packet(&baseline_side, i);
        marked += given;
    }
    if (unlike == 0 && marked >= least && marked <= most)
        return;
    fprintf(stderr, "benchmark: the markings are not those that are to be measured\n");
    exit(1);
}

static void measure_traffic(const char *what, struct traffic traffic)
{
    static struct times times;
    for (int turn = 0; turn < TURNS; turn++) {
        draw_packets(&traffic, (uint64_t)turn);
        if (turn % 2 == 0)
            times.archive[turn] = time_of_marks(&archive_side, &traffic);
        times.baseline[turn] = time_of_marks(&baseline_side, &traffic);
        if (turn % 2 != 0)
            times.archive[turn] = time_of_marks(&archive_side, &traffic);
    }
    print_row(what, "ns/mark", lower_quartiles(&times), 1);
}

/* In the mixed rows a bucket fills by about half of what comes. */
void measure_marks(void)
{
    static const struct traffic mixed = { BILGETHRUM_MOST_FLOWS, 999999, 64 };
    static const struct traffic unmarked = { BILGETHRUM_MOST_FLOWS, 9999999, 2048 };
    static const struct traffic one = { 1, 999999, 512 };
    demand_markings(&mixed, PACKETS / 3, PACKETS / 2);
    demand_markings(&unmarked, 0, 0);
    demand_markings(&one, PACKETS / 3, PACKETS / 2);
    measure_traffic("mark, 8 flows, both markings mixed", mixed);
    measure_traffic("mark, 8 flows, all left unmarked", unmarked);
    measure_traffic("mark, one flow, both markings mixed", one);
}
