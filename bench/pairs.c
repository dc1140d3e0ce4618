/* Measures direct calls, on a line for each side that they have just filled. */
#include "pairs.h"

#include <stdio.h>
#include <stdlib.h>

#include "baseline.h"
#include "trace.h"
#include "turns.h"

/* The direct calls of one side, and the line they are made on. */
struct side {
    uint32_t (*open)(bilgethrum_line *, bilgethrum_settings);
    bilgethrum_arrival (*arrive)(bilgethrum_line *, bilgethrum_packet);
    bilgethrum_decision (*advance)(bilgethrum_line *, uint64_t);
    bilgethrum_line line;
};

static struct side archive_side = { bilgethrum_open, bilgethrum_arrive, bilgethrum_advance,
                                    { { 0 } } };
static struct side baseline_side = { baseline_call_open, baseline_call_arrive,
                                     baseline_call_advance, { { 0 } } };

enum { PAIRS = 900 };

/* The packets that image_waiting sends, too. */
static bilgethrum_packet turned_packet(uint64_t i, uint64_t instant)
{
    uint32_t marked = i % 2 == 1;
    return (bilgethrum_packet){ .arrival = instant, .length = marked ? 1 : 2048,
                                .place = (uint32_t)i, .marked = marked };
}

static void fill_side(struct side *side, uint64_t waiting)
{
    bilgethrum_packet first = { .length = 2048, .marked = 1 };
    side->open(&side->line, (bilgethrum_settings){ MOST_ALPHA, 64 });
    side->arrive(&side->line, first);
    side->advance(&side->line, 0);
    for (uint64_t i = 0; i < waiting; i++)
        side->arrive(&side->line, turned_packet(i, 0));
}

/* Lets one start and one arrive by turns, and gives a sum over the answers. */
static uint64_t call_pairs(struct side *side)
{
    uint64_t sum = 0;
    uint64_t due = 2048 * 64;
    for (uint64_t i = 0; i < PAIRS; i++) {
        bilgethrum_decision decision = side->advance(&side->line, due);
        bilgethrum_arrival arrival = side->arrive(&side->line, turned_packet(i, due));
        due = decision.start + (uint64_t)decision.packet.length * 64;
        sum += decision.number + decision.extra + decision.packet.place + arrival.number
               + arrival.extra + due;
    }
    return sum;
}

static void demand_same_answers(uint64_t waiting)
{
    fill_side(&archive_side, waiting);
    fill_side(&baseline_side, waiting);
    if (call_pairs(&archive_side) == call_pairs(&baseline_side))
        return;
    fprintf(stderr, "benchmark: archive and baseline give different answers\n");
    exit(1);
}

static double time_of_pairs(struct side *side, uint64_t waiting)
{
    fill_side(side, waiting);
    double begin = nanoseconds();
    call_pairs(side);
    return (nanoseconds() - begin) / PAIRS;
}

static void measure_waiting(const char *what, uint64_t waiting)
{
    static struct times times;
    demand_same_answers(waiting);
    for (int turn = 0; turn < TURNS; turn++) {
        times.archive[turn] = time_of_pairs(&archive_side, waiting);
        times.baseline[turn] = time_of_pairs(&baseline_side, waiting);
    }
    print_row(what, "ns/pair", lower_quartiles(&times), 1);
}

void measure_pairs(void)
{
    measure_waiting("advance and arrive, 1 or 2 waiting", 2);
    measure_waiting("advance and arrive, 64 waiting", 64);
    measure_waiting("advance and arrive, 128 waiting", 128);
}
