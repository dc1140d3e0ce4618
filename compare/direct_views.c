/* Asks for the view's number in areas up to and beyond 2^32 bytes, of which none may be read. */
#define _DEFAULT_SOURCE
#include <inttypes.h>
#include <stdio.h>
#include <sys/mman.h>

#include "direct.h"
#include "direct_counters.h"
#include "hold.h"
#include "random.h"
#include "second_columns.h"

enum { VIEWS_PER_LIST = 40 };

#define FOUR_GIB (UINT64_C(1) << 32)
#define ALL_BYTES (FOUR_GIB + 65536)
#define FEWER_BYTES (UINT64_C(1) << 20)

/* Bytes that may be neither read nor written: both areas begin here. */
static const uint8_t *bytes;
static uint64_t mapped;

static bool map(uint64_t length)
{
    void *at = mmap(NULL, length, PROT_NONE, MAP_PRIVATE | MAP_ANONYMOUS | MAP_NORESERVE, -1, 0);
    if (at == MAP_FAILED)
        return false;
    bytes = at;
    mapped = length;
    return true;
}

void views_begin(void)
{
    if (map(ALL_BYTES))
        return;
    if (!map(FEWER_BYTES))
        hold_failed("no memory");
    printf("no room for an area beyond 2^32 bytes here: views are tried in %" PRIu64 "\n", mapped);
    excuse_outcome(SEEN_BEYOND_4_GIB);
}

static uint32_t pick_length(struct random *random)
{
    static const uint32_t some[] = { 0, 1, 2047, 2048, 2049, 65536, 65537, UINT32_MAX };
    if (random_percent(random, 60))
        return (uint32_t)random_between(random, 1, MOST_LENGTH);
    return some[random_below(random, sizeof some / sizeof some[0])];
}

static uint32_t pick_place(struct random *random)
{
    switch (random_below(random, 5)) {
    case 0:
        return (uint32_t)random_below(random, 3);
    case 1:
        return (uint32_t)random_below(random, FEWER_BYTES);
    case 2:
        return UINT32_MAX - (uint32_t)random_below(random, 2);
    case 3:
        return UINT32_MAX - (uint32_t)random_below(random, 2 * MOST_LENGTH);
    default:
        return (uint32_t)random_next(random);
    }
}

/* Mostly at the payload's end or a byte to either side of it, cut to 32 bits or not. */
static uint64_t pick_area(struct random *random, uint64_t end)
{
    uint64_t area;
    switch (random_below(random, 6)) {
    case 0:
        area = random_below(random, 3000);
        break;
    case 1:
        area = FOUR_GIB - 1 + random_below(random, 3);
        break;
    case 2:
        area = (end & UINT32_MAX) + random_below(random, 2);
        break;
    default:
        area = end + random_below(random, 3) - (end == 0 ? 0 : 1);
    }
    return area < mapped ? area : mapped;
}

static void hold_view(struct random *random, bool aloud)
{
    bilgethrum_packet packet = { .arrival = random_next(random), .length = pick_length(random),
                                 .place = pick_place(random) };
    if (random_percent(random, 50))
        packet.marked = random_percent(random, 80) ? 1 : UINT32_C(1) << random_below(random, 32);
    uint64_t end = (uint64_t)packet.place + packet.length;
    uint64_t unmarked_len = pick_area(random, end);
    uint64_t marked_len = pick_area(random, end);
    if (aloud)
        printf("view of %" PRIu32 " bytes at place %" PRIu32 ", marked %" PRIu32
               ", in areas of %" PRIu64 " and %" PRIu64 "\n", packet.length, packet.place,
               packet.marked, unmarked_len, marked_len);
    uint64_t its_len = packet.marked != 0 ? marked_len : unmarked_len;
    uint64_t other_len = packet.marked != 0 ? unmarked_len : marked_len;
    int wanted = second_view(its_len, packet.place, packet.length);
    uint32_t given = bilgethrum_view_refusal(bytes, unmarked_len, bytes, marked_len, packet);
    count_call(CALL_VIEW, given);
    if (given != (uint32_t)wanted) {
        printf("view of %" PRIu32 " bytes at place %" PRIu32 ", marked %" PRIu32
               ", in areas of %" PRIu64 " and %" PRIu64 "\nwanted: %d\ngiven: %" PRIu32 "\n",
               packet.length, packet.place, packet.marked, unmarked_len, marked_len, wanted, given);
        hold_failed("the number of a view");
    }
    if (wanted == 0 && packet.marked != 0 && other_len < end)
        count_outcome(SEEN_IN_MARKED_AREA);
    if (wanted == 0 && end > FOUR_GIB)
        count_outcome(SEEN_BEYOND_4_GIB);
}

void hold_views(uint64_t index, uint64_t seed, bool aloud)
{
    static char what[96];
    struct random random = random_for(seed, index);
    snprintf(what, sizeof what, "views, list %" PRIu64 " of seed %" PRIu64, index, seed);
    hold_now(what);
    for (int i = 0; i < VIEWS_PER_LIST; i++)
        hold_view(&random, aloud);
}
