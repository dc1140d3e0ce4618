/* Holds both sides to markings that were worked out by hand, a bucket for each case. */
#include "direct_marker_cases.h"

#include <stdio.h>

#include "direct_markers.h"

#define UNMARKED { 0, 0 }
#define MARKED { 0, 1 }
#define REFUSED(number) { number, 0 }
#define MOST_INSTANT BILGETHRUM_MOST_INSTANT

/* Comments have what the bucket holds when the packet comes, in bytes or m, millionths. */
static const struct marker_case cases[] = {
    { "a tenth of a byte for each tick", { 1, { { 100000, 60 } } }, 0,
      { { 0, 40, 0, UNMARKED },             /* 60 */
        { 0, 40, 10, MARKED },              /* 20 + 1 */
        { 0, 40, 199, MARKED },             /* 20 + 19.9: the marked one took nothing */
        { 0, 40, 200, UNMARKED },           /* 20 + 20, the length exactly */
        { 0, 1, 209, MARKED },              /* 0.9 */
        { 0, 1, 210, UNMARKED } }, 6 },     /* 1 */
    { "no look loses a fraction", { 1, { { 1, 1 } } }, 0,
      { { 0, 1, 0, UNMARKED },
        { 0, 1, 1, MARKED },                /* 1 m */
        { 0, 1, 333333, MARKED },
        { 0, 1, 999999, MARKED },           /* 999,999 m */
        { 0, 1, 1000000, UNMARKED },
        { 0, 1, 1999999, MARKED },
        { 0, 1, 2000000, UNMARKED } }, 7 },
    { "what a packet leaves of a byte is kept", { 1, { { 3, 2 } } }, 0,
      { { 0, 2, 0, UNMARKED },
        { 0, 1, 333333, MARKED },           /* 999,999 m */
        { 0, 1, 333334, UNMARKED },         /* 1,000,002 m, 2 m stay */
        { 0, 1, 666667, UNMARKED },         /* 2 + 999,999 m, 1 m stays */
        { 0, 1, 1000000, UNMARKED },        /* 1 + 999,999 m */
        { 0, 1, 1333333, MARKED } }, 6 },   /* 999,999 m */
    { "no bucket fills past its depth", { 1, { { 10000000, 2048 } } }, 0,
      { { 0, 2048, 0, UNMARKED },
        { 0, 1, 0, MARKED },
        { 0, 2048, MOST_INSTANT, UNMARKED },
        { 0, 1, MOST_INSTANT, MARKED } }, 4 },
    { "a packet longer than the depth", { 1, { { 10000000, 100 } } }, 0,
      { { 0, 101, 0, MARKED },
        { 0, 101, MOST_INSTANT, MARKED },
        { 0, 100, MOST_INSTANT, UNMARKED },
        { 0, 1, MOST_INSTANT, MARKED } }, 4 },
    /* 10,000,000 m times 1,844,674,407,371 ticks is 2^64 and 448,384 m, less than a byte. */
    { "rate times span beyond 64 bits", { 1, { { 10000000, 1 } } }, 0,
      { { 0, 1, 0, UNMARKED }, { 0, 1, UINT64_C(1844674407371), UNMARKED } }, 2 },
    { "a span beyond 32 bits", { 1, { { 1, 4294 } } }, 0,
      { { 0, 2048, 0, UNMARKED },
        { 0, 2048, 0, UNMARKED },           /* 2,246; 198 stay */
        { 0, 2048, 1849999999, MARKED },    /* 198 + 1,849.999,999 */
        { 0, 2048, 1850000000, UNMARKED },
        { 0, 2048, UINT64_C(6144967296), UNMARKED }, /* 2^32 ticks later: 4,294 */
        { 0, 2048, UINT64_C(6144967296), UNMARKED },
        { 0, 199, UINT64_C(6144967296), MARKED }, /* 198 */
        { 0, 198, UINT64_C(6144967296), UNMARKED } }, 8 },
    { "each flow has its own bucket", { 2, { { 1000000, 10 }, { 2000000, 20 } } }, 0,
      { { 0, 10, 5, UNMARKED },
        { 1, 20, 5, UNMARKED },
        { 0, 1, 5, MARKED },
        { 1, 12, 11, UNMARKED },            /* 6 ticks at 2 bytes each */
        { 0, 7, 11, MARKED },               /* 6 ticks at 1 */
        { 0, 6, 11, UNMARKED } }, 6 },
    { "all flows have one clock, which no refused packet moves", { 2, { { 1, 9 }, { 1, 9 } } }, 0,
      { { 0, 1, 7, UNMARKED },
        { 1, 1, 6, REFUSED(3) },
        { 1, 1, MOST_INSTANT + 1, REFUSED(2) },
        { 1, 2049, 9, REFUSED(1) },
        { 2, 1, 9, REFUSED(51) },
        { 1, 9, 7, UNMARKED } }, 6 },
    { "refusals in their order", { 2, { { 1, 9 }, { 1, 9 } } }, 0,
      { { 0, 1, 7, UNMARKED },
        { 2, 0, 6, REFUSED(51) },
        { 8, 2049, MOST_INSTANT + 1, REFUSED(51) },
        { 1, 0, MOST_INSTANT + 1, REFUSED(1) },
        { 1, 2049, 6, REFUSED(1) },
        { 1, 2048, MOST_INSTANT + 1, REFUSED(2) },
        { 1, 2048, 6, REFUSED(3) } }, 7 },
    { "no flow", { 0, { { 0, 0 } } }, 51,
      { { 0, 1, 0, UNMARKED }, { 1, 1, 0, REFUSED(51) } }, 2 },
    { "nine flows, a rate and a depth out of range", { 9, { { 0, 0 } } }, 51,
      { { 0, 2, 0, MARKED },
        { 0, 1, 0, UNMARKED },
        { 0, 1, 999999, MARKED },
        { 0, 1, 1000000, UNMARKED },
        { 1, 1, 1000000, REFUSED(51) } }, 5 },
    { "a depth out of range, and a rate behind it",
      { 3, { { 1, 65536 }, { 5, 5 }, { 10000001, 5 } } }, 52,
      { { 0, 1, 0, UNMARKED }, { 0, 1, 0, MARKED }, { 2, 1, 0, REFUSED(51) } }, 3 },
    { "a depth out of range", { 2, { { 10000000, 65535 }, { 1, 0 } } }, 53,
      { { 0, 1, 0, UNMARKED }, { 0, 1, 0, MARKED }, { 1, 1, 0, REFUSED(51) } }, 3 },
    { "flows beyond the count mean nothing", { 1, { { 1, 7 }, { 0, 7 }, { 7, 0 } } }, 0,
      { { 0, 7, 0, UNMARKED }, { 1, 1, 0, REFUSED(51) } }, 2 },
    { "eight flows", { 8, { { 1, 1 }, { 1, 2 }, { 1, 3 }, { 1, 4 }, { 1, 5 }, { 1, 6 }, { 1, 7 },
                            { 10000000, 65535 } } }, 0,
      { { 6, 7, 0, UNMARKED }, { 6, 1, 0, MARKED }, { 7, 2048, 0, UNMARKED },
        { 8, 1, 0, REFUSED(51) } }, 4 },
};

enum { CASES = sizeof cases / sizeof cases[0] };

/* 31 packets of 2,048 bytes and a last one, all left unmarked. */
static void take_32(struct marker_case *written, uint64_t at, uint32_t last)
{
    for (int i = 0; i < 32; i++) {
        written->packets[written->count].length = i < 31 ? 2048 : last;
        written->packets[written->count].at = at;
        written->count++;
    }
}

/* The longest that a bucket can take to fill, to the last millionth: 65,535 bytes are taken at 0,
 * so many as with the last packet at `full`, and a byte at `byte` is marked. */
static void hold_deepest(const char *name, uint64_t full, uint32_t last, uint64_t byte)
{
    struct marker_case written = { .name = name, .flows = { 1, { { 1, 65535 } } } };
    take_32(&written, 0, 2047);
    take_32(&written, full, last);
    written.packets[written.count].length = 1;
    written.packets[written.count].at = byte;
    written.packets[written.count].answer.marked = 1;
    written.count++;
    hold_marker_case(&written);
}

void hold_marker_cases(void)
{
    for (int i = 0; i < CASES; i++)
        hold_marker_case(&cases[i]);
    hold_deepest("the deepest bucket at the least rate", UINT64_C(65535000000), 2047,
                 UINT64_C(65535999999));    /* 999,999 m */
    hold_deepest("the deepest bucket a tick before it is full", UINT64_C(65534999999), 2046,
                 UINT64_C(65534999999));    /* 65,534 and 999,999 m; 999,999 m stay */
    printf("%12d  cases of the marker with answers worked out by hand\n", CASES + 2);
}
