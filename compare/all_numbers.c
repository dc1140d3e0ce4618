/* Makes all 4,294,967,295 admissions that a line has numbers for, and sees refusal 7.
 *
 * Takes some minutes, so it is no part of the comparison that runs each time.  Every
 * answer is held against plain arithmetic.  Exit status 0: all was as it must be. */
#include <inttypes.h>
#include <stdbool.h>
#include <stdio.h>
#include <stdlib.h>
#include <string.h>

#include "bilgethrum.h"

/* Every packet has length 1 and alpha is 1 tick, at 1 tick per byte.  A round takes two
 * ticks and three numbers: a marked packet starts; another marked one and an unmarked one
 * come at the same instant.  The unmarked one then has the extra delay 1, so at the next
 * instant the marked one ahead of it would pass alpha: it is dropped. */
enum { NUMBERS_PER_ROUND = 3, TICKS_PER_ROUND = 2 };

/* After the rounds one marked packet starts and both rooms are filled, unmarked and
 * marked by turns; with that all numbers are used. */
enum { FILLED = 2 * BILGETHRUM_MOST_WAITING, LAST_NUMBERS = 1 + FILLED };

#define ALL_NUMBERS UINT64_C(4294967295)
#define ROUNDS ((ALL_NUMBERS - LAST_NUMBERS) / NUMBERS_PER_ROUND)

_Static_assert(ROUNDS * NUMBERS_PER_ROUND + LAST_NUMBERS == ALL_NUMBERS, "no number is left");

static const uint64_t told_each = UINT64_C(1) << 28;

static bilgethrum_line line;
static uint64_t calls;

static _Noreturn void wrong(const char *what, uint64_t number)
{
    printf("DIFFERENCE: %s, with number %" PRIu64 "\n", what, number);
    exit(1);
}

/* The place tells a packet apart from the one before it. */
static bilgethrum_packet packet_of(uint64_t number, uint32_t marked, uint64_t instant)
{
    return (bilgethrum_packet){ .arrival = instant, .length = 1, .place = (uint32_t)~number,
                                .marked = marked };
}

static void admit(uint64_t number, uint32_t marked, uint64_t instant, uint64_t extra)
{
    bilgethrum_arrival given = bilgethrum_arrive(&line, packet_of(number, marked, instant));
    calls++;
    if (given.refusal != 0 || given.number != number || given.extra != extra)
        wrong("an arrival", number);
}

/* At the instant itself: the decision is due just then.  arrival is the packet's own. */
static void start(uint64_t number, uint32_t marked, uint64_t arrival, uint64_t instant,
                  uint64_t extra, uint32_t dropped)
{
    bilgethrum_decision given = bilgethrum_advance(&line, instant);
    bilgethrum_packet wanted = packet_of(number, marked, arrival);
    calls++;
    if (given.refusal != 0 || given.number != number || given.start != instant
        || given.extra != extra || given.dropped != dropped
        || given.packet.arrival != wanted.arrival || given.packet.length != wanted.length
        || given.packet.place != wanted.place || given.packet.marked != wanted.marked)
        wrong("a decision", number);
}

/* A refused call changes no word. */
static void refuse_packet(uint32_t refusal, bilgethrum_packet packet)
{
    bilgethrum_line before = line;
    bilgethrum_arrival given = bilgethrum_arrive(&line, packet);
    calls++;
    if (given.refusal != refusal || given.number != 0 || given.extra != 0)
        wrong("a refusal", given.refusal);
    if (memcmp(&before, &line, sizeof line) != 0)
        wrong("a refused arrival that changed a word", ALL_NUMBERS);
}

static void refuse(uint32_t refusal, uint32_t marked, uint64_t instant)
{
    refuse_packet(refusal, packet_of(ALL_NUMBERS, marked, instant));
}

static void hold_tallies(bilgethrum_tallies wanted)
{
    bilgethrum_tallies given = bilgethrum_tally(&line);
    calls++;
    printf("T %" PRIu32 " %" PRIu32 " %" PRIu32 " %" PRIu32 " %" PRIu32 "\n",
           given.unmarked_admitted, given.marked_admitted, given.unmarked_started,
           given.marked_started, given.marked_dropped);
    /* Five numbers of one width have no bytes between them. */
    if (memcmp(&given, &wanted, sizeof given) != 0)
        wrong("the tallies", ALL_NUMBERS);
}

static void play_rounds(void)
{
    uint64_t told = told_each;
    for (uint64_t round = 0; round < ROUNDS; round++) {
        uint64_t number = round * NUMBERS_PER_ROUND;
        uint64_t instant = round * TICKS_PER_ROUND;
        admit(number + 1, 1, instant, 0);
        start(number + 1, 1, instant, instant, 0, 0);
        admit(number + 2, 1, instant, 0);
        admit(number + 3, 0, instant, 1);
        start(number + 3, 0, instant, instant + 1, 1, 1);
        if (number >= told) {
            printf("%" PRIu64 " numbers used\n", number + NUMBERS_PER_ROUND);
            fflush(stdout);
            told += told_each;
        }
    }
}

static void use_last_numbers(uint64_t instant)
{
    uint64_t number = ROUNDS * NUMBERS_PER_ROUND + 1;
    admit(number, 1, instant, 0);
    start(number, 1, instant, instant, 0, 0);
    for (uint64_t i = 0; i < FILLED; i++)
        admit(number + 1 + i, i % 2 == 1, instant, i % 2 == 0 ? 1 : 0);
}

/* All numbers are used; the earlier refusals still come first. */
static void refuse_in_order(uint64_t instant)
{
    refuse(BILGETHRUM_REFUSED_ROOM_FULL, 0, instant);
    refuse(BILGETHRUM_REFUSED_ROOM_FULL, 1, instant);
    refuse(BILGETHRUM_REFUSED_OVERDUE, 0, instant + 2);
    refuse(BILGETHRUM_REFUSED_OVERDUE, 1, instant + 2);
    refuse(BILGETHRUM_REFUSED_BEFORE_CLOCK, 0, instant - 1);
    refuse(BILGETHRUM_REFUSED_INSTANT, 0, BILGETHRUM_MOST_INSTANT + 1);
    refuse_packet(BILGETHRUM_REFUSED_TOO_LONG,
                  (bilgethrum_packet){ .arrival = instant, .length = 2, .marked = 1 });
    refuse_packet(BILGETHRUM_REFUSED_LENGTH, (bilgethrum_packet){ .arrival = instant });
}

/* What waits is decided as ever: each unmarked packet starts with the extra delay 1, and
 * from the second on the marked one ahead of it is dropped.  The last marked one starts. */
static void decide_what_waits(uint64_t instant)
{
    uint64_t first = ALL_NUMBERS - FILLED + 1;
    for (uint64_t i = 0; i < BILGETHRUM_MOST_WAITING; i++) {
        uint64_t now = instant + 1 + i;
        start(first + 2 * i, 0, instant, now, 1, i == 0 ? 0 : 1);
        refuse(BILGETHRUM_REFUSED_NUMBERS_USED, 0, now);
        refuse(i == 0 ? BILGETHRUM_REFUSED_ROOM_FULL : BILGETHRUM_REFUSED_NUMBERS_USED, 1, now);
    }
    start(ALL_NUMBERS, 1, instant, instant + 1 + BILGETHRUM_MOST_WAITING, 0, 0);
}

/* An empty line with all numbers used stays so. */
static void stay_empty(uint64_t instant)
{
    bilgethrum_decision given = bilgethrum_advance(&line, instant);
    calls++;
    if (given.refusal != 0 || given.number != 0 || given.start != 0 || given.extra != 0
        || given.dropped != 0 || given.packet.length != 0)
        wrong("an advance with nothing due", ALL_NUMBERS);
    refuse(BILGETHRUM_REFUSED_NUMBERS_USED, 0, instant);
    refuse(BILGETHRUM_REFUSED_NUMBERS_USED, 1, instant);
}

int main(void)
{
    uint64_t instant = ROUNDS * TICKS_PER_ROUND;
    uint32_t rounds = (uint32_t)ROUNDS;
    bilgethrum_settings settings = { .alpha = 1, .ticks_per_byte = 1 };
    if (bilgethrum_open(&line, settings) != 0)
        wrong("the opening", 0);
    play_rounds();
    use_last_numbers(instant);
    printf("%" PRIu64 " numbers used: all\n", ALL_NUMBERS);
    refuse_in_order(instant);
    decide_what_waits(instant);
    printf("refusal %d for both markings, and what waited was decided\n", BILGETHRUM_REFUSED_NUMBERS_USED);
    stay_empty(instant + BILGETHRUM_MOST_WAITING + 2);
    stay_empty(BILGETHRUM_MOST_INSTANT);
    hold_tallies((bilgethrum_tallies){ .unmarked_admitted = rounds + BILGETHRUM_MOST_WAITING,
                                       .marked_admitted = 2 * rounds + 1 + BILGETHRUM_MOST_WAITING,
                                       .unmarked_started = rounds + BILGETHRUM_MOST_WAITING,
                                       .marked_started = rounds + 2,
                                       .marked_dropped = rounds + BILGETHRUM_MOST_WAITING - 1 });
    printf("all_numbers: %" PRIu64 " direct calls, 0 differences\n", calls);
    return 0;
}
