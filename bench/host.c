/* An example of a host: runs document 01's printed case call by call and prints its lines.
 *
 *     host          the printed case
 *     host duty     packets that arrive while others are due, taken in time and too late
 * Exit status 0: all was printed; 1: it could not be written; 2: the line was misused. */
#include <inttypes.h>
#include <stdbool.h>
#include <stdio.h>
#include <string.h>

#include "bilgethrum.h"

enum { WELL = 0, NOT_WRITTEN = 1, MISUSED = 2 };

enum { UNMARKED = 0, MARKED = 1 };

/* All that the host holds for a line; it may lie anywhere and needs no heap. */
static bilgethrum_line line;

static bool open_line(void)
{
    bilgethrum_settings settings = { .alpha = 100, .ticks_per_byte = 1 };
    uint32_t refusal = bilgethrum_open(&line, settings);
    if (refusal != BILGETHRUM_NOT_REFUSED)
        fprintf(stderr, "host: the opening is refused with %" PRIu32 "\n", refusal);
    return refusal == BILGETHRUM_NOT_REFUSED;
}

static void arrive(uint32_t marked, uint32_t length, uint64_t instant)
{
    bilgethrum_packet packet = { .arrival = instant, .length = length, .marked = marked };
    bilgethrum_arrival answer = bilgethrum_arrive(&line, packet);
    if (answer.refusal != BILGETHRUM_NOT_REFUSED)
        printf("R %" PRIu32 "\n", answer.refusal);
    else if (marked != UNMARKED)
        printf("M %" PRIu32 "\n", answer.number);
    else
        printf("A %" PRIu32 " %" PRIu64 "\n", answer.number, answer.extra);
}

/* Gives whether a packet starts.  A unit would now send answer.packet, and forget the
 * payloads of the answer.dropped packets with the numbers just below answer.number. */
static bool advance(uint64_t instant)
{
    bilgethrum_decision answer = bilgethrum_advance(&line, instant);
    if (answer.refusal != BILGETHRUM_NOT_REFUSED)
        printf("R %" PRIu32 "\n", answer.refusal);
    else if (answer.number == 0)
        printf("N\n");
    else
        printf("S %" PRIu32 " %" PRIu64 " %" PRIu64 " %" PRIu32 "\n", answer.number,
               answer.start, answer.extra, answer.dropped);
    return answer.number != 0;
}

static void tally(void)
{
    bilgethrum_tallies tallies = bilgethrum_tally(&line);
    printf("T %" PRIu32 " %" PRIu32 " %" PRIu32 " %" PRIu32 " %" PRIu32 "\n",
           tallies.unmarked_admitted, tallies.marked_admitted, tallies.unmarked_started,
           tallies.marked_started, tallies.marked_dropped);
}

static int printed_case(void)
{
    if (!open_line())
        return MISUSED;
    arrive(UNMARKED, 50, 0);
    arrive(MARKED, 60, 0);
    arrive(UNMARKED, 40, 0);
    advance(0);
    advance(50);
    arrive(MARKED, 45, 60);
    arrive(UNMARKED, 30, 70);
    arrive(UNMARKED, 10, 125);
    advance(110);
    advance(150);
    arrive(MARKED, 101, 160);
    arrive(UNMARKED, 20, 160);
    advance(170);
    arrive(MARKED, 30, 165);
    tally();
    return WELL;
}

/* A host's duty: before a packet arrives, every decision due by then is taken.  Each
 * advance takes one, so it is called again until nothing is due. */
static void arrive_in_time(uint32_t marked, uint32_t length, uint64_t instant)
{
    while (advance(instant))
        ;
    arrive(marked, length, instant);
}

static int show_duty(void)
{
    if (!open_line())
        return MISUSED;
    printf("in time:\n");
    arrive_in_time(UNMARKED, 50, 0);
    arrive_in_time(MARKED, 60, 0);
    arrive_in_time(UNMARKED, 40, 90);
    tally();
    if (!open_line())
        return MISUSED;
    printf("too late:\n");
    arrive(UNMARKED, 50, 0);
    arrive(MARKED, 60, 0);
    arrive(UNMARKED, 40, 90);       /* refused with 5: a decision is due since 0 */
    arrive_in_time(UNMARKED, 40, 90);   /* nothing is lost: the duty done, it is admitted */
    tally();
    return WELL;
}

/* Output is buffered, so a full disk may show only here; an earlier failure is kept. */
static bool all_is_written(void)
{
    bool failed = ferror(stdout) != 0;
    return fclose(stdout) == 0 && !failed;
}

int main(int count, char **words)
{
    bool duty = count == 2 && strcmp(words[1], "duty") == 0;
    if (count > 1 && !duty) {
        fprintf(stderr, "use: host [duty]\n");
        return MISUSED;
    }
    int status = duty ? show_duty() : printed_case();
    if (!all_is_written()) {
        fprintf(stderr, "host: the output could not be written\n");
        return NOT_WRITTEN;
    }
    return status;
}
