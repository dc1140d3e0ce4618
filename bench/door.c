/* An example of a host whose camera marks nothing: a marker at the door decides which packets of
 * a burst are marked, and the scheduler takes each with that marking.
 *
 * Each line that it prints is a sender's packet in the form of the trace texts, u for unmarked
 * and m for marked, or an advance, and then the scheduler's answer as the trace program prints it.
 * A packet that the door refuses has no marking: its line has the flow, the length and the instant.
 * Exit status 0: all was printed; 1: it could not be written; 2: line or marker were misused. */
#include <inttypes.h>
#include <stdbool.h>
#include <stdio.h>

#include "bilgethrum.h"

enum { WELL = 0, NOT_WRITTEN = 1, MISUSED = 2 };

/* The flows, each the packets of one sender. */
enum { SENSOR, CAMERA, SENDERS };

static const char *const names[SENDERS] = { [SENSOR] = "sensor", [CAMERA] = "camera" };

/* All that the host holds; it may lie anywhere and needs no heap. */
static bilgethrum_line line;
static bilgethrum_marker marker;

static bool open_both(void)
{
    bilgethrum_settings settings = { .alpha = 100, .ticks_per_byte = 1 };
    /* The sensor's telegrams always have room.  The camera's bucket holds 60 bytes and gains a
     * tenth of a byte for each tick. */
    bilgethrum_flows flows = { .count = SENDERS,
                               .each = { [SENSOR] = { .rate = 1000000, .depth = 200 },
                                         [CAMERA] = { .rate = 100000, .depth = 60 } } };
    uint32_t refusal = bilgethrum_open(&line, settings);
    if (refusal == BILGETHRUM_NOT_REFUSED)
        refusal = bilgethrum_open_marker(&marker, flows);
    if (refusal != BILGETHRUM_NOT_REFUSED)
        fprintf(stderr, "door: the opening is refused with %" PRIu32 "\n", refusal);
    return refusal == BILGETHRUM_NOT_REFUSED;
}

/* Takes every decision that is due by this instant, which is a host's duty before a packet
 * arrives. */
static void advance(uint64_t instant)
{
    bilgethrum_decision answer = bilgethrum_advance(&line, instant);
    while (answer.number != 0) {
        printf("a%" PRIu64 ": S %" PRIu32 " %" PRIu64 " %" PRIu64 " %" PRIu32 "\n", instant,
               answer.number, answer.start, answer.extra, answer.dropped);
        answer = bilgethrum_advance(&line, instant);
    }
    if (answer.refusal != BILGETHRUM_NOT_REFUSED)
        printf("a%" PRIu64 ": R %" PRIu32 "\n", instant, answer.refusal);
}

/* A packet comes to the door, which nobody has marked. */
static void arrive(uint32_t flow, uint32_t length, uint64_t instant)
{
    advance(instant);
    bilgethrum_marking marking = bilgethrum_mark(&marker, flow, length, instant);
    if (marking.refusal != BILGETHRUM_NOT_REFUSED) {
        printf("flow %" PRIu32 " %" PRIu32 "@%" PRIu64 ": R %" PRIu32 " at the door\n", flow, length,
               instant, marking.refusal);
        return;
    }
    bilgethrum_packet packet = { .arrival = instant, .length = length, .marked = marking.marked };
    bilgethrum_arrival answer = bilgethrum_arrive(&line, packet);
    printf("%s %c%" PRIu32 "@%" PRIu64 ": ", names[flow], marking.marked != 0 ? 'm' : 'u', length,
           instant);
    if (answer.refusal != BILGETHRUM_NOT_REFUSED)
        printf("R %" PRIu32 "\n", answer.refusal);
    else if (marking.marked != 0)
        printf("M %" PRIu32 "\n", answer.number);
    else
        printf("A %" PRIu32 " %" PRIu64 "\n", answer.number, answer.extra);
}

/* What the camera's bucket holds is said beside each of its packets. */
static int camera_burst(void)
{
    if (!open_both())
        return MISUSED;
    arrive(CAMERA, 40, 0);      /* it is full: of 60 bytes 40 are taken, 20 stay */
    arrive(SENSOR, 30, 0);
    arrive(CAMERA, 40, 10);     /* 20 and 10 tenths are 21: marked, and nothing is taken */
    arrive(CAMERA, 40, 20);     /* 22: marked */
    arrive(CAMERA, 40, 25);     /* 22.5: marked */
    arrive(SENSOR, 30, 30);     /* number 6, behind three marked packets */
    advance(40);
    advance(70);
    advance(110);
    advance(150);               /* number 5 would make number 6 too late: it is dropped */
    arrive(CAMERA, 40, 199);    /* 20 and 199 tenths are 39.9: marked for want of a tenth */
    arrive(CAMERA, 40, 200);    /* 40 exactly, since no look at it lost a fraction: unmarked */
    advance(239);
    arrive(CAMERA, 61, 5000);   /* full again, but longer than its depth: always marked */
    advance(5000);
    return WELL;
}

/* Output is buffered, so a full disk may show only here; an earlier failure is kept. */
static bool all_is_written(void)
{
    bool failed = ferror(stdout) != 0;
    return fclose(stdout) == 0 && !failed;
}

int main(void)
{
    int status = camera_burst();
    if (!all_is_written()) {
        fprintf(stderr, "door: the output could not be written\n");
        return NOT_WRITTEN;
    }
    return status;
}
