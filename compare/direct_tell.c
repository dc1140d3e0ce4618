/* Puts steps and answers into words, for a difference or a list that is made again. */
#include "direct_tell.h"

#include <inttypes.h>
#include <stdio.h>

void tell_step(const struct step *step)
{
    const bilgethrum_packet *packet = &step->packet;
    printf("line %u: ", step->line);
    switch (step->kind) {
    case STEP_OPEN:
        printf("alpha %" PRIu64 " ticks %" PRIu32 "\n", step->settings.alpha,
               step->settings.ticks_per_byte);
        break;
    case STEP_ARRIVE:
        printf("%c%" PRIu32 "@%" PRIu64 " place %" PRIu32, packet->marked != 0 ? 'm' : 'u',
               packet->length, packet->arrival, packet->place);
        printf(packet->marked > 1 ? " (marked by %" PRIu32 ")\n" : "\n", packet->marked);
        break;
    case STEP_ADVANCE:
        printf("a%" PRIu64 "\n", step->at);
        break;
    case STEP_COPY:
        printf("becomes a copy of line %u\n", step->from);
        break;
    }
}

void tell_marker_step(const struct marker_step *step)
{
    printf("marker %u: ", step->marker);
    switch (step->kind) {
    case MARKER_OPEN:
        printf("opens %" PRIu32 " of", step->flows.count);
        for (int i = 0; i < MOST_FLOWS; i++)
            printf(" %" PRIu32 "/%" PRIu32, step->flows.each[i].rate, step->flows.each[i].depth);
        printf("\n");
        break;
    case MARKER_MARK:
        printf("flow %" PRIu32 ", %" PRIu32 "@%" PRIu64 "\n", step->flow, step->length, step->at);
        break;
    case MARKER_COPY:
        printf("becomes a copy of marker %u\n", step->from);
        break;
    }
}

void tell_arrival(const char *whose, bilgethrum_arrival arrival)
{
    printf("%s: refusal %" PRIu32 ", number %" PRIu32 ", extra %" PRIu64 "\n", whose,
           arrival.refusal, arrival.number, arrival.extra);
}

void tell_decision(const char *whose, bilgethrum_decision decision)
{
    printf("%s: refusal %" PRIu32 ", number %" PRIu32 ", start %" PRIu64 ", extra %" PRIu64
           ", dropped %" PRIu32 ", packet of %" PRIu32 " bytes at %" PRIu64 ", place %" PRIu32
           ", marked %" PRIu32 "\n", whose, decision.refusal, decision.number, decision.start,
           decision.extra, decision.dropped, decision.packet.length, decision.packet.arrival,
           decision.packet.place, decision.packet.marked);
}

void tell_tallies(const char *whose, bilgethrum_tallies tallies)
{
    printf("%s: T %" PRIu32 " %" PRIu32 " %" PRIu32 " %" PRIu32 " %" PRIu32 "\n", whose,
           tallies.unmarked_admitted, tallies.marked_admitted, tallies.unmarked_started,
           tallies.marked_started, tallies.marked_dropped);
}

void tell_marking(const char *whose, bilgethrum_marking marking)
{
    printf("%s: refusal %" PRIu32 ", marked %" PRIu32 "\n", whose, marking.refusal,
           marking.marked);
}
