/* The baseline's direct calls: its line in the words that a host lends. */
#ifndef BASELINE_HOST_H
#define BASELINE_HOST_H

#include "baseline_line.h"
#include "bilgethrum.h"

/* What a start hands back and the decision itself has no need of. */
struct baseline_packet {
    baseline_ticks arrival;
    uint16_t length;
    uint16_t marked;
    uint32_t place;
};

/* Packets lie in a ring by their numbers, as their times do. */
struct baseline_host {
    struct baseline_line line;
    struct baseline_packet packets[BASELINE_RING];
};

_Static_assert(sizeof(struct baseline_host) <= sizeof(bilgethrum_line)
               && _Alignof(struct baseline_host) <= _Alignof(bilgethrum_line),
               "the baseline's line lies in the host's words");

/* The words are never looked at as words here, so no two views of them can clash. */
static inline struct baseline_host *baseline_host_in(bilgethrum_line *words)
{
    return (struct baseline_host *)(void *)words;
}

static inline const struct baseline_host *baseline_host_within(const bilgethrum_line *words)
{
    return (const struct baseline_host *)(const void *)words;
}

static inline uint32_t baseline_settings_refusal(bilgethrum_settings settings)
{
    if (settings.alpha - 1 >= BILGETHRUM_MOST_ALPHA)
        return BILGETHRUM_REFUSED_ALPHA;
    if (settings.ticks_per_byte - 1 >= BILGETHRUM_MOST_TICKS_PER_BYTE)
        return BILGETHRUM_REFUSED_TICKS_PER_BYTE;
    return BILGETHRUM_NOT_REFUSED;
}

static inline uint32_t baseline_host_open(bilgethrum_line *words, bilgethrum_settings settings)
{
    uint32_t refusal = baseline_settings_refusal(settings);
    if (refusal != 0)
        settings = (bilgethrum_settings){ .alpha = 1, .ticks_per_byte = 1 };
    baseline_open(&baseline_host_in(words)->line, (uint32_t)settings.alpha,
                  settings.ticks_per_byte);
    return refusal;
}

static inline bilgethrum_arrival baseline_host_arrive(bilgethrum_line *words,
                                                      bilgethrum_packet packet)
{
    struct baseline_host *host = baseline_host_in(words);
    struct baseline_line *line = &host->line;
    if (packet.length - 1 >= BILGETHRUM_MOST_LENGTH)
        return (bilgethrum_arrival){ .refusal = BILGETHRUM_REFUSED_LENGTH };
    if (packet.arrival > BILGETHRUM_MOST_INSTANT)
        return (bilgethrum_arrival){ .refusal = BILGETHRUM_REFUSED_INSTANT };
    uint32_t extra = 0;
    int refusal = packet.marked != 0
        ? baseline_marked(line, packet.length, packet.arrival)
        : baseline_unmarked(line, packet.length, packet.arrival, &extra);
    if (refusal != 0)
        return (bilgethrum_arrival){ .refusal = (uint32_t)refusal };
    host->packets[line->admitted % BASELINE_RING] =
        (struct baseline_packet){ .arrival = packet.arrival, .length = (uint16_t)packet.length,
                                  .marked = packet.marked != 0, .place = packet.place };
    return (bilgethrum_arrival){ .number = line->admitted, .extra = extra };
}

/* Member by member, since a whole literal would be cleared first. */
static inline bilgethrum_decision baseline_host_decision(const struct baseline_host *host,
                                                         struct baseline_start start)
{
    const struct baseline_packet *packet = &host->packets[start.number % BASELINE_RING];
    bilgethrum_decision decision;
    decision.refusal = BILGETHRUM_NOT_REFUSED;
    decision.number = start.number;
    decision.start = start.instant;
    decision.extra = start.extra_delay;
    decision.dropped = start.dropped;
    decision.packet.arrival = packet->arrival;
    decision.packet.length = packet->length;
    decision.packet.place = packet->place;
    decision.packet.marked = packet->marked;
    return decision;
}

static inline bilgethrum_decision baseline_host_advance(bilgethrum_line *words, uint64_t at)
{
    struct baseline_host *host = baseline_host_in(words);
    bool decided;
    struct baseline_start start;
    if (at > BILGETHRUM_MOST_INSTANT)
        return (bilgethrum_decision){ .refusal = BILGETHRUM_REFUSED_INSTANT };
    int refusal = baseline_advance(&host->line, at, &decided, &start);
    if (refusal != 0 || !decided)
        return (bilgethrum_decision){ .refusal = (uint32_t)refusal };
    return baseline_host_decision(host, start);
}

static inline bilgethrum_tallies baseline_host_tally(const bilgethrum_line *words)
{
    const struct baseline_line *line = &baseline_host_within(words)->line;
    return (bilgethrum_tallies){ .unmarked_admitted = line->unmarked_admitted,
                                 .marked_admitted = baseline_marked_admitted(line),
                                 .unmarked_started = line->unmarked_started,
                                 .marked_started = baseline_marked_started(line),
                                 .marked_dropped = line->marked_dropped };
}

#endif
