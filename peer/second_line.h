/* The line's rules for the second program, each as document 01 defines it. */
#ifndef SECOND_LINE_H
#define SECOND_LINE_H

#include "trace.h"

enum fate { WAITING, STARTED, DROPPED };

struct packet {
    enum kind marking;
    uint64_t length;
    uint64_t place;
    uint64_t arrival;
    enum fate fate;
};

/* Every packet is kept, as the reference line is followed from the first one on.
 * More calls than this on one line are not provided for; a trace has fewer. */
enum { SECOND_MOST_PACKETS = 4096 };

/* Packet number n is packets[n - 1].  The queue is the plain stretch of the array
 * from packets[gone] to packets[admitted - 1]: first come, first served. */
struct second_line {
    uint64_t alpha;
    uint64_t ticks_per_byte;
    uint64_t clock;
    uint64_t falls_free;
    size_t admitted;
    size_t gone;
    struct packet packets[SECOND_MOST_PACKETS];
};

/* One answer; letter is the one that opens its line in the text, and numbers the
 * answer has no use for are 0. */
struct second_answer {
    char letter;
    uint64_t number;
    uint64_t start;
    uint64_t extra_delay;
    uint64_t dropped;
    struct packet packet;       /* the one that starts */
    int refusal;
};

/* 0, 8 or 9. */
int second_settings_refusal(uint64_t alpha, uint64_t ticks_per_byte);

/* Gives that refusal; a refused opening opens with both settings at their least. */
int second_open(struct second_line *line, uint64_t alpha, uint64_t ticks_per_byte);

/* The event may have any numbers: it is a call, not yet one that the reader let pass. */
struct second_answer second_take(struct second_line *line, const struct event *event);
uint64_t second_tally(const struct second_line *line, enum kind marking, enum fate fate);
uint64_t second_admitted(const struct second_line *line, enum kind marking);

#endif
