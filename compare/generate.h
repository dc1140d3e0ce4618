/* Makes random traces and events that reach the corners of the line's rules. */
#ifndef GENERATE_H
#define GENERATE_H

#include "baseline_line.h"
#include "random.h"
#include "trace.h"

void generate_trace(struct random *random, struct trace *trace);

/* Settings in range. */
uint64_t generate_alpha(struct random *random);
uint64_t generate_ticks(struct random *random);

/* What the next event is aimed by: a mood, and the line as the events so far left it. */
struct aim {
    const struct mood *mood;
    struct baseline_line line;
};

/* A fresh line, with settings in range. */
void aim_open(struct aim *aim, struct random *random, uint64_t alpha, uint64_t ticks_per_byte);

/* An event whose numbers are in range, though the line may refuse it. */
struct event aim_event(struct aim *aim, struct random *random);

/* Takes the event, which may have any numbers. */
void aim_follow(struct aim *aim, const struct event *event);

#endif
