/* Picks the calls of a list on several lines. */
#ifndef DIRECT_PICK_H
#define DIRECT_PICK_H

#include "bilgethrum.h"
#include "generate.h"

enum step_kind { STEP_OPEN, STEP_ARRIVE, STEP_ADVANCE, STEP_COPY };

/* One step of a list; what its kind has no use for is 0. */
struct step {
    enum step_kind kind;
    unsigned line;
    unsigned from;                      /* the line that a copy is made of */
    bilgethrum_settings settings;
    bilgethrum_packet packet;
    uint64_t at;
};

/* How a list goes: its steps, and in how many of a hundred a number is a wild one. */
struct course {
    size_t steps;
    unsigned wild;
    unsigned lines;
};

enum { MOST_LINES = 3, MOST_STEPS = 3000 };

struct course pick_course(struct random *random);

/* Any settings, in range more often than not. */
bilgethrum_settings pick_settings(struct random *random);

/* Instants and lengths out of range, just in range, or in range once they are cut. */
uint64_t wild_instant(struct random *random, uint64_t clock);
uint32_t wild_length(struct random *random);

struct step pick_open(struct random *random, unsigned line);

/* The next step, aimed by the lines as they are. */
struct step pick_step(struct random *random, const struct course *course, struct aim *aims);

/* The call of an event on this line, and the event of such a call. */
struct step step_of(const struct event *event, unsigned line);
struct event event_of(const struct step *step);

/* Fills the bytes between the members of what is handed over: they mean nothing, so no
 * call may heed them. */
void fill_gaps(struct step *step);

#endif
