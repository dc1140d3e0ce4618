/* Prints the steps of a list and the answers to them. */
#ifndef DIRECT_TELL_H
#define DIRECT_TELL_H

#include "direct_marker_pick.h"
#include "direct_pick.h"

/* In the form of the trace texts as far as that goes, after the line's index. */
void tell_step(const struct step *step);

/* Flows as rate/depth, and a packet as length@instant, after the marker's index. */
void tell_marker_step(const struct marker_step *step);

/* whose: the answer that is wanted, or the one that is given. */
void tell_arrival(const char *whose, bilgethrum_arrival arrival);
void tell_decision(const char *whose, bilgethrum_decision decision);
void tell_tallies(const char *whose, bilgethrum_tallies tallies);
void tell_marking(const char *whose, bilgethrum_marking marking);

#endif
