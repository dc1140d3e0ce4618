/* Counts what the images reached, so that a generator gone blind is found out. */
#ifndef COUNTERS_H
#define COUNTERS_H

#include <stdbool.h>

#include "hold.h"
#include "trace.h"

/* Counts the lines of a text by kind, and the refusals of images. */
void count_text(const struct text *text);

/* Counts the situations that a valid trace brings about on the line. */
void count_trace(const struct trace *trace);

/* Gives whether every counter is above 0. */
bool print_counters(void);

#endif
