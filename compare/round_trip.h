/* Holds the trace text tool against the image generator. */
#ifndef ROUND_TRIP_H
#define ROUND_TRIP_H

#include "trace.h"

/* The trace through text and back must give this image, and the image this text. */
void round_trip(const struct trace *trace, const uint8_t *image, size_t length);

/* Texts that must be refused, with the line that is wrong, and ways to write the same trace. */
void hold_trace_texts(void);

#endif
