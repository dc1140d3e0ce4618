/* Holds the archive's direct calls against the second program's, by lists from a seed. */
#ifndef DIRECT_H
#define DIRECT_H

#include <stdbool.h>
#include <stdint.h>

#include "trace.h"

/* Prepares what the calls below lend. */
void direct_begin(void);

/* Each makes the calls of one list, which index and seed bring about again.  Aloud,
 * every call is told before it is made. */
void hold_lines(uint64_t index, uint64_t seed, bool aloud);
void hold_reads(uint64_t index, uint64_t seed, bool aloud);
void hold_writes(uint64_t index, uint64_t seed, bool aloud);
void hold_views(uint64_t index, uint64_t seed, bool aloud);
void hold_markers(uint64_t index, uint64_t seed, bool aloud);

/* Reads one image into columns of so many entries each. */
void hold_read(const uint8_t *image, size_t length, size_t entries);

/* Makes the trace's calls one by one. */
void hold_trace_by_calls(const char *name, const struct trace *trace);

/* The parts of direct_begin. */
void lines_begin(void);
void reads_begin(void);
void writes_begin(void);
void views_begin(void);
void markers_begin(void);

#endif
