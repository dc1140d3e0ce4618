/* The baseline: the same calls in the fastest C that we can write, to measure the archive against. */
#ifndef BASELINE_H
#define BASELINE_H

#include "bilgethrum.h"

int64_t baseline_run(const uint8_t *image, size_t image_len, uint8_t *answer, size_t answer_len);

uint32_t baseline_call_open(bilgethrum_line *line, bilgethrum_settings settings);
bilgethrum_arrival baseline_call_arrive(bilgethrum_line *line, bilgethrum_packet packet);
bilgethrum_decision baseline_call_advance(bilgethrum_line *line, uint64_t at);

uint32_t baseline_call_open_marker(bilgethrum_marker *marker, bilgethrum_flows flows);
bilgethrum_marking baseline_call_mark(bilgethrum_marker *marker, uint32_t flow, uint32_t length,
                                      uint64_t at);

#endif
