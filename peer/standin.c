/* Stands in for the proved archive where there is none: the baseline behind its prototypes. */
#include "bilgethrum.h"

#include "baseline.h"
#include "baseline_host.h"
#include "baseline_marker.h"
#include "baseline_traces.h"

uint32_t bilgethrum_open(bilgethrum_line *line, bilgethrum_settings settings)
{
    return baseline_host_open(line, settings);
}

bilgethrum_arrival bilgethrum_arrive(bilgethrum_line *line, bilgethrum_packet packet)
{
    return baseline_host_arrive(line, packet);
}

bilgethrum_decision bilgethrum_advance(bilgethrum_line *line, uint64_t at)
{
    return baseline_host_advance(line, at);
}

bilgethrum_tallies bilgethrum_tally(const bilgethrum_line *line)
{
    return baseline_host_tally(line);
}

uint32_t bilgethrum_open_marker(bilgethrum_marker *marker, bilgethrum_flows flows)
{
    return baseline_open_marker(marker, flows);
}

bilgethrum_marking bilgethrum_mark(bilgethrum_marker *marker, uint32_t flow, uint32_t length,
                                   uint64_t at)
{
    return baseline_mark(marker, flow, length, at);
}

static size_t least(size_t one, size_t other)
{
    return one < other ? one : other;
}

bilgethrum_reading bilgethrum_read(const uint8_t *image, size_t image_len,
                                   uint8_t *kinds, size_t kinds_len,
                                   uint32_t *lengths, size_t lengths_len,
                                   uint32_t *places, size_t places_len,
                                   uint64_t *instants, size_t instants_len)
{
    return baseline_read(image, image_len,
                         (struct baseline_columns){ kinds, lengths, places, instants },
                         least(least(kinds_len, lengths_len), least(places_len, instants_len)));
}

/* The writer only reads its columns; the casts let both share one struct. */
bilgethrum_writing bilgethrum_write(bilgethrum_settings settings,
                                    const uint8_t *kinds, size_t kinds_len,
                                    const uint32_t *lengths, size_t lengths_len,
                                    const uint32_t *places, size_t places_len,
                                    const uint64_t *instants, size_t instants_len,
                                    uint8_t *image, size_t image_len)
{
    return baseline_write(settings,
                          (struct baseline_columns){ (uint8_t *)kinds, (uint32_t *)lengths,
                                                     (uint32_t *)places, (uint64_t *)instants },
                          kinds_len == lengths_len && kinds_len == places_len
                              && kinds_len == instants_len,
                          kinds_len, image, image_len);
}

uint32_t bilgethrum_view_refusal(const uint8_t *unmarked, size_t unmarked_len,
                                 const uint8_t *marked, size_t marked_len,
                                 bilgethrum_packet packet)
{
    (void)unmarked;
    (void)marked;
    return baseline_view_refusal(unmarked_len, marked_len, packet);
}

int64_t bilgethrum_run(const uint8_t *image, size_t image_len,
                       uint8_t *answer, size_t answer_len)
{
    return baseline_run(image, image_len, answer, answer_len);
}
