/* The baseline's direct calls as functions of their own, in the form of the archive's. */
#include "baseline.h"

#include "baseline_host.h"
#include "baseline_marker.h"

uint32_t baseline_call_open(bilgethrum_line *line, bilgethrum_settings settings)
{
    return baseline_host_open(line, settings);
}

bilgethrum_arrival baseline_call_arrive(bilgethrum_line *line, bilgethrum_packet packet)
{
    return baseline_host_arrive(line, packet);
}

bilgethrum_decision baseline_call_advance(bilgethrum_line *line, uint64_t at)
{
    return baseline_host_advance(line, at);
}

uint32_t baseline_call_open_marker(bilgethrum_marker *marker, bilgethrum_flows flows)
{
    return baseline_open_marker(marker, flows);
}

bilgethrum_marking baseline_call_mark(bilgethrum_marker *marker, uint32_t flow, uint32_t length,
                                      uint64_t at)
{
    return baseline_mark(marker, flow, length, at);
}
