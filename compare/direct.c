/* Brings the parts of the comparison by direct calls together. */
#include "direct.h"

#include "bilgethrum.h"
#include "lent_columns.h"

/* C leaves the bytes between members to the compiler; the archive has the layout that the
 * System V ABI for x86-64 fixes, and so must whoever calls it. */
_Static_assert(sizeof(bilgethrum_line) == 4 * BILGETHRUM_LINE_WORDS, "line");
_Static_assert(sizeof(bilgethrum_settings) == 16 && sizeof(bilgethrum_packet) == 24, "given");
_Static_assert(sizeof(bilgethrum_arrival) == 16 && offsetof(bilgethrum_arrival, extra) == 8,
               "arrival");
_Static_assert(sizeof(bilgethrum_decision) == 56 && offsetof(bilgethrum_decision, start) == 8
               && offsetof(bilgethrum_decision, dropped) == 24
               && offsetof(bilgethrum_decision, packet) == 32, "decision");
_Static_assert(sizeof(bilgethrum_tallies) == 20 && sizeof(bilgethrum_writing) == 16, "numbers");
_Static_assert(sizeof(bilgethrum_marker) == 8 * BILGETHRUM_MARKER_WORDS
               && sizeof(bilgethrum_flows) == 68 && offsetof(bilgethrum_flows, each) == 4
               && sizeof(bilgethrum_marking) == 8, "marker");
_Static_assert(sizeof(bilgethrum_reading) == 40 && offsetof(bilgethrum_reading, record) == 8
               && offsetof(bilgethrum_reading, events) == 16
               && offsetof(bilgethrum_reading, settings) == 24, "reading");

void direct_begin(void)
{
    lines_begin();
    lent_columns_begin();
    reads_begin();
    writes_begin();
    views_begin();
    markers_begin();
}
