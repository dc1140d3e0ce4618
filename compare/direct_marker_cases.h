/* Holds the marker to answers that are written down. */
#ifndef DIRECT_MARKER_CASES_H
#define DIRECT_MARKER_CASES_H

void hold_marker_cases(void);

#endif
