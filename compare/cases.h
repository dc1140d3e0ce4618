/* Document 01's cases, each with its text written down from the document. */
#ifndef CASES_H
#define CASES_H

void hold_cases(void);

#endif
