/* Measures direct calls: an advance and an arrival by turns. */
#ifndef PAIRS_H
#define PAIRS_H

/* Prints a row for each number of waiting packets. */
void measure_pairs(void);

#endif
