/* Measures the marker's call on random packets. */
#ifndef MARKS_H
#define MARKS_H

/* Prints a row for each number of flows and mixture of markings. */
void measure_marks(void);

#endif
