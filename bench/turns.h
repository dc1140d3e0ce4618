/* Times by turns of two sides, and their lower quartiles. */
#ifndef TURNS_H
#define TURNS_H

enum { TURNS = 601 };

/* Nanoseconds of one call. */
struct cost {
    double archive;
    double baseline;
};

/* The costs in each turn. */
struct times {
    double archive[TURNS];
    double baseline[TURNS];
};

double nanoseconds(void);

/* Whatever else the machine does makes a turn longer, never shorter: the lower quartile is
 * less touched by it than the median, and less by one lucky turn than the least. */
struct cost lower_quartiles(struct times *times);

/* A line for bench/table.awk: the row's name, its unit and both costs for one unit. */
void print_row(const char *what, const char *unit, struct cost cost, double units);

#endif
