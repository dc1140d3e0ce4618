/* Takes the time, and lower quartiles of times. */
#define _POSIX_C_SOURCE 200809L
#include "turns.h"

#include <stdio.h>
#include <stdlib.h>
#include <time.h>

double nanoseconds(void)
{
    struct timespec now;
    clock_gettime(CLOCK_MONOTONIC, &now);
    return 1e9 * (double)now.tv_sec + (double)now.tv_nsec;
}

static int by_size(const void *one, const void *other)
{
    double difference = *(const double *)one - *(const double *)other;
    return (difference > 0) - (difference < 0);
}

static double lower_quartile(double *costs)
{
    qsort(costs, TURNS, sizeof *costs, by_size);
    return costs[TURNS / 4];
}

struct cost lower_quartiles(struct times *times)
{
    return (struct cost){ lower_quartile(times->archive), lower_quartile(times->baseline) };
}

void print_row(const char *what, const char *unit, struct cost cost, double units)
{
    printf("%s\t%s\t%.4f\t%.4f\n", what, unit, cost.archive / units, cost.baseline / units);
}
