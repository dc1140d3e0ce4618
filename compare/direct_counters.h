/* Counts direct calls and what they reached. */
#ifndef DIRECT_COUNTERS_H
#define DIRECT_COUNTERS_H

#include <stdbool.h>
#include <stdint.h>

enum call_name {
    CALL_OPEN,
    CALL_ARRIVE,
    CALL_ADVANCE,
    CALL_TALLY,
    CALL_READ,
    CALL_WRITE,
    CALL_VIEW,
    CALL_OPEN_MARKER,
    CALL_MARK,
    CALL_NAMES
};

enum outcome {
    UNMARKED_ADMITTED,
    MARKED_ADMITTED,
    ADMITTED_UNDER_REFUSED_SETTINGS,
    UNMARKED_STARTED,
    MARKED_STARTED,
    STARTED_DROPPING_ONE,
    STARTED_DROPPING_SEVERAL,
    STARTED_DROPPING_ALL,
    NOTHING_DUE,
    STARTED_FROM_COPY,
    STARTED_AFTER_REOPENING,
    READ_INTO_LONGER_COLUMNS,
    WRITTEN_IN_LONGER_IMAGE,
    WRITTEN_64_BLOCKS,
    WRITTEN_WITH_CHECK_ZERO,
    SEEN_IN_MARKED_AREA,
    SEEN_BEYOND_4_GIB,
    OPENED_BESIDE_WRONG_FLOWS,
    REFUSED_RATE_BEHIND_DEPTH,
    LEFT_UNMARKED,
    MARKED_AT_THE_DOOR,
    FILLED_TO_THE_LENGTH,
    FULL_TO_THE_LENGTH,
    A_MILLIONTH_SHORT,
    A_TICK_SHORT,
    LONGER_THAN_THE_DEPTH,
    FILLED_OVER_A_LONG_SPAN,
    FILLED_BEYOND_64_BITS,
    BOUND_REACHED,
    REFUSED_TWICE_OVER,
    JUDGED_UNDER_REFUSED_FLOWS,
    JUDGED_FROM_COPY,
    JUDGED_AFTER_REOPENING,
    OUTCOMES
};

/* One call was made and answered with this refusal, or 0. */
void count_call(enum call_name name, uint32_t refusal);
void count_outcome(enum outcome outcome);

/* Says that an outcome cannot be had on this machine, so that it is not missed. */
void excuse_outcome(enum outcome outcome);

/* All direct calls made. */
uint64_t direct_calls_made(void);

/* Gives whether everything that must be reached was. */
bool print_direct_counters(void);

#endif
