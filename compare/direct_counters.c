/* Keeps one count for each call with each refusal, and demands those that document 01 lists. */
#include "direct_counters.h"

#include <stdio.h>

enum { REFUSALS = 54 };

static const struct {
    const char *name;
    uint32_t refusals[14];      /* those that must be reached, up to a 0 */
} calls[CALL_NAMES] = {
    [CALL_OPEN] = { "open", { 8, 9 } },
    [CALL_ARRIVE] = { "arrive", { 1, 2, 3, 4, 5, 6 } },
    [CALL_ADVANCE] = { "advance", { 2, 3 } },
    [CALL_TALLY] = { "tally", { 0 } },
    [CALL_READ] = { "read", { 11, 12, 13, 14, 15, 16, 17, 41, 42, 43, 44, 19, 20 } },
    [CALL_WRITE] = { "write", { 8, 9, 21, 22, 23, 24 } },
    [CALL_VIEW] = { "view", { 1, 31 } },
    [CALL_OPEN_MARKER] = { "open marker", { 51, 52, 53 } },
    [CALL_MARK] = { "mark", { 51, 1, 2, 3 } },
};

static const char *const outcome_names[OUTCOMES] = {
    [UNMARKED_ADMITTED] = "unmarked admitted",
    [MARKED_ADMITTED] = "marked admitted",
    [ADMITTED_UNDER_REFUSED_SETTINGS] = "admitted by what a refused opening opens",
    [UNMARKED_STARTED] = "unmarked started",
    [MARKED_STARTED] = "marked started",
    [STARTED_DROPPING_ONE] = "started, dropping one",
    [STARTED_DROPPING_SEVERAL] = "started, dropping several",
    [STARTED_DROPPING_ALL] = "started, dropping a full room of 64",
    [NOTHING_DUE] = "nothing due",
    [STARTED_FROM_COPY] = "started on a copy of a line",
    [STARTED_AFTER_REOPENING] = "started on a line opened anew",
    [READ_INTO_LONGER_COLUMNS] = "read into columns that are longer and unequal",
    [WRITTEN_IN_LONGER_IMAGE] = "written at the front of a longer image",
    [WRITTEN_64_BLOCKS] = "written as 64 blocks",
    [WRITTEN_WITH_CHECK_ZERO] = "written with a check of 0000",
    [SEEN_IN_MARKED_AREA] = "payload in the marked area, not in the unmarked one",
    [SEEN_BEYOND_4_GIB] = "payload that ends beyond byte 2^32 of its area",
    [OPENED_BESIDE_WRONG_FLOWS] = "marker opened, flows beyond its count being out of range",
    [REFUSED_RATE_BEHIND_DEPTH] = "marker refused for a rate, an earlier depth being out of range",
    [LEFT_UNMARKED] = "left unmarked",
    [MARKED_AT_THE_DOOR] = "marked",
    [FILLED_TO_THE_LENGTH] = "left unmarked, the bucket having filled to just the length",
    [FULL_TO_THE_LENGTH] = "left unmarked, the length being the depth",
    [A_MILLIONTH_SHORT] = "marked for a millionth of a byte",
    [A_TICK_SHORT] = "marked for a tick",
    [LONGER_THAN_THE_DEPTH] = "marked by a full bucket",
    [FILLED_OVER_A_LONG_SPAN] = "judged more than 65,535,000,000 ticks after the flow's last packet",
    [FILLED_BEYOND_64_BITS] = "judged where rate times span passes 64 bits",
    [BOUND_REACHED] = "left unmarked, reaching the bound of a stretch of calls",
    [REFUSED_TWICE_OVER] = "packet refused that a later test would refuse too",
    [JUDGED_UNDER_REFUSED_FLOWS] = "judged by what a refused opening opens",
    [JUDGED_FROM_COPY] = "judged by a copy of a marker",
    [JUDGED_AFTER_REOPENING] = "judged by a marker opened anew",
};

static unsigned long long answered[CALL_NAMES][REFUSALS];
static unsigned long long reached[OUTCOMES];
static bool excused[OUTCOMES];
static uint64_t made;

void count_call(enum call_name name, uint32_t refusal)
{
    made++;
    answered[name][refusal % REFUSALS]++;
}

void count_outcome(enum outcome outcome)
{
    reached[outcome]++;
}

void excuse_outcome(enum outcome outcome)
{
    excused[outcome] = true;
}

uint64_t direct_calls_made(void)
{
    return made;
}

static bool print_refusals(enum call_name name)
{
    bool all = answered[name][0] != 0;
    printf("%12llu  %s%s\n", answered[name][0], calls[name].name, all ? "" : "   <-- NEVER REACHED");
    for (const uint32_t *refusal = calls[name].refusals; *refusal != 0; refusal++) {
        unsigned long long count = answered[name][*refusal];
        printf("%12llu    refused with %u%s\n", count, *refusal,
               count != 0 ? "" : "   <-- NEVER REACHED");
        all &= count != 0;
    }
    return all;
}

bool print_direct_counters(void)
{
    bool all = true;
    printf("direct calls, done or refused:\n");
    for (int name = 0; name < CALL_NAMES; name++)
        all &= print_refusals((enum call_name)name);
    printf("outcomes of direct calls reached:\n");
    for (int i = 0; i < OUTCOMES; i++) {
        bool missed = reached[i] == 0 && !excused[i];
        printf("%12llu  %s%s%s\n", reached[i], outcome_names[i],
               missed ? "   <-- NEVER REACHED" : "", excused[i] ? "   (not on this machine)" : "");
        all &= !missed;
    }
    return all;
}
