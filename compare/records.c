/* Puts every record that can be made of chosen values, and every two bad ones, at the first, a
 * middle and the last place of the first, a middle and the last block; checks are right again. */
#include "records.h"

#include <stdio.h>
#include <string.h>

#include "direct.h"
#include "hold.h"
#include "image.h"

/* The fields of a record, in the order of checking; NO_FIELD is wrong in a right record. */
enum { KIND, SPARE_BYTE, LENGTH, PLACE, INSTANT, FIELDS, NO_FIELD = FIELDS };

static const struct {
    unsigned at;
    unsigned bytes;
    int refusal;
} fields[FIELDS] = {
    [KIND] = { 0, 1, 17 }, [SPARE_BYTE] = { 1, 1, 41 }, [LENGTH] = { 2, 2, 42 },
    [PLACE] = { 4, 4, 43 }, [INSTANT] = { 8, 8, 44 },
};

/* Values at both sides of a field's limits; those that are right stand first. */
struct values {
    size_t right;
    size_t count;
    uint64_t value[5];
};

static const struct values of_arrival[FIELDS] = {
    [KIND] = { 2, 5, { UNMARKED, MARKED, 0, 4, 255 } },
    [SPARE_BYTE] = { 1, 3, { 0, 1, 255 } },
    [LENGTH] = { 2, 5, { 1, 2048, 0, 2049, 0xffff } },
    [PLACE] = { 3, 3, { 0, 1, 0xffffffff } },
    [INSTANT] = { 2, 4, { 0, MOST_INSTANT, MOST_INSTANT + 1, UINT64_MAX } },
};

static const struct values of_advance[FIELDS] = {
    [KIND] = { 1, 4, { ADVANCE, 0, 4, 255 } },
    [SPARE_BYTE] = { 1, 3, { 0, 1, 255 } },
    [LENGTH] = { 1, 5, { 0, 1, 2048, 2049, 0xffff } },
    [PLACE] = { 1, 4, { 0, 1, 0x10000, 0xffffffff } },
    [INSTANT] = { 2, 4, { 0, MOST_INSTANT, MOST_INSTANT + 1, UINT64_MAX } },
};

/* Three places in each of three blocks. */
enum { POSITIONS = 9 };

struct position {
    size_t block;
    size_t record;
};

static uint8_t right_image[IMAGE_ROOM];
static uint8_t image[IMAGE_ROOM];
static size_t length;
static size_t events;
static unsigned long long reached[FIELDS + 1][POSITIONS];
static unsigned long long pairs_held;

/* Records go unmarked, marked, advance by turns. */
static void begin_image(size_t count)
{
    static struct trace trace;
    trace = (struct trace){ .alpha = 100, .ticks_per_byte = 1 };
    while (trace.count < count) {
        enum kind kind = (enum kind)(trace.count % 3 + 1);
        trace.events[trace.count++] =
            (struct event){ .kind = kind, .length = kind == ADVANCE ? 0 : 1 };
    }
    events = count;
    length = image_of(&trace, right_image);
    memcpy(image, right_image, length);
}

static struct position position_of(int index)
{
    size_t blocks = length / BLOCK_BYTES;
    size_t block = (size_t)(index / 3) * (blocks - 1) / 2;
    size_t records = right_image[block * BLOCK_BYTES + 3];
    return (struct position){ block, (size_t)(index % 3) * (records - 1) / 2 };
}

static uint8_t *record_at(int index)
{
    struct position position = position_of(index);
    return image + position.block * BLOCK_BYTES + HEADER_BYTES + position.record * RECORD_BYTES;
}

static uint8_t *block_at(int index)
{
    return image + position_of(index).block * BLOCK_BYTES;
}

/* Makes the block as it was. */
static void mend(int index)
{
    size_t offset = position_of(index).block * BLOCK_BYTES;
    memcpy(image + offset, right_image + offset, BLOCK_BYTES);
}

/* Each combination picks one value for each field.  Gives the first field that is wrong. */
static int put_record(int index, const struct values *values, size_t combination)
{
    int first_wrong = NO_FIELD;
    for (int i = 0; i < FIELDS; i++) {
        size_t pick = combination % values[i].count;
        combination /= values[i].count;
        image_put(record_at(index) + fields[i].at, fields[i].bytes, values[i].value[pick]);
        if (first_wrong == NO_FIELD && pick >= values[i].right)
            first_wrong = i;
    }
    image_repair(block_at(index));
    return first_wrong;
}

/* An advance that is wrong in one field only. */
static void put_wrong_advance(int index, int field)
{
    uint8_t *record = record_at(index);
    memset(record, 0, RECORD_BYTES);
    record[0] = ADVANCE;
    image_put(record + fields[field].at, fields[field].bytes,
              of_advance[field].value[of_advance[field].right]);
    image_repair(block_at(index));
}

/* Into columns that are long enough, and into ones that are not. */
static void hold_both_reads(void)
{
    hold_read(image, length, events);
    hold_read(image, length, 0);
}

static void hold_refused(const char *what, int index, int field)
{
    static struct text wanted;
    struct position position = position_of(index);
    int printed = snprintf((char *)wanted.bytes, sizeof wanted.bytes, "X %d %zu %zu\n",
                           fields[field].refusal, position.block, position.record);
    wanted.length = (size_t)printed;
    hold_image(what, image, length, &wanted);
    hold_both_reads();
}

static void hold_right(const char *what)
{
    if (hold_image(what, image, length, NULL)->bytes[0] == 'X')
        hold_failed("a right record is refused");
    hold_both_reads();
}

static void hold_combination(const struct values *values, size_t combination, int index)
{
    static char what[96];
    snprintf(what, sizeof what, "record %zu of an %s's values, at position %d", combination,
             values == of_advance ? "advance" : "arrival", index);
    int field = put_record(index, values, combination);
    if (field == NO_FIELD)
        hold_right(what);
    else
        hold_refused(what, index, field);
    reached[field][index]++;
    mend(index);
}

static void hold_combinations(const struct values *values)
{
    size_t combinations = 1;
    for (int i = 0; i < FIELDS; i++)
        combinations *= values[i].count;
    for (size_t i = 0; i < combinations; i++)
        for (int index = 0; index < POSITIONS; index++)
            hold_combination(values, i, index);
}

/* Two bad records, of which the first decides. */
static void hold_pair(int first, int first_field, int second, int second_field)
{
    static char what[96];
    snprintf(what, sizeof what, "records wrong in fields %d and %d, at positions %d and %d",
             first_field, second_field, first, second);
    put_wrong_advance(first, first_field);
    put_wrong_advance(second, second_field);
    hold_refused(what, first, first_field);
    pairs_held++;
    mend(first);
    mend(second);
}

static void hold_pairs(void)
{
    for (int second = 1; second < POSITIONS; second++)
        for (int first = 0; first < second; first++)
            for (int i = 0; i < FIELDS * FIELDS; i++)
                hold_pair(first, i / FIELDS, second, i % FIELDS);
}

/* Long images cost the second program much, so they have the pairs only. */
void hold_records(void)
{
    begin_image(2 * RECORDS_PER_BLOCK + 7);
    hold_combinations(of_arrival);
    hold_combinations(of_advance);
    begin_image(MOST_EVENTS);
    hold_pairs();
}

static bool print_row(const unsigned long long *row, const char *name)
{
    bool all = true;
    for (int index = 0; index < POSITIONS; index++) {
        printf("%s%5llu", index % 3 == 0 ? "  " : " ", row[index]);
        all &= row[index] != 0;
    }
    printf("  %s%s\n", name, all ? "" : "   <-- NEVER REACHED");
    return all;
}

bool print_records(void)
{
    char name[32];
    bool all = true;
    printf("records tried at the first, a middle and the last place of the first, a middle and "
           "the last block:\n");
    for (int i = 0; i < FIELDS; i++) {
        snprintf(name, sizeof name, "refused with %d", fields[i].refusal);
        all &= print_row(reached[i], name);
    }
    all &= print_row(reached[NO_FIELD], "right");
    printf("%12llu  two bad records, of which the first decides%s\n", pairs_held,
           pairs_held != 0 ? "" : "   <-- NEVER REACHED");
    return all && pairs_held != 0;
}
