/* Keeps the columns of both sides, which begin alike and must end alike. */
#include "lent_columns.h"

#include <stdio.h>
#include <stdlib.h>
#include <string.h>

#include "hold.h"

static const size_t widths[COLUMNS] = { 1, 4, 4, 8 };

static struct room rooms[COLUMNS];
static struct area columns[COLUMNS];
static uint8_t *plain[COLUMNS];

void lent_columns_begin(void)
{
    for (int i = 0; i < COLUMNS; i++) {
        rooms[i] = room_of(COLUMN_ROOM * widths[i]);
        plain[i] = malloc(COLUMN_ROOM * widths[i]);
        if (plain[i] == NULL)
            hold_failed("no memory");
    }
}

void lend_columns(const size_t entries[COLUMNS], bool at_end)
{
    for (int i = 0; i < COLUMNS; i++) {
        columns[i] = lend(&rooms[i], entries[i] * widths[i], widths[i], at_end);
        memcpy(plain[i], area_bytes(&columns[i]), columns[i].length);
    }
}

size_t entries_of(enum column column)
{
    return columns[column].length / widths[column];
}

void *lent(enum column column)
{
    return area_bytes(&columns[column]);
}

struct second_columns plain_columns(void)
{
    return (struct second_columns){ plain[KINDS], entries_of(KINDS),
                                    (void *)plain[LENGTHS], entries_of(LENGTHS),
                                    (void *)plain[PLACES], entries_of(PLACES),
                                    (void *)plain[INSTANTS], entries_of(INSTANTS) };
}

static void put(uint8_t *entry, size_t width, uint64_t value)
{
    if (width == 1)
        *entry = (uint8_t)value;
    else if (width == 4)
        memcpy(entry, &(uint32_t){ (uint32_t)value }, sizeof(uint32_t));
    else
        memcpy(entry, &value, sizeof value);
}

void put_entry(enum column column, size_t i, uint64_t value)
{
    size_t width = widths[column];
    if (i >= entries_of(column))
        return;
    put(area_bytes(&columns[column]) + i * width, width, value);
    put(plain[column] + i * width, width, value);
}

_Noreturn void columns_failed(const char *why)
{
    printf("columns of %zu, %zu, %zu and %zu entries\n", entries_of(KINDS), entries_of(LENGTHS),
           entries_of(PLACES), entries_of(INSTANTS));
    hold_failed(why);
}

void hold_lent(const struct area *area, const uint8_t *wanted, const char *why)
{
    if (memcmp(area_bytes(area), wanted, area->length) != 0 || !untouched_from(area, area->length))
        columns_failed(why);
}

void hold_lent_columns(void)
{
    static const char *const names[COLUMNS] = { "the column of kinds, or bytes around it",
                                                "the column of lengths, or bytes around it",
                                                "the column of places, or bytes around it",
                                                "the column of instants, or bytes around it" };
    for (int i = 0; i < COLUMNS; i++)
        hold_lent(&columns[i], plain[i], names[i]);
}
