/* Four event columns on both sides, for calls that read into them or write from them. */
#ifndef LENT_COLUMNS_H
#define LENT_COLUMNS_H

#include "areas.h"
#include "second_columns.h"

enum column { KINDS, LENGTHS, PLACES, INSTANTS, COLUMNS };

/* More entries than 16 bits can count, so that a count cut to those shows. */
enum { COLUMN_ROOM = 65536 + 64 };

void lent_columns_begin(void);

/* Lends columns of so many entries to the archive, each among guard bytes; the second
 * program's begin alike. */
void lend_columns(const size_t entries[COLUMNS], bool at_end);

size_t entries_of(enum column column);

/* The archive's. */
void *lent(enum column column);

/* The second program's. */
struct second_columns plain_columns(void);

/* Puts an entry on both sides; beyond the column's end it does nothing. */
void put_entry(enum column column, size_t i, uint64_t value);

/* Fails unless both sides are alike, entry for entry, and the guard bytes untouched. */
void hold_lent_columns(void);

/* The same of another lent area, against what is wanted in it. */
void hold_lent(const struct area *area, const uint8_t *wanted, const char *why);

/* Says how long the columns are, and ends the process. */
_Noreturn void columns_failed(const char *why);

#endif
