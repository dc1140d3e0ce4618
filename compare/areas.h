/* Lent areas with guard bytes around them and no access beyond. */
#ifndef AREAS_H
#define AREAS_H

#include <stdbool.h>
#include <stddef.h>
#include <stdint.h>

/* A room lies between two stretches that may be neither read nor written.  Where
 * nothing was written it holds a fixed pattern of bytes that no text contains. */
struct room {
    uint8_t *bytes;
    uint8_t *pattern;
    size_t size;
};

struct area {
    const struct room *room;
    size_t offset;
    size_t length;
};

struct room room_of(size_t size);

/* Lends length bytes, filled with the pattern, as are the guard bytes around them.
 * at_end places them hard at the end of the room; else they begin some way in, aligned
 * as said (1, 2, 4 or 8) and no better.  length is a multiple of the alignment. */
struct area lend(const struct room *room, size_t length, size_t alignment, bool at_end);

uint8_t *area_bytes(const struct area *area);

/* Whether the area from this byte on, and the guard bytes around it, are untouched. */
bool untouched_from(const struct area *area, size_t from);

#endif
