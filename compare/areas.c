/* Lends areas to the programs compared and finds every byte changed outside of what is allowed. */
#define _DEFAULT_SOURCE
#include "areas.h"

#include <stdio.h>
#include <stdlib.h>
#include <string.h>
#include <sys/mman.h>

/* PAGES is a multiple of every usual page size, GUARD of twice every alignment. */
enum { PAGES = 65536, GUARD = 96, MOST_ALIGNMENT = 8 };

struct room room_of(size_t size)
{
    size_t inner = (size + 2 * GUARD + MOST_ALIGNMENT + PAGES - 1) / PAGES * PAGES;
    uint8_t *outer = mmap(NULL, inner + 2 * PAGES, PROT_NONE, MAP_PRIVATE | MAP_ANONYMOUS, -1, 0);
    uint8_t *pattern = malloc(inner);
    if (outer == MAP_FAILED || pattern == NULL
        || mprotect(outer + PAGES, inner, PROT_READ | PROT_WRITE) != 0) {
        fprintf(stderr, "compare: no memory\n");
        exit(2);
    }
    for (size_t i = 0; i < inner; i++)
        pattern[i] = (uint8_t)(0x80 | i * 29 >> 3);
    memcpy(outer + PAGES, pattern, inner);
    return (struct room){ outer + PAGES, pattern, inner };
}

static size_t guards_begin(const struct area *area)
{
    return area->offset - GUARD;
}

static size_t guards_end(const struct area *area)
{
    size_t end = area->offset + area->length + GUARD;
    return end < area->room->size ? end : area->room->size;
}

struct area lend(const struct room *room, size_t length, size_t alignment, bool at_end)
{
    struct area area = { room, at_end ? room->size - length : GUARD + alignment, length };
    size_t begin = guards_begin(&area);
    memcpy(room->bytes + begin, room->pattern + begin, guards_end(&area) - begin);
    return area;
}

uint8_t *area_bytes(const struct area *area)
{
    return area->room->bytes + area->offset;
}

static bool untouched(const struct room *room, size_t begin, size_t end)
{
    return memcmp(room->bytes + begin, room->pattern + begin, end - begin) == 0;
}

bool untouched_from(const struct area *area, size_t from)
{
    return untouched(area->room, guards_begin(area), area->offset)
           && untouched(area->room, area->offset + from, guards_end(area));
}
