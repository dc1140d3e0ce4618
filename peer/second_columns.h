/* Document 01's reader and writer over lent columns, and its view's number, for the second program. */
#ifndef SECOND_COLUMNS_H
#define SECOND_COLUMNS_H

#include "trace.h"

/* Four lent columns, each with its own length; entry i of each is for event i. */
struct second_columns {
    uint8_t *kinds;
    size_t kinds_len;
    uint32_t *lengths;
    size_t lengths_len;
    uint32_t *places;
    size_t places_len;
    uint64_t *instants;
    size_t instants_len;
};

/* Numbers the answer has no use for are 0. */
struct second_reading {
    int refusal;
    size_t block;
    size_t record;
    size_t events;
    uint64_t alpha;
    uint64_t ticks_per_byte;
};

struct second_reading second_read_columns(const uint8_t *image, size_t image_len,
                                          const struct second_columns *columns);

struct second_writing {
    int refusal;
    size_t bytes;
};

struct second_writing second_write(uint64_t alpha, uint64_t ticks_per_byte,
                                   const struct second_columns *columns,
                                   uint8_t *image, size_t image_len);

/* For a packet of this length at this place of an area so long. */
int second_view(uint64_t area_len, uint64_t place, uint64_t length);

#endif
