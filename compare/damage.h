/* Spoils images in the ways that a reader must find. */
#ifndef DAMAGE_H
#define DAMAGE_H

#include "image.h"
#include "random.h"

enum damage {
    ONE_BIT,
    ONE_FIELD,
    TWO_FIELDS,
    ONE_RECORD,
    UNUSED_BYTE,
    WRONG_CHECK,
    CHECK_ZERO,                 /* no damage: a check that comes to 0000 */
    ONES_FOR_ZERO,
    SEVERAL,                    /* some of the above, one after another */
    CUT_BYTES,
    CUT_BLOCKS,
    LONGER_BY_BYTES,
    LONGER_BY_BLOCKS,
    BLOCKS_SWAPPED,
    RANDOM_BYTES,
    RANDOM_CHECKED,
    BLANK_BLOCK,
    DAMAGES
};

extern const char *const damage_names[DAMAGES];

/* The image lies in IMAGE_ROOM bytes; gives its new length. */
size_t damage_image(enum damage damage, struct random *random, uint8_t *image, size_t length);

#endif
