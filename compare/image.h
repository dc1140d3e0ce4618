/* Writes images for the comparison, apart from the programs compared. */
#ifndef IMAGE_H
#define IMAGE_H

#include "trace.h"

/* Room for far more blocks than a reader takes, so that a length cut to 8 or 16 bits shows. */
enum { IMAGE_ROOM = 260 * BLOCK_BYTES };

/* Gives the image's length. */
size_t image_of(const struct trace *trace, uint8_t *image);

/* Writes value big-endian into the bytes at to. */
void image_put(uint8_t *to, unsigned bytes, uint64_t value);

uint16_t image_check(const uint8_t *block);

/* Makes the check of a block right again. */
void image_repair(uint8_t *block);

#endif
