/* The reader of trace images for the second program and the trace text tool. */
#ifndef SECOND_BLOCKS_H
#define SECOND_BLOCKS_H

#include "trace.h"

/* refusal is 0 where the image is taken.  record counts in its block, and is 0 for every refusal
 * that is not a record's. */
struct second_verdict {
    int refusal;
    size_t block;
    size_t record;
};

/* trace is filled only where the image is taken. */
struct second_verdict second_read(const uint8_t *image, size_t image_len, struct trace *trace);

#endif
