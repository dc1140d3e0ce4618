/* The independent second program: document 01's whole run, image in and text out. */
#ifndef SECOND_H
#define SECOND_H

#include <stddef.h>
#include <stdint.h>

int64_t second_run(const uint8_t *image, size_t image_len, uint8_t *answer, size_t answer_len);

#endif
