/* Holds the programs against each other on one image. */
#ifndef HOLD_H
#define HOLD_H

#include <stddef.h>
#include <stdint.h>

#include "bilgethrum.h"

struct text {
    size_t length;
    uint8_t bytes[BILGETHRUM_ANSWER_ENOUGH];
};

void hold_begin(void);

/* Runs every program on the image, in areas of several lengths.  written is the text
 * it must have, or NULL where the second program's is the measure.  Gives the text.
 * At the first difference it saves the image, shows both texts and ends the process. */
const struct text *hold_image(const char *what, const uint8_t *image, size_t length,
                              const struct text *written);

/* Says what is tried now, where it is no image; what stays valid until the next. */
void hold_now(const char *what);

/* Ends the process in the same way for a difference found elsewhere. */
_Noreturn void hold_failed(const char *why);

/* How many calls were made of each program, for the closing lines. */
void hold_print_calls(void);

#endif
