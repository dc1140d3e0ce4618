/* The trace text form: traces from text, to text and to images. */
#ifndef TRACE_TEXT_H
#define TRACE_TEXT_H

#include "trace.h"

/* More than the text of any trace: settings, then events like "u2048@instant place p". */
enum { TRACE_TEXT_LINE = 64, TRACE_TEXT_ENOUGH = (MOST_EVENTS + 1) * TRACE_TEXT_LINE };

/* word is NULL where the text was taken; else it says what is wrong in that line. */
struct trace_error {
    size_t line;
    const char *word;
};

struct trace_error trace_from_text(const char *text, size_t length, struct trace *trace);

/* Both give the length they wrote; the room must be TRACE_TEXT_ENOUGH, or 64 blocks. */
size_t trace_to_text(const struct trace *trace, char *text);
size_t trace_to_image(const struct trace *trace, uint8_t *image);

#endif
