/* Tries the trace text form: round trips of traces, and texts that are wrong. */
#include "round_trip.h"

#include <stdio.h>
#include <string.h>

#include "hold.h"
#include "image.h"
#include "second_blocks.h"
#include "trace_text.h"

static struct trace again;

void round_trip(const struct trace *trace, const uint8_t *image, size_t length)
{
    static char text[TRACE_TEXT_ENOUGH];
    static char text_again[TRACE_TEXT_ENOUGH];
    static uint8_t image_again[IMAGE_ROOM];
    size_t text_length = trace_to_text(trace, text);
    if (trace_from_text(text, text_length, &again).word != NULL)
        hold_failed("trace text: its own text is refused");
    if (trace_to_image(&again, image_again) != length || memcmp(image_again, image, length) != 0)
        hold_failed("trace text: packing gives another image");
    if (second_read(image, length, &again).refusal != 0)
        hold_failed("trace text: unpacking refuses a valid image");
    if (trace_to_text(&again, text_again) != text_length
        || memcmp(text_again, text, text_length) != 0)
        hold_failed("trace text: unpacking gives another text");
}

#define SETTINGS "alpha 100 ticks 1\n"

#define WRONG(text, line, word) { text, sizeof text - 1, line, word }

static const struct {
    const char *text;
    size_t length;
    size_t line;
    const char *word;
} wrong_texts[] = {
    WRONG("", 1, "empty"),
    WRONG("# nothing\n\n", 2, "before the settings"),
    WRONG("u50@0\n", 1, "settings"),
    WRONG("alpha 100\nu50@0\n", 1, "ticks"),
    WRONG("alpha100 ticks 1\nu50@0\n", 1, "settings"),
    WRONG("alpha 0 ticks 1\nu50@0\n", 1, "alpha must be"),
    WRONG("alpha 1000001 ticks 1\nu50@0\n", 1, "alpha must be"),
    WRONG("alpha 100 ticks 0\nu50@0\n", 1, "ticks must be"),
    WRONG("alpha 100 ticks 65\nu50@0\n", 1, "ticks must be"),
    WRONG("alpha 100 ticks 1 2\nu50@0\n", 1, "nothing more"),
    WRONG(SETTINGS, 1, "without an event"),
    WRONG(SETTINGS "# one\n\nx50@0\n", 4, "an event"),
    WRONG(SETTINGS "u50\n", 2, "length@instant"),
    WRONG(SETTINGS "u50@\n", 2, "length@instant"),
    WRONG(SETTINGS "u-5@0\n", 2, "length@instant"),
    WRONG(SETTINGS "u0@0\n", 2, "length must be"),
    WRONG(SETTINGS "u1@0\nm2049@0\n", 3, "length must be"),
    WRONG(SETTINGS "u1@1000000000000001\n", 2, "instant must be"),
    WRONG(SETTINGS "a99999999999999999999999999999\n", 2, "instant must be"),
    WRONG(SETTINGS "a\n", 2, "an instant"),
    WRONG(SETTINGS "a5 place 1\n", 2, "nothing more"),
    WRONG(SETTINGS "u1@0 place\n", 2, "place and a number"),
    WRONG(SETTINGS "u1@0 place 4294967296\n", 2, "place must be"),
    WRONG(SETTINGS "u1@0 place 1 2\n", 2, "nothing more"),
    WRONG(SETTINGS "u1@0 7\n", 2, "place and a number"),
    WRONG("alpha 100ticks 1\nu50@0\n", 1, "a blank, ticks"),
    WRONG("alpha 100 ticks1\nu50@0\n", 1, "a blank, ticks"),
    WRONG("alpha 100 ticks\nu50@0\n", 1, "a blank, ticks"),
    WRONG("alpha -100 ticks 1\nu50@0\n", 1, "the settings"),
    WRONG("alpha +100 ticks 1\nu50@0\n", 1, "the settings"),
    WRONG("alpha 100 ticks 1x\nu50@0\n", 1, "nothing more"),
    WRONG("alpha 100 ticks 1 u50@0\n", 1, "nothing more"),
    WRONG("alpha 18446744073709551617 ticks 1\nu50@0\n", 1, "alpha must be"),
    WRONG("alpha 100 ticks 18446744073709551617\nu50@0\n", 1, "ticks must be"),
    WRONG("\xef\xbb\xbf" SETTINGS "u50@0\n", 1, "byte order mark"),
    WRONG("\xff\xfe" "a\0l\0p\0h\0a\0", 1, "control character"),
    WRONG(SETTINGS SETTINGS "u50@0\n", 2, "settings stand once"),
    WRONG(SETTINGS "u50@0\n# again\n alpha 200 ticks 1\n", 4, "settings stand once"),
    WRONG(SETTINGS "u50@0place 3\n", 2, "a blank, place"),
    WRONG(SETTINGS "u50@0 place3\n", 2, "a blank, place"),
    WRONG(SETTINGS "u50@0x\n", 2, "a blank, place"),
    WRONG(SETTINGS "u50@0u50@0\n", 2, "a blank, place"),
    WRONG(SETTINGS "u50@0 place 3x\n", 2, "nothing more"),
    WRONG(SETTINGS "u50@0 place -3\n", 2, "a blank, place"),
    WRONG(SETTINGS "u18446744073709551617@0\n", 2, "length must be"),
    WRONG(SETTINGS "u1@18446744073709551616\n", 2, "instant must be"),
    WRONG(SETTINGS "u1@0 place 18446744073709551616\n", 2, "place must be"),
    WRONG(SETTINGS "u+5@0\n", 2, "length@instant"),
    WRONG(SETTINGS "u5@-1\n", 2, "length@instant"),
    WRONG(SETTINGS "u 5@0\n", 2, "length@instant"),
    WRONG(SETTINGS "u5 @0\n", 2, "length@instant"),
    WRONG(SETTINGS "u5@ 0\n", 2, "length@instant"),
    WRONG(SETTINGS "U5@0\n", 2, "an event"),
    WRONG(SETTINGS "a-1\n", 2, "an instant"),
    WRONG(SETTINGS "a 5\n", 2, "an instant"),
    WRONG(SETTINGS "a5x\n", 2, "nothing more"),
    WRONG(SETTINGS "a5 a6\n", 2, "nothing more"),
    WRONG(SETTINGS "u50@0\n\0a5\n", 3, "control character"),
    WRONG(SETTINGS "u50@0 # \0\n", 2, "control character"),
    WRONG(SETTINGS "u50@0\va5\n", 2, "control character"),
    WRONG(SETTINGS "u50@0\x7f\n", 2, "control character"),
    WRONG(SETTINGS "u50@0 # one\ra5\n", 2, "carriage return"),
};

static void hold_too_many_events(void)
{
    static char text[TRACE_TEXT_ENOUGH];
    size_t length = (size_t)sprintf(text, SETTINGS);
    for (int i = 0; i < MOST_EVENTS; i++)
        length += (size_t)sprintf(text + length, "a%d\n", i);
    if (trace_from_text(text, length, &again).word != NULL || again.count != MOST_EVENTS)
        hold_failed("trace text: 1984 events are refused");
    length += (size_t)sprintf(text + length, "# end\na0\n");
    struct trace_error error = trace_from_text(text, length, &again);
    if (error.word == NULL || error.line != MOST_EVENTS + 3)
        hold_failed("trace text: the 1985th event is taken");
}

static void hold_wrong_texts(void)
{
    size_t count = sizeof wrong_texts / sizeof wrong_texts[0];
    for (size_t i = 0; i < count; i++) {
        struct trace_error error = trace_from_text(wrong_texts[i].text, wrong_texts[i].length,
                                                   &again);
        if (error.word != NULL && error.line == wrong_texts[i].line
            && strstr(error.word, wrong_texts[i].word) != NULL)
            continue;
        printf("%sline %zu: %s\n", wrong_texts[i].text, error.line,
               error.word == NULL ? "taken" : error.word);
        hold_failed("trace text: a wrong text is not refused as it should be");
    }
    hold_too_many_events();
    printf("%12zu  wrong trace texts refused in the right line\n", count + 1);
}

/* The first is how the tool itself writes the trace. */
static const char *const same_trace[] = {
    SETTINGS "u50@0\nm60@7 place 9\na50\n",
    SETTINGS "u50@0\nm60@7 place 9\na50",
    "# a comment\n\n  alpha\t100  ticks 1   # more\n\nu50@0#\n\tm60@7  place\t9\n \na50 \n#",
    "alpha 100 ticks 1\r\nu50@0\r\nm60@7 place 9\r\na50\r\n",
    "alpha 00100 ticks 01\nu050@00 place 0\nm60@07 place 09\na50\n",
};

static void hold_same_texts(void)
{
    char text[256];
    size_t count = sizeof same_trace / sizeof same_trace[0];
    for (size_t i = 0; i < count; i++) {
        struct trace_error error = trace_from_text(same_trace[i], strlen(same_trace[i]), &again);
        if (error.word != NULL || trace_to_text(&again, text) != strlen(same_trace[0])
            || memcmp(text, same_trace[0], strlen(same_trace[0])) != 0) {
            printf("%s\n", same_trace[i]);
            hold_failed("trace text: a text is not taken as it should be");
        }
    }
    printf("%12zu  ways to write one trace text\n", count);
}

void hold_trace_texts(void)
{
    hold_wrong_texts();
    hold_same_texts();
}
