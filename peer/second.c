/* Runs an image through the second program's reader and line and prints the text. */
#include "second.h"

#include <inttypes.h>
#include <stdarg.h>
#include <stdio.h>
#include <string.h>

#include "second_blocks.h"
#include "second_line.h"

/* Far more than any line needs. */
enum { LINE_ROOM = 128 };

struct text {
    size_t length;
    char bytes[(MOST_EVENTS + 1) * LINE_ROOM];
};

__attribute__((format(printf, 2, 3)))
static void print(struct text *text, const char *format, ...)
{
    va_list values;
    va_start(values, format);
    int length = vsnprintf(text->bytes + text->length, LINE_ROOM, format, values);
    va_end(values);
    text->length += (size_t)length;
}

static void print_answer(struct text *text, const struct second_answer *answer)
{
    switch (answer->letter) {
    case 'A':
        print(text, "A %" PRIu64 " %" PRIu64 "\n", answer->number, answer->extra_delay);
        break;
    case 'M':
        print(text, "M %" PRIu64 "\n", answer->number);
        break;
    case 'S':
        print(text, "S %" PRIu64 " %" PRIu64 " %" PRIu64 " %" PRIu64 "\n",
              answer->number, answer->start, answer->extra_delay, answer->dropped);
        break;
    case 'N':
        print(text, "N\n");
        break;
    default:
        print(text, "R %d\n", answer->refusal);
    }
}

static void print_tallies(struct text *text, const struct second_line *line)
{
    print(text, "T %" PRIu64 " %" PRIu64 " %" PRIu64 " %" PRIu64 " %" PRIu64 "\n",
          second_admitted(line, UNMARKED), second_admitted(line, MARKED),
          second_tally(line, UNMARKED, STARTED), second_tally(line, MARKED, STARTED),
          second_tally(line, MARKED, DROPPED));
}

static void print_run(struct text *text, const struct trace *trace)
{
    static struct second_line line;
    second_open(&line, trace->alpha, trace->ticks_per_byte);
    for (size_t i = 0; i < trace->count; i++) {
        struct second_answer answer = second_take(&line, &trace->events[i]);
        print_answer(text, &answer);
    }
    print_tallies(text, &line);
}

int64_t second_run(const uint8_t *image, size_t image_len, uint8_t *answer, size_t answer_len)
{
    static struct trace trace;
    static struct text text;
    text.length = 0;
    struct second_verdict verdict = second_read(image, image_len, &trace);
    if (verdict.refusal != 0)
        print(&text, "X %d %zu %zu\n", verdict.refusal, verdict.block, verdict.record);
    else
        print_run(&text, &trace);
    if (answer_len < text.length)
        return -32;
    memcpy(answer, text.bytes, text.length);
    return (int64_t)text.length;
}
