/* Measures how much stack each call of the archive takes, and holds it to what the header says. */
#include <stdbool.h>
#include <stdio.h>
#include <string.h>
#include <ucontext.h>

#include "bilgethrum.h"

enum { STACK_ROOM = 65536, PAINT = 0xa5 };

static uint8_t stack[STACK_ROOM];
static ucontext_t caller;

static bilgethrum_line line;
static bilgethrum_marker marker;
static uint8_t image[BILGETHRUM_IMAGE_ENOUGH];
static size_t image_length;
static uint8_t answer[BILGETHRUM_ANSWER_ENOUGH];
static uint8_t kinds[BILGETHRUM_MOST_EVENTS];
static uint32_t lengths[BILGETHRUM_MOST_EVENTS];
static uint32_t places[BILGETHRUM_MOST_EVENTS];
static uint64_t instants[BILGETHRUM_MOST_EVENTS];
static const bilgethrum_settings settings = { .alpha = 100, .ticks_per_byte = 1 };
static const bilgethrum_flows flows = { .count = 1, .each = { { .rate = 1, .depth = 60 } } };

static void nothing(void)
{
}

static void open_line(void)
{
    bilgethrum_open(&line, settings);
}

static void arrive_unmarked(void)
{
    bilgethrum_arrive(&line, (bilgethrum_packet){ .length = 50 });
}

static void arrive_marked(void)
{
    bilgethrum_arrive(&line, (bilgethrum_packet){ .length = 60, .marked = 1 });
}

static void advance(void)
{
    bilgethrum_advance(&line, 1000);
}

static void tally(void)
{
    bilgethrum_tally(&line);
}

static void open_marker(void)
{
    bilgethrum_open_marker(&marker, flows);
}

static void mark(void)
{
    bilgethrum_mark(&marker, 0, 60, 1000);
}

static void write_image(void)
{
    image_length = bilgethrum_write(settings, kinds, BILGETHRUM_MOST_EVENTS, lengths,
                                    BILGETHRUM_MOST_EVENTS, places, BILGETHRUM_MOST_EVENTS,
                                    instants, BILGETHRUM_MOST_EVENTS, image, sizeof image).bytes;
}

static void read_image(void)
{
    bilgethrum_read(image, image_length, kinds, BILGETHRUM_MOST_EVENTS, lengths,
                    BILGETHRUM_MOST_EVENTS, places, BILGETHRUM_MOST_EVENTS, instants,
                    BILGETHRUM_MOST_EVENTS);
}

static void view(void)
{
    bilgethrum_view_refusal(image, image_length, answer, sizeof answer,
                            (bilgethrum_packet){ .length = 50 });
}

static void run(void)
{
    bilgethrum_run(image, image_length, answer, sizeof answer);
}

static void run_measured_first(void)
{
    bilgethrum_run(image, image_length, answer, sizeof answer / 8);
}

/* How many bytes of a painted stack a call leaves changed. */
static size_t stack_of(void (*call)(void))
{
    ucontext_t callee;
    memset(stack, PAINT, sizeof stack);
    getcontext(&callee);
    callee.uc_stack.ss_sp = stack;
    callee.uc_stack.ss_size = sizeof stack;
    callee.uc_link = &caller;
    makecontext(&callee, call, 0);
    swapcontext(&caller, &callee);
    size_t untouched = 0;
    while (untouched < sizeof stack && stack[untouched] == PAINT)
        untouched++;
    return sizeof stack - untouched;
}

/* In this order: a line is opened before it is used, a bucket emptied before it marks, an image
 * written before it is read. */
static const struct {
    const char *name;
    void (*call)(void);
    size_t most;
} calls[] = {
    { "open", open_line, BILGETHRUM_STACK_BYTES },
    { "arrive, unmarked", arrive_unmarked, BILGETHRUM_STACK_BYTES },
    { "arrive, marked", arrive_marked, BILGETHRUM_STACK_BYTES },
    { "advance", advance, BILGETHRUM_STACK_BYTES },
    { "tally", tally, BILGETHRUM_STACK_BYTES },
    { "open_marker", open_marker, BILGETHRUM_STACK_BYTES },
    { "mark, left unmarked", mark, BILGETHRUM_STACK_BYTES },
    { "mark, marked", mark, BILGETHRUM_STACK_BYTES },
    { "write", write_image, BILGETHRUM_STACK_BYTES },
    { "read", read_image, BILGETHRUM_STACK_BYTES },
    { "view_refusal", view, BILGETHRUM_STACK_BYTES },
    { "run", run, BILGETHRUM_RUN_STACK_BYTES },
    { "run, measured first", run_measured_first, BILGETHRUM_RUN_STACK_BYTES },
};

int main(void)
{
    for (size_t i = 0; i < BILGETHRUM_MOST_EVENTS; i++) {
        kinds[i] = i % 3 == 0 ? BILGETHRUM_UNMARKED_ARRIVAL
                 : i % 3 == 1 ? BILGETHRUM_MARKED_ARRIVAL : BILGETHRUM_ADVANCE;
        lengths[i] = i % 3 == 2 ? 0 : 40;
        instants[i] = 100 * i;
    }
    size_t of_none = stack_of(nothing);
    bool all = true;
    printf("bytes of stack that a call takes:\n");
    for (size_t i = 0; i < sizeof calls / sizeof calls[0]; i++) {
        size_t bytes = stack_of(calls[i].call) - of_none;
        printf("%12zu  %s (the header says at most %zu)\n", bytes, calls[i].name, calls[i].most);
        all &= bytes <= calls[i].most;
    }
    if (image_length != sizeof image) {
        printf("stack: the image was not written, so read and run took little\n");
        return 1;
    }
    return all ? 0 : 1;
}
