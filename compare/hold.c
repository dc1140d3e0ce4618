/* Calls the second program, the baseline and, where there is one, the archive on lent areas. */
#define _DEFAULT_SOURCE
#include "hold.h"

#include <fcntl.h>
#include <signal.h>
#include <stdbool.h>
#include <stdio.h>
#include <stdlib.h>
#include <string.h>
#include <unistd.h>

#include "areas.h"
#include "baseline.h"
#include "image.h"
#include "second.h"

#define IMAGE_FILE "difference.image"

typedef int64_t run_function(const uint8_t *, size_t, uint8_t *, size_t);

struct program {
    const char *name;
    run_function *run;
    const char *text_file;
};

/* The first is the measure for the others. */
static const struct program programs[] = {
    { "second", second_run, "difference.second.text" },
    { "baseline", baseline_run, "difference.baseline.text" },
#ifdef WITH_ARCHIVE
    { "archive", bilgethrum_run, "difference.archive.text" },
#endif
};

enum { PROGRAMS = sizeof programs / sizeof programs[0] };

/* Longer than any text by more than a guard. */
enum { HUGE_AREA = BILGETHRUM_ANSWER_ENOUGH + 4096 };

/* The second program is slow on long images; there it is run in one area only. */
enum { SHORT_IMAGE = 4 * BLOCK_BYTES };

static struct room image_room;
static struct room answer_room;
static unsigned long long calls[PROGRAMS];
static unsigned long long images_held;

static const char *now_what = "none";
static const uint8_t *now_image;
static size_t now_length;

static bool save(const char *name, const uint8_t *bytes, size_t length)
{
    int file = open(name, O_WRONLY | O_CREAT | O_TRUNC, 0666);
    return file >= 0 && write(file, bytes, length) == (ssize_t)length && close(file) == 0;
}

_Noreturn void hold_failed(const char *why)
{
    printf("DIFFERENCE: %s\nat: %s\n", why, now_what);
    if (now_image != NULL && save(IMAGE_FILE, now_image, now_length))
        printf("image of %zu bytes saved to %s\n", now_length, IMAGE_FILE);
    exit(1);
}

/* From a signal handler stdio may not be used. */
static bool say(const char *words)
{
    size_t length = strlen(words);
    return write(STDOUT_FILENO, words, length) == (ssize_t)length;
}

/* A program that touches memory it was not lent ends here. */
static void on_fault(int signal)
{
    bool done = say("DIFFERENCE: a program touched memory it was not lent\nat: ")
                && say(now_what) && say("\n");
    if (now_image != NULL && save(IMAGE_FILE, now_image, now_length))
        done &= say("image saved to " IMAGE_FILE "\n");
    _exit(done ? 1 : 128 + signal);
}

void hold_begin(void)
{
    image_room = room_of(IMAGE_ROOM);
    answer_room = room_of(HUGE_AREA);
    signal(SIGSEGV, on_fault);
    signal(SIGBUS, on_fault);
}

void hold_now(const char *what)
{
    now_what = what;
    now_image = NULL;
}

void hold_print_calls(void)
{
    printf("images held against each other: %llu\n", images_held);
    for (int i = 0; i < PROGRAMS; i++)
        printf("  calls of %s: %llu\n", programs[i].name, calls[i]);
}

static size_t line_end(const struct text *text, size_t from)
{
    while (from < text->length && text->bytes[from] != '\n')
        from++;
    return from;
}

static void show_first_difference(const struct text *wanted, const struct text *given)
{
    size_t at = 0;
    size_t line_start = 0;
    int line = 1;
    while (at < wanted->length && at < given->length && wanted->bytes[at] == given->bytes[at])
        if (wanted->bytes[at++] == '\n') {
            line++;
            line_start = at;
        }
    printf("line %d differs\n  wanted: %.*s\n  given:  %.*s\n", line,
           (int)(line_end(wanted, line_start) - line_start), wanted->bytes + line_start,
           (int)(line_end(given, line_start) - line_start), given->bytes + line_start);
}

static void show_text(const char *whose, const char *file, const struct text *text)
{
    enum { SHOWN_WHOLE = 4000 };
    printf("%s (%zu bytes, in %s):\n", whose, text->length,
           save(file, text->bytes, text->length) ? file : "no file");
    if (text->length <= SHOWN_WHOLE)
        printf("%.*s", (int)text->length, text->bytes);
}

static _Noreturn void texts_differ(const struct program *program, const struct text *wanted,
                                   const struct text *given)
{
    printf("%s does not give the text wanted\n", program->name);
    show_first_difference(wanted, given);
    show_text("wanted", "difference.wanted.text", wanted);
    show_text(program->name, program->text_file, given);
    hold_failed("the texts shown above");
}

static _Noreturn void broke_rule(const struct program *program, size_t area, int64_t result,
                                 const char *rule)
{
    printf("%s, lent an answer area of %zu bytes, gave %lld: %s\n", program->name, area,
           (long long)result, rule);
    hold_failed("what was done with a lent area");
}

/* Odd and even calls are lent areas at the two ends of their rooms. */
static struct area lend_image(bool at_end)
{
    struct area area = lend(&image_room, now_length, 1, at_end);
    memcpy(area_bytes(&area), now_image, now_length);
    return area;
}

static bool image_is_unchanged(const struct area *area)
{
    return memcmp(area_bytes(area), now_image, now_length) == 0
           && untouched_from(area, area->length);
}

static void call(int index, size_t area_length, const struct text *wanted)
{
    static struct text given;
    const struct program *program = &programs[index];
    bool at_end = calls[index]++ % 2 == 0;
    struct area image = lend_image(at_end);
    struct area answer = lend(&answer_room, area_length, 1, at_end);
    int64_t result = program->run(area_bytes(&image), now_length, area_bytes(&answer), area_length);
    bool fits = area_length >= wanted->length;
    if (!image_is_unchanged(&image))
        broke_rule(program, area_length, result, "the image or its guard bytes were changed");
    if (!fits && (result != BILGETHRUM_AREA_TOO_SHORT || !untouched_from(&answer, 0)))
        broke_rule(program, area_length, result, "too short an area wants -32 and no byte changed");
    if (!fits)
        return;
    if (result < 0 || (size_t)result > area_length || (size_t)result > sizeof given.bytes)
        broke_rule(program, area_length, result, "the text fits, so its length is wanted");
    given.length = (size_t)result;
    memcpy(given.bytes, area_bytes(&answer), given.length);
    if (given.length != wanted->length
        || memcmp(given.bytes, wanted->bytes, given.length) != 0)
        texts_differ(program, wanted, &given);
    if (!untouched_from(&answer, given.length))
        broke_rule(program, area_length, result, "bytes beyond the text were changed");
}

static const struct text *text_of_second(void)
{
    static struct text text;
    int64_t length = second_run(now_image, now_length, text.bytes, sizeof text.bytes);
    calls[0]++;
    if (length < 0)
        hold_failed("a text does not fit the area said to be always enough");
    text.length = (size_t)length;
    return &text;
}

static void call_in_all_areas(int index, const struct text *wanted)
{
    const size_t lengths[] = { HUGE_AREA, wanted->length, wanted->length + 1, wanted->length - 1,
                               wanted->length / 2, 0 };
    for (size_t i = 0; i < sizeof lengths / sizeof lengths[0]; i++)
        call(index, lengths[i], wanted);
}

const struct text *hold_image(const char *what, const uint8_t *image, size_t length,
                              const struct text *written)
{
    now_what = what;
    now_image = image;
    now_length = length;
    images_held++;
    const struct text *wanted = written != NULL ? written : text_of_second();
    for (int index = 0; index < PROGRAMS; index++)
        if (index != 0 || written != NULL || length <= SHORT_IMAGE)
            call_in_all_areas(index, wanted);
    return wanted;
}
