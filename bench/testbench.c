/* A test bench as a terminal would write it: runs trace images and prints or judges the text.
 *
 *     testbench IMAGE...                  prints the text of each image
 *     testbench --expect TEXT IMAGE...    says where a text first differs from the file
 * Without an image it takes one from standard input.  Exit status 0: all well;
 * 1: some text differs; 2: a file could not be read, the output could not be written or
 * the run was misused. */
#include <inttypes.h>
#include <stdbool.h>
#include <stdio.h>
#include <string.h>

#include "bilgethrum.h"
#include "whole_file.h"

enum { WELL = 0, DIFFERENT = 1, TROUBLE = 2 };

struct bytes {
    uint8_t *at;
    size_t length;
};

/* The area that every run is lent; it is enough for any image. */
static uint8_t answer[BILGETHRUM_ANSWER_ENOUGH];

static struct bytes read_stream(FILE *stream, const char *name)
{
    struct bytes bytes = { NULL, 0 };
    if (stream != NULL)
        bytes.at = whole_file(stream, &bytes.length);
    if (bytes.at == NULL)
        fprintf(stderr, "testbench: cannot read %s\n", name);
    return bytes;
}

static struct bytes read_file(const char *name)
{
    FILE *stream = fopen(name, "rb");
    struct bytes bytes = read_stream(stream, name);
    if (stream != NULL)
        fclose(stream);
    return bytes;
}

static size_t line_length(const uint8_t *from, size_t left)
{
    const uint8_t *end = left == 0 ? NULL : memchr(from, '\n', left);
    return end == NULL ? left : (size_t)(end - from) + 1;
}

static void show_line(const char *whose, const uint8_t *from, size_t length)
{
    if (length == 0) {
        printf("  %s: no line\n", whose);
        return;
    }
    int ended = from[length - 1] == '\n';
    printf("  %s: %.*s%s\n", whose, (int)(length - (size_t)ended), (const char *)from,
           ended ? "" : " (no line end)");
}

static int judge(const char *name, const uint8_t *text, size_t length, struct bytes expected)
{
    size_t at = 0;
    for (size_t line = 1; at < length || at < expected.length; line++) {
        size_t given = line_length(text + at, length - at);
        size_t wanted = line_length(expected.at + at, expected.length - at);
        if (given != wanted || memcmp(text + at, expected.at + at, given) != 0) {
            printf("%s: line %zu differs\n", name, line);
            show_line("expected", expected.at + at, wanted);
            show_line("given", text + at, given);
            return DIFFERENT;
        }
        at += given;
    }
    printf("%s: as expected\n", name);
    return WELL;
}

static int run(const char *name, struct bytes image, const struct bytes *expected)
{
    int64_t length = bilgethrum_run(image.at, image.length, answer, sizeof answer);
    if (length < 0) {
        fprintf(stderr, "testbench: %s: run gave %" PRId64 "\n", name, length);
        return TROUBLE;
    }
    if (expected != NULL)
        return judge(name, answer, (size_t)length, *expected);
    fwrite(answer, 1, (size_t)length, stdout);
    return WELL;
}

static int run_and_free(const char *name, struct bytes image, const struct bytes *expected)
{
    int status = image.at == NULL ? TROUBLE : run(name, image, expected);
    free(image.at);
    return status;
}

/* Output is buffered, so a full disk may show only here; an earlier failure is kept. */
static bool all_is_written(void)
{
    bool failed = ferror(stdout) != 0;
    return fclose(stdout) == 0 && !failed;
}

int main(int count, char **words)
{
    struct bytes expected = { NULL, 0 };
    const struct bytes *judged_by = NULL;
    int next = 1;
    if (count > 1 && strcmp(words[1], "--expect") == 0) {
        if (count == 2) {
            fprintf(stderr, "testbench: --expect needs a file\n");
            return TROUBLE;
        }
        expected = read_file(words[2]);
        if (expected.at == NULL)
            return TROUBLE;
        judged_by = &expected;
        next = 3;
    }
    int worst = WELL;
    if (next == count)
        worst = run_and_free("standard input", read_stream(stdin, "standard input"), judged_by);
    for (; next < count; next++) {
        int status = run_and_free(words[next], read_file(words[next]), judged_by);
        worst = status > worst ? status : worst;
    }
    free(expected.at);
    if (!all_is_written()) {
        fprintf(stderr, "testbench: the output could not be written\n");
        worst = TROUBLE;
    }
    return worst;
}
