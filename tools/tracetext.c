/* Turns trace text into an image (tracetext pack) and an image into text (tracetext unpack).
 *
 * Exit status 0: done; 1: the input is refused, or reading or writing failed, and nothing
 * or a part was written; 2: called with other words. */
#include <errno.h>
#include <stdio.h>
#include <string.h>

#include "second_blocks.h"
#include "trace_text.h"

/* Ample for a trace with comments; an endless input ends here. */
enum { INPUT_MOST = 1 << 20 };

static struct trace trace;

static int put_out(const void *bytes, size_t length)
{
    if (fwrite(bytes, 1, length, stdout) == length && fflush(stdout) == 0)
        return 0;
    fprintf(stderr, "tracetext: cannot write to standard output: %s\n", strerror(errno));
    return 1;
}

static int pack(const uint8_t *input, size_t length)
{
    static uint8_t image[MOST_BLOCKS * BLOCK_BYTES];
    struct trace_error error = trace_from_text((const char *)input, length, &trace);
    if (error.word != NULL) {
        fprintf(stderr, "tracetext: line %zu: %s\n", error.line, error.word);
        return 1;
    }
    return put_out(image, trace_to_image(&trace, image));
}

/* What each refusal of an image demands. */
static const char *const demands[] = {
    [11] = "the image must be 1 to 64 blocks of 512 bytes",
    [12] = "the check must be that of the block",
    [13] = "edition must be 1",
    [14] = "record count must be 31, in the last block 1 to 31",
    [15] = "block number must be the block's index",
    [16] = "alpha must be 1 to 1000000, ticks 1 to 64, both those of block 0; bytes 14-15 must be 0",
    [17] = "kind must be 1, 2 or 3",
    [19] = "unused bytes must be 0",
    [41] = "byte 1, the spare byte, must be 0",
    [42] = "length must be 1 to 2048, in an advance 0",
    [43] = "place must be 0 in an advance",
    [44] = "instant must be 0 to 1000000000000000",
};

/* Names the block, and of a record also the byte of the image at which it begins. */
static void tell_refusal(struct second_verdict verdict)
{
    fprintf(stderr, "tracetext: image refused with %d", verdict.refusal);
    if (verdict.refusal != 11)
        fprintf(stderr, " in block %zu", verdict.block);
    if (verdict.refusal == 17 || verdict.refusal >= 41)
        fprintf(stderr, ", record %zu, at byte %zu", verdict.record,
                verdict.block * BLOCK_BYTES + HEADER_BYTES + verdict.record * RECORD_BYTES);
    fprintf(stderr, ": %s\n", demands[verdict.refusal]);
}

static int unpack(const uint8_t *input, size_t length)
{
    static char text[TRACE_TEXT_ENOUGH];
    struct second_verdict verdict = second_read(input, length, &trace);
    if (verdict.refusal != 0) {
        tell_refusal(verdict);
        return 1;
    }
    return put_out(text, trace_to_text(&trace, text));
}

static int turn_input(int (*turn)(const uint8_t *, size_t))
{
    static uint8_t input[INPUT_MOST + 1];
    size_t length = fread(input, 1, sizeof input, stdin);
    if (ferror(stdin)) {
        fprintf(stderr, "tracetext: cannot read standard input: %s\n", strerror(errno));
        return 1;
    }
    if (length > INPUT_MOST) {
        fprintf(stderr, "tracetext: the input is longer than %d bytes\n", INPUT_MOST);
        return 1;
    }
    return turn(input, length);
}

int main(int count, char **words)
{
    static const char use[] = "use: tracetext pack < text > image\n"
                              "     tracetext unpack < image > text\n";
    const char *word = count == 2 ? words[1] : "";
    if (strcmp(word, "pack") == 0)
        return turn_input(pack);
    if (strcmp(word, "unpack") == 0)
        return turn_input(unpack);
    if (strcmp(word, "--help") == 0 || strcmp(word, "-h") == 0)
        return put_out(use, strlen(use));
    fputs(use, stderr);
    return 2;
}
