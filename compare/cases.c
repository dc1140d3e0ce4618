/* Holds every program against the texts that document 01 prints or fixes. */
#include "cases.h"

#include <inttypes.h>
#include <stdio.h>
#include <string.h>

#include "counters.h"
#include "direct.h"
#include "hold.h"
#include "image.h"
#include "round_trip.h"
#include "second_line.h"
#include "trace_text.h"

static unsigned cases_held;
static struct trace trace;
static struct text wanted;
static uint8_t image[IMAGE_ROOM];

static void hold_written(const char *name, size_t length, const char *text)
{
    wanted.length = strlen(text);
    memcpy(wanted.bytes, text, wanted.length);
    count_text(hold_image(name, image, length, &wanted));
    cases_held++;
}

/* The trace by its image and by direct calls. */
static void hold_written_trace(const char *name, const char *text)
{
    hold_written(name, image_of(&trace, image), text);
    hold_trace_by_calls(name, &trace);
}

static const struct {
    const char *name;
    const char *trace;
    const char *text;
} line_cases[] = {
    { "printed case",
      "alpha 100 ticks 1\nu50@0\nm60@0\nu40@0\na0\na50\nm45@60\nu30@70\nu10@125\na110\na150\n"
      "m101@160\nu20@160\na170\nm30@165\n",
      "A 1 0\nM 2\nA 3 0\nS 1 0 0 0\nS 2 50 0 0\nM 4\nA 5 60\nR 5\nS 3 110 60 0\n"
      "S 5 150 60 1\nR 4\nA 6 20\nN\nR 3\nT 4 2 3 1 1\n" },
    { "P1", "alpha 100 ticks 64\nu2048@0\nu1@0\na0\na131071\na131072\n",
      "A 1 0\nA 2 0\nS 1 0 0 0\nN\nS 2 131072 0 0\nT 2 0 2 0 0\n" },
    { "P3", "alpha 100 ticks 1\nm100@0\n", "M 1\nT 0 1 0 0 0\n" },
    { "P4", "alpha 100 ticks 1\nm101@0\n", "R 4\nT 0 0 0 0 0\n" },
    { "P5", "alpha 100 ticks 1\nm100@0\na0\nu20@30\n", "M 1\nS 1 0 0 0\nA 2 70\nT 1 1 0 1 0\n" },
    { "P6", "alpha 100 ticks 1\nm100@0\na0\nm31@20\nu20@30\na100\n",
      "M 1\nS 1 0 0 0\nM 2\nA 3 70\nS 3 100 70 1\nT 1 2 1 1 1\n" },
    { "P7", "alpha 100 ticks 1\nm100@0\na0\nm30@20\nu20@30\na100\na130\n",
      "M 1\nS 1 0 0 0\nM 2\nA 3 70\nS 2 100 0 0\nS 3 130 100 0\nT 1 2 1 2 0\n" },
    { "P8", "alpha 100 ticks 1\nu10@0\na0\nm30@5\na10\nu10@10\n",
      "A 1 0\nS 1 0 0 0\nM 2\nS 2 10 0 0\nA 3 30\nT 2 1 1 1 0\n" },
    { "P10", "alpha 100 ticks 1\nu50@0\n", "A 1 0\nT 1 0 0 0 0\n" },
    { "all ahead are dropped, not one",
      "alpha 100 ticks 1\nm100@0\na0\nm50@10\nm60@20\nu5@30\na100\n",
      "M 1\nS 1 0 0 0\nM 2\nM 3\nA 4 70\nS 4 100 70 2\nT 1 3 1 1 2\n" },
    { "one fits, the next is dropped",
      "alpha 100 ticks 1\nm100@0\na0\nm20@10\nm60@20\nu5@30\na100\na120\n",
      "M 1\nS 1 0 0 0\nM 2\nM 3\nA 4 70\nS 2 100 0 0\nS 4 120 90 1\nT 1 3 1 2 1\n" },
    { "start at the due instant, not at the clock",
      "alpha 100 ticks 1\nu10@3\nu10@3\na50\na60\na70\n",
      "A 1 0\nA 2 0\nS 1 3 0 0\nS 2 13 0 0\nN\nT 2 0 2 0 0\n" },
    { "predecessor ends just at the arrival",
      "alpha 100 ticks 1\nm50@0\na0\nu10@20\na50\nu10@60\n",
      "M 1\nS 1 0 0 0\nA 2 30\nS 2 50 30 0\nA 3 0\nT 2 1 1 1 0\n" },
    { "predecessor ends just after the arrival",
      "alpha 100 ticks 1\nm50@0\na0\nu10@20\na50\nu10@59\n",
      "M 1\nS 1 0 0 0\nA 2 30\nS 2 50 30 0\nA 3 1\nT 2 1 1 1 0\n" },
    { "a refused call leaves the clock", "alpha 100 ticks 1\nu10@0\nu10@90\nu10@0\n",
      "A 1 0\nR 5\nA 2 0\nT 2 0 0 0 0\n" },
    { "nothing due takes the clock", "alpha 100 ticks 1\na9\nu1@8\nu1@9\na8\n",
      "N\nR 3\nA 1 0\nR 3\nT 1 0 0 0 0\n" },
    { "4 before 5, 3 before 4", "alpha 100 ticks 1\nu1@5\nm101@9\nm101@4\n",
      "A 1 0\nR 4\nR 3\nT 1 0 0 0 0\n" },
    { "the last instant", "alpha 100 ticks 1\nu1@1000000000000000\nm1@1000000000000000\n"
      "a1000000000000000\na1000000000000000\n",
      "A 1 0\nM 2\nS 1 1000000000000000 0 0\nN\nT 1 1 1 0 0\n" },
    { "a place may be any number",
      "alpha 100 ticks 1\nu1@0 place 4294967295\nm1@0 place 1\nu2048@0 place 16777216\n",
      "A 1 0\nM 2\nA 3 0\nT 2 1 0 0 0\n" },
    { "least and most settings", "alpha 1 ticks 1\nm1@0\nm2@0\n", "M 1\nR 4\nT 0 1 0 0 0\n" },
    { "most settings", "alpha 1000000 ticks 64\nm2048@0\nm2048@0 place 4294967295\n",
      "M 1\nM 2\nT 0 2 0 0 0\n" },
};

static void hold_line_cases(void)
{
    for (size_t i = 0; i < sizeof line_cases / sizeof line_cases[0]; i++) {
        const char *text = line_cases[i].trace;
        struct trace_error error = trace_from_text(text, strlen(text), &trace);
        if (error.word != NULL)
            hold_failed(error.word);
        hold_written_trace(line_cases[i].name, line_cases[i].text);
        round_trip(&trace, image, image_of(&trace, image));
    }
}

static void append_event(enum kind kind, uint64_t length, uint64_t instant)
{
    trace.events[trace.count++] =
        (struct event){ .kind = kind, .length = length, .instant = instant };
}

static void begin_trace(void)
{
    trace.alpha = 100;
    trace.ticks_per_byte = 1;
    trace.count = 0;
}

static const char *admitted(enum kind marking, unsigned number)
{
    static char line[32];
    snprintf(line, sizeof line, marking == UNMARKED ? "A %u 0\n" : "M %u\n", number);
    return line;
}

/* The 65th waiting packet of a marking gives 6; after one start it is admitted. */
static void hold_room(const char *name, enum kind marking)
{
    static char text[8192];
    char *to = text;
    begin_trace();
    for (unsigned number = 1; number <= WAITING_ROOM; number++) {
        append_event(marking, 1, 0);
        to += sprintf(to, "%s", admitted(marking, number));
    }
    append_event(marking, 1, 0);
    append_event(ADVANCE, 0, 0);
    append_event(marking, 1, 0);
    append_event(marking, 1, 0);
    to += sprintf(to, "R 6\nS 1 0 0 0\n%sR 6\n", admitted(marking, WAITING_ROOM + 1));
    sprintf(to, marking == UNMARKED ? "T 65 0 1 0 0\n" : "T 0 65 0 1 0\n");
    hold_written_trace(name, text);
}

/* 64 marked dropped by one start, after which the marked room is free again. */
static void hold_room_dropped(void)
{
    static char text[8192];
    char *to = text;
    begin_trace();
    append_event(MARKED, 100, 0);
    append_event(ADVANCE, 0, 0);
    to += sprintf(to, "M 1\nS 1 0 0 0\n");
    for (unsigned number = 2; number <= WAITING_ROOM + 1; number++) {
        append_event(MARKED, 1, 0);
        to += sprintf(to, "%s", admitted(MARKED, number));
    }
    append_event(UNMARKED, 1, 0);
    append_event(MARKED, 1, 0);
    append_event(ADVANCE, 0, 100);
    append_event(MARKED, 1, 100);
    sprintf(to, "A 66 100\nR 6\nS 66 100 100 64\nM 67\nT 1 66 1 1 64\n");
    hold_written_trace("64 dropped at once", text);
}

static void hold_longest_trace(void)
{
    static char text[2 * MOST_EVENTS + 16];
    char *to = text;
    begin_trace();
    while (trace.count < MOST_EVENTS) {
        append_event(ADVANCE, 0, trace.count);
        to += sprintf(to, "N\n");
    }
    sprintf(to, "T 0 0 0 0 0\n");
    size_t length = image_of(&trace, image);
    if (length != MOST_BLOCKS * BLOCK_BYTES)
        hold_failed("1984 events do not fill 64 blocks");
    hold_written("1,984 events", length, text);
    memcpy(image + length, image, BLOCK_BYTES);
    image_put(image + length + 4, 4, MOST_BLOCKS);
    image_repair(image + length);
    hold_written("65 blocks", length + BLOCK_BYTES, "X 11 0 0\n");
}

/* RFC 1071's example of section 3 and the sums it is put together from.  In a block
 * otherwise zero the check is the complement of the sum; edition 0 is refused next. */
static const struct {
    uint64_t words;
    uint16_t sum;
} rfc_1071_cases[] = {
    { UINT64_C(0x0001f203f4f5f6f7), 0xddf2 },   /* also P9 */
    { UINT64_C(0x010003f2f5f4f7f6), 0xf2dd },   /* the bytes of each word swapped */
    { UINT64_C(0x0001f20300000000), 0xf204 },
    { UINT64_C(0x00000000f4f5f6f7), 0xebed },
    { UINT64_C(0x0001f20000000000), 0xf201 },   /* cut at an odd byte */
    { UINT64_C(0x03f4f5f6f7000000), 0xf0eb },
    { UINT64_C(0x0000000000000000), 0x0000 },
    { UINT64_C(0x000000000000ffff), 0xffff },
};

static void hold_rfc_1071(void)
{
    for (size_t i = 0; i < sizeof rfc_1071_cases / sizeof rfc_1071_cases[0]; i++) {
        memset(image, 0, BLOCK_BYTES);
        image_put(image + 40, 8, rfc_1071_cases[i].words);
        image_put(image, 2, 0xffffu - rfc_1071_cases[i].sum);
        hold_written("RFC 1071, right check", BLOCK_BYTES, "X 13 0 0\n");
        image_put(image, 2, rfc_1071_cases[i].sum);
        hold_written("RFC 1071, check not complemented", BLOCK_BYTES, "X 12 0 0\n");
    }
}

static void hold_p10_check(void)
{
    begin_trace();
    append_event(UNMARKED, 50, 0);
    size_t length = image_of(&trace, image);
    image_put(image, 2, 0xfd67);
    hold_written("P10 check fd67", length, "A 1 0\nT 1 0 0 0 0\n");
    image_put(image, 2, 0xfd66);
    hold_written("P10 check fd66", length, "X 12 0 0\n");
    image_put(image, 2, 0x67fd);
    hold_written("P10 check swapped", length, "X 12 0 0\n");
    image_put(image + HEADER_BYTES + 6, 2, 0xfd67);
    image_put(image, 2, 0);
    hold_written("check 0000", length, "A 1 0\nT 1 0 0 0 0\n");
    image_put(image, 2, 0xffff);
    hold_written("check ffff for 0000", length, "X 12 0 0\n");
}

enum { MOST_CHANGES = 3 };

/* One change of the image of three blocks below; at counts from the block's start. */
struct change {
    unsigned block;
    unsigned at;
    unsigned bytes;
    uint64_t value;
};

enum {
    RECORD_0 = HEADER_BYTES,
    RECORD_1 = 32,
    RECORD_2 = 48,
    RECORD_15 = 256,
    RECORD_30 = 496,
    LAST_BYTE = 511
};

/* The image has 31, 31 and 1 records; records go unmarked, marked, advance by turns,
 * so that block 1 begins with a marked one and block 2 has one advance.  Checks are
 * made right again after the changes; a changed check of a block is put in after that. */
static const struct {
    const char *text;
    struct change changes[MOST_CHANGES];    /* up to one of 0 bytes */
} image_cases[] = {
    { "X 12 0 0\n", { { 0, 0, 2, 0x1234 } } },
    { "X 12 1 0\n", { { 1, 0, 2, 0x1234 } } },
    { "X 12 2 0\n", { { 2, 0, 2, 0x1234 } } },
    { "X 13 0 0\n", { { 0, 2, 1, 0 } } },
    { "X 13 1 0\n", { { 1, 2, 1, 2 } } },
    { "X 13 2 0\n", { { 2, 2, 1, 255 } } },
    { "X 14 0 0\n", { { 0, 3, 1, 30 } } },
    { "X 14 1 0\n", { { 1, 3, 1, 32 } } },
    { "X 14 2 0\n", { { 2, 3, 1, 0 } } },
    { "X 14 2 0\n", { { 2, 3, 1, 32 } } },
    { "X 15 0 0\n", { { 0, 4, 4, 1 } } },
    { "X 15 1 0\n", { { 1, 4, 4, 0 } } },
    { "X 15 2 0\n", { { 2, 4, 4, 0x01000002 } } },
    { "X 16 0 0\n", { { 0, 8, 4, 0 } } },
    { "X 16 0 0\n", { { 0, 8, 4, 1000001 } } },
    { "X 16 0 0\n", { { 0, 12, 2, 0 } } },
    { "X 16 0 0\n", { { 0, 12, 2, 65 } } },
    { "X 16 0 0\n", { { 0, 14, 1, 1 } } },
    { "X 16 0 0\n", { { 0, 15, 1, 1 } } },
    { "X 16 1 0\n", { { 1, 8, 4, 101 } } },
    { "X 16 1 0\n", { { 0, 8, 4, 101 } } },
    { "X 16 1 0\n", { { 1, 12, 2, 2 } } },
    { "X 16 2 0\n", { { 2, 12, 2, 257 } } },
    { "X 16 2 0\n", { { 2, 15, 1, 1 } } },
    { "X 17 0 0\n", { { 0, RECORD_0, 1, 0 } } },
    { "X 17 0 30\n", { { 0, RECORD_30, 1, 4 } } },
    { "X 17 1 0\n", { { 1, RECORD_0, 1, 255 } } },
    { "X 17 1 15\n", { { 1, RECORD_15, 1, 0 } } },
    { "X 17 2 0\n", { { 2, RECORD_0, 1, 0 } } },
    { "X 41 0 0\n", { { 0, RECORD_0 + 1, 1, 1 } } },
    { "X 41 0 2\n", { { 0, RECORD_2 + 1, 1, 255 } } },
    { "X 41 1 30\n", { { 1, RECORD_30 + 1, 1, 3 } } },
    { "X 41 2 0\n", { { 2, RECORD_0 + 1, 1, 1 } } },
    { "X 42 0 0\n", { { 0, RECORD_0 + 2, 2, 0 } } },
    { "X 42 0 1\n", { { 0, RECORD_1 + 2, 2, 2049 } } },
    { "X 42 0 2\n", { { 0, RECORD_2 + 2, 2, 1 } } },
    { "X 42 1 15\n", { { 1, RECORD_15 + 2, 2, 0xffff } } },
    { "X 42 2 0\n", { { 2, RECORD_0 + 2, 2, 256 } } },
    { "X 43 0 2\n", { { 0, RECORD_2 + 4, 4, 0x01000000 } } },
    { "X 43 1 1\n", { { 1, RECORD_1 + 4, 4, 1 } } },
    { "X 43 2 0\n", { { 2, RECORD_0 + 7, 1, 1 } } },
    { "X 44 0 15\n", { { 0, RECORD_15 + 8, 8, MOST_INSTANT + 1 } } },
    { "X 44 1 0\n", { { 1, RECORD_0 + 8, 8, UINT64_MAX } } },
    { "X 44 1 30\n", { { 1, RECORD_30 + 8, 8, MOST_INSTANT + 1 } } },
    { "X 44 2 0\n", { { 2, RECORD_0 + 8, 8, MOST_INSTANT + 1 } } },
    { "X 19 2 0\n", { { 2, RECORD_1, 1, 1 } } },
    { "X 19 2 0\n", { { 2, LAST_BYTE, 1, 1 } } },
    { "X 19 2 0\n", { { 2, 3, 1, 2 }, { 2, RECORD_1, 1, 3 }, { 2, LAST_BYTE, 1, 1 } } },
    /* Faults in one block: the order of checking decides. */
    { "X 12 0 0\n", { { 0, 2, 1, 2 }, { 0, 0, 2, 0x1234 } } },
    { "X 12 1 0\n", { { 1, RECORD_15, 1, 0 }, { 1, 0, 2, 0x1234 } } },
    { "X 13 0 0\n", { { 0, 2, 1, 2 }, { 0, 3, 1, 30 } } },
    { "X 14 0 0\n", { { 0, 3, 1, 30 }, { 0, 4, 4, 1 } } },
    { "X 15 0 0\n", { { 0, 4, 4, 1 }, { 0, 8, 4, 0 } } },
    { "X 16 0 0\n", { { 0, 8, 4, 0 }, { 0, RECORD_0, 1, 0 } } },
    { "X 16 1 0\n", { { 1, 12, 2, 2 }, { 1, RECORD_15 + 2, 2, 0 } } },
    { "X 41 2 0\n", { { 2, RECORD_0 + 1, 1, 1 }, { 2, LAST_BYTE, 1, 1 } } },
    { "X 44 2 0\n", { { 2, RECORD_0 + 8, 8, UINT64_MAX }, { 2, LAST_BYTE, 1, 1 } } },
    /* In one record so, too. */
    { "X 17 0 0\n", { { 0, RECORD_0, 1, 0 }, { 0, RECORD_0 + 2, 2, 0 } } },
    { "X 17 0 2\n", { { 0, RECORD_2, 1, 4 }, { 0, RECORD_2 + 1, 1, 1 } } },
    { "X 41 0 15\n", { { 0, RECORD_15 + 1, 1, 1 }, { 0, RECORD_15 + 2, 2, 0 } } },
    { "X 42 0 2\n", { { 0, RECORD_2 + 2, 2, 1 }, { 0, RECORD_2 + 4, 4, 1 } } },
    { "X 42 1 30\n", { { 1, RECORD_30 + 2, 2, 2049 }, { 1, RECORD_30 + 8, 8, UINT64_MAX } } },
    { "X 43 2 0\n", { { 2, RECORD_0 + 4, 4, 1 }, { 2, RECORD_0 + 8, 8, MOST_INSTANT + 1 } } },
    { "X 41 1 1\n", { { 1, RECORD_1 + 1, 1, 1 }, { 1, RECORD_1 + 4, 4, 1 },
                      { 1, RECORD_1 + 8, 8, MOST_INSTANT + 1 } } },
    /* An arrival of any place that becomes an advance keeps its length, which is refused first. */
    { "X 42 0 1\n", { { 0, RECORD_1 + 4, 4, UINT32_MAX }, { 0, RECORD_1, 1, 3 } } },
    { "X 43 0 1\n", { { 0, RECORD_1 + 4, 4, UINT32_MAX }, { 0, RECORD_1, 1, 3 },
                      { 0, RECORD_1 + 2, 2, 0 } } },
    /* In two or three records of one block: the first that is refused decides. */
    { "X 42 0 0\n", { { 0, RECORD_0 + 2, 2, 0 }, { 0, RECORD_1, 1, 0 } } },
    { "X 17 0 0\n", { { 0, RECORD_0, 1, 0 }, { 0, RECORD_1 + 2, 2, 0 } } },
    { "X 44 0 1\n", { { 0, RECORD_30, 1, 0 }, { 0, RECORD_15 + 1, 1, 1 },
                      { 0, RECORD_1 + 8, 8, MOST_INSTANT + 1 } } },
    { "X 43 1 1\n", { { 1, RECORD_1 + 4, 4, 1 }, { 1, RECORD_30 + 1, 1, 1 } } },
    /* In two blocks: the earlier block is judged wholly first. */
    { "X 42 0 30\n", { { 0, RECORD_30 + 2, 2, 0 }, { 1, 0, 2, 0x1234 } } },
    { "X 17 1 30\n", { { 1, RECORD_30, 1, 0 }, { 2, 2, 1, 2 } } },
    { "X 44 1 15\n", { { 1, RECORD_15 + 8, 8, UINT64_MAX }, { 2, RECORD_0, 1, 0 } } },
};

static size_t three_blocks(void)
{
    begin_trace();
    while (trace.count < 2 * RECORDS_PER_BLOCK + 1) {
        enum kind kind = (enum kind)(trace.count % 3 + 1);
        append_event(kind, kind == ADVANCE ? 0 : 1, 0);
    }
    return image_of(&trace, image);
}

static void apply(const struct change *change)
{
    uint8_t *block = image + change->block * BLOCK_BYTES;
    image_put(block + change->at, change->bytes, change->value);
    if (change->at != 0)
        image_repair(block);
}

static void hold_image_cases(void)
{
    for (size_t i = 0; i < sizeof image_cases / sizeof image_cases[0]; i++) {
        size_t length = three_blocks();
        const struct change *changes = image_cases[i].changes;
        for (int j = 0; j < MOST_CHANGES && changes[j].bytes != 0; j++)
            apply(&changes[j]);
        hold_written(image_cases[i].text, length, image_cases[i].text);
    }
    static const size_t lengths[] = { 0, 1, 2, 511, 513, 1023, 1535, 64 * BLOCK_BYTES + 1,
                                      65 * BLOCK_BYTES, 128 * BLOCK_BYTES, 129 * BLOCK_BYTES,
                                      256 * BLOCK_BYTES, 257 * BLOCK_BYTES };
    memset(image, 0, sizeof image);
    three_blocks();
    for (size_t i = 0; i < sizeof lengths / sizeof lengths[0]; i++)
        hold_written("image length", lengths[i], "X 11 0 0\n");
}

/* Refusals 1 and 2 never come in a text, as the reader gives 42 or 44 for such an event,
 * nor 8 and 9; so the second program's line is asked for them itself. */
static void hold_calls(void)
{
    static struct second_line line;
    static const struct {
        struct event event;
        int refusal;
    } calls[] = {
        { { UNMARKED, 0, 0, 0 }, 1 },
        { { MARKED, 2049, 0, 0 }, 1 },
        { { UNMARKED, 0, 0, MOST_INSTANT + 1 }, 1 },
        { { UNMARKED, 1, 0, MOST_INSTANT + 1 }, 2 },
        { { MARKED, 101, 0, MOST_INSTANT + 1 }, 2 },
        { { ADVANCE, 0, 0, MOST_INSTANT + 1 }, 2 },
        { { ADVANCE, 0, 0, MOST_INSTANT }, 0 },
        { { MARKED, 101, 0, MOST_INSTANT - 1 }, 3 },
        { { MARKED, 101, 0, MOST_INSTANT }, 4 },
        { { MARKED, 100, 0, MOST_INSTANT }, 0 },
    };
    static const struct {
        uint64_t alpha;
        uint64_t ticks_per_byte;
        int refusal;
    } openings[] = {
        { 0, 1, 8 }, { 1000001, 1, 8 }, { 0, 0, 8 }, { UINT64_MAX, 65, 8 },
        { 1, 0, 9 }, { 1000000, 65, 9 }, { 1, 1, 0 }, { 1000000, 64, 0 }, { 100, 1, 0 },
    };
    for (size_t i = 0; i < sizeof openings / sizeof openings[0]; i++, cases_held++)
        if (second_open(&line, openings[i].alpha, openings[i].ticks_per_byte)
            != openings[i].refusal)
            hold_failed("refusals 8 and 9 of the second program's line");
    for (size_t i = 0; i < sizeof calls / sizeof calls[0]; i++, cases_held++)
        if (second_take(&line, &calls[i].event).refusal != calls[i].refusal)
            hold_failed("refusals 1 to 4 of the second program's line");
}

void hold_cases(void)
{
    hold_line_cases();
    hold_room("65th unmarked", UNMARKED);
    hold_room("65th marked", MARKED);
    hold_room_dropped();
    hold_longest_trace();
    hold_rfc_1071();
    hold_p10_check();
    hold_image_cases();
    hold_calls();
    printf("%12u  cases with texts written down from document 01 and RFC 1071\n", cases_held);
}
