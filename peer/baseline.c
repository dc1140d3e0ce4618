/* Runs an image and writes the text, straight into the area where it must fit. */
#include "baseline.h"

#include <string.h>

#include "baseline_blocks.h"
#include "baseline_line.h"
#include "baseline_text.h"

/* The longest line, of a start, and the longest tally line.  Beyond an event's line a store
 * writes at most 7 bytes, which is fewer than the shortest tally line has. */
enum { LONGEST_LINE = 35, TALLY_LINE = 27, BEYOND = 8 };
enum { MOST_TEXT = BASELINE_BLOCKS * BASELINE_RECORDS * LONGEST_LINE + TALLY_LINE };

/* What a run keeps from one event to the next.  Its address goes to inlined functions only,
 * so that the compiler can keep its numbers in registers. */
struct run {
    struct baseline_line line;
    struct baseline_upper upper;
};

static inline uint8_t *put_two(uint8_t *to, char first, char second)
{
    to[0] = (uint8_t)first;
    to[1] = (uint8_t)second;
    return to + 2;
}

static inline uint8_t *put_refusal(uint8_t *to, int refusal)
{
    return put_two(put_two(to, 'R', ' '), (char)('0' + refusal), '\n');
}

static inline uint8_t *run_unmarked(struct run *run, uint32_t length, uint64_t instant,
                                    uint8_t *to)
{
    uint32_t extra_delay;
    int refusal = baseline_unmarked(&run->line, length, instant, &extra_delay);
    if (refusal != 0)
        return put_refusal(to, refusal);
    to = put_two(to, 'A', ' ');
    to = baseline_put_short(to, run->line.admitted, ' ');
    return baseline_put_long(to, extra_delay, '\n');
}

static inline uint8_t *run_marked(struct run *run, uint32_t length, uint64_t instant,
                                  uint8_t *to)
{
    int refusal = baseline_marked(&run->line, length, instant);
    if (refusal != 0)
        return put_refusal(to, refusal);
    to = put_two(to, 'M', ' ');
    return baseline_put_short(to, run->line.admitted, '\n');
}

static inline uint8_t *put_start(uint8_t *to, struct run *run, struct baseline_start start)
{
    to = put_two(to, 'S', ' ');
    to = baseline_put_short(to, start.number, ' ');
    return baseline_put_instant(to, &run->upper, start.instant, ' ');
}

/* A marked packet's line ends alike always, so each marking has its own way from the
 * decision to the line's end. */
static inline uint8_t *run_decision(struct run *run, uint8_t *to)
{
    if (baseline_marked_is_next(&run->line)) {
        to = put_start(to, run, baseline_start_marked(&run->line));
        return put_two(put_two(to, '0', ' '), '0', '\n');
    }
    struct baseline_start start = baseline_start_unmarked(&run->line);
    to = put_start(to, run, start);
    to = baseline_put_long(to, start.extra_delay, ' ');
    return baseline_put_short(to, start.dropped, '\n');
}

static inline uint8_t *run_advance(struct run *run, uint64_t instant, uint8_t *to)
{
    int refusal = baseline_pass(&run->line, instant);
    if (refusal != 0)
        return put_refusal(to, refusal);
    if (!baseline_is_due(&run->line, instant))
        return put_two(to, 'N', '\n');
    return run_decision(run, to);
}

static inline uint8_t *run_block(struct run *run, const uint8_t *block, uint8_t *to)
{
    const uint8_t *record = block + BASELINE_RECORD;
    const uint8_t *end = record + block[3] * BASELINE_RECORD;
    for (; record < end; record += BASELINE_RECORD) {
        uint32_t length = baseline_u16(record + 2);
        uint64_t instant = baseline_u64(record + 8);
        if (record[0] == BASELINE_ADVANCE)
            to = run_advance(run, instant, to);
        else if (record[0] == BASELINE_MARKED)
            to = run_marked(run, length, instant, to);
        else
            to = run_unmarked(run, length, instant, to);
    }
    return to;
}

/* The last line is put elsewhere first, since no byte beyond the text may be written. */
static inline uint8_t *put_tallies(uint8_t *to, const struct baseline_line *line)
{
    uint8_t text[TALLY_LINE + BEYOND];
    uint8_t *end = put_two(text, 'T', ' ');
    end = baseline_put_short(end, line->unmarked_admitted, ' ');
    end = baseline_put_short(end, baseline_marked_admitted(line), ' ');
    end = baseline_put_short(end, line->unmarked_started, ' ');
    end = baseline_put_short(end, baseline_marked_started(line), ' ');
    end = baseline_put_short(end, line->marked_dropped, '\n');
    size_t length = (size_t)(end - text);
    memcpy(to, text, length);
    return to + length;
}

static uint8_t *run_blocks(const uint8_t *image, size_t blocks, uint8_t *to)
{
    struct run run;
    baseline_open(&run.line, baseline_u32(image + 8), baseline_u16(image + 12));
    run.upper = baseline_upper_of(0);
    for (size_t index = 0; index < blocks; index++)
        to = run_block(&run, image + index * BASELINE_BLOCK, to);
    return put_tallies(to, &run.line);
}

static int64_t hand_over(const uint8_t *text, const uint8_t *end, uint8_t *answer,
                         size_t answer_len)
{
    size_t length = (size_t)(end - text);
    if (answer_len < length)
        return -32;
    memcpy(answer, text, length);
    return (int64_t)length;
}

static int64_t tell_verdict(struct baseline_verdict verdict, uint8_t *answer, size_t answer_len)
{
    uint8_t text[TALLY_LINE + BEYOND];
    uint8_t *end = put_two(text, 'X', ' ');
    end = baseline_put_short(end, (uint32_t)verdict.refusal, ' ');
    end = baseline_put_short(end, (uint32_t)verdict.block, ' ');
    end = baseline_put_short(end, (uint32_t)verdict.record, '\n');
    return hand_over(text, end, answer, answer_len);
}

static int64_t run_aside(const uint8_t *image, size_t blocks, uint8_t *answer, size_t answer_len)
{
    uint8_t text[MOST_TEXT];
    return hand_over(text, run_blocks(image, blocks, text), answer, answer_len);
}

int64_t baseline_run(const uint8_t *image, size_t image_len, uint8_t *answer, size_t answer_len)
{
    struct baseline_verdict verdict = baseline_judge(image, image_len);
    if (verdict.refusal != 0)
        return tell_verdict(verdict, answer, answer_len);
    size_t blocks = image_len / BASELINE_BLOCK;
    if (answer_len < blocks * BASELINE_RECORDS * LONGEST_LINE + TALLY_LINE)
        return run_aside(image, blocks, answer, answer_len);
    return run_blocks(image, blocks, answer) - answer;
}
