/* The baseline's numbers as text, put in place: short ones from a table, others by eight digits. */
#ifndef BASELINE_TEXT_H
#define BASELINE_TEXT_H

#include <stdint.h>
#include <string.h>

/* A word's lowest byte is the first of its text. */
_Static_assert(__BYTE_ORDER__ == __ORDER_LITTLE_ENDIAN__, "text is put as little-endian words");

/* The digits of a number below 10^4, and in the uppermost byte how many they are. */
#define LENGTH(n) ((n) < 10 ? 1 : (n) < 100 ? 2 : (n) < 1000 ? 3 : 4)
#define DIGIT(n, unit) ((uint32_t)('0' + (n) / (unit) % 10))
#define FOUR(n) (DIGIT(n, 1000) | DIGIT(n, 100) << 8 | DIGIT(n, 10) << 16 | DIGIT(n, 1) << 24)
#define ENTRY(n) ((uint64_t)LENGTH(n) << 56 | FOUR(n) >> (32 - 8 * LENGTH(n)))
#define ENTRIES_10(n) ENTRY(n), ENTRY(n + 1), ENTRY(n + 2), ENTRY(n + 3), ENTRY(n + 4), \
    ENTRY(n + 5), ENTRY(n + 6), ENTRY(n + 7), ENTRY(n + 8), ENTRY(n + 9)
#define ENTRIES_100(n) ENTRIES_10(n), ENTRIES_10(n + 10), ENTRIES_10(n + 20), \
    ENTRIES_10(n + 30), ENTRIES_10(n + 40), ENTRIES_10(n + 50), ENTRIES_10(n + 60), \
    ENTRIES_10(n + 70), ENTRIES_10(n + 80), ENTRIES_10(n + 90)
#define ENTRIES_1000(n) ENTRIES_100(n), ENTRIES_100(n + 100), ENTRIES_100(n + 200), \
    ENTRIES_100(n + 300), ENTRIES_100(n + 400), ENTRIES_100(n + 500), ENTRIES_100(n + 600), \
    ENTRIES_100(n + 700), ENTRIES_100(n + 800), ENTRIES_100(n + 900)

/* No packet of a trace has a number of 2,000 or more. */
static const uint64_t baseline_short[2000] = { ENTRIES_1000(0), ENTRIES_1000(1000) };

#undef LENGTH
#undef DIGIT
#undef FOUR
#undef ENTRY
#undef ENTRIES_10
#undef ENTRIES_100
#undef ENTRIES_1000

/* A number below 2,000 and the byte that ends it.  Four bytes are written however short it
 * is: what follows is written next. */
static inline uint8_t *baseline_put_short(uint8_t *to, uint32_t number, char end)
{
    uint64_t entry = baseline_short[number];
    uint32_t text = (uint32_t)entry;
    memcpy(to, &text, sizeof text);
    to += entry >> 56;
    *to = (uint8_t)end;
    return to + 1;
}

#define BASELINE_ZEROS UINT64_C(0x3030303030303030)
#define BASELINE_EIGHT_DIGITS UINT64_C(100000000)

/* The eight digits of a number below 10^8, a byte each: halves of four, then quarters of two,
 * then single ones.  A product that is shifted stands for all quotients of a step at once,
 * and q + (x - n * q) * 2^k is written as x * 2^k - q * (n * 2^k - 1). */
static inline uint64_t baseline_eight(uint32_t number)
{
    uint64_t half = number / 10000;
    uint64_t halves = ((uint64_t)number << 32) - half * (10000 * (UINT64_C(1) << 32) - 1);
    uint64_t hundreds = (halves * 10486 >> 20) & UINT64_C(0x0000007f0000007f);
    uint64_t quarters = (halves << 16) - hundreds * (100 * (1 << 16) - 1);
    uint64_t tens = (quarters * 103 >> 10) & UINT64_C(0x000f000f000f000f);
    return (quarters << 8) - tens * (10 * (1 << 8) - 1);
}

/* How many bits the leading zeros take, of digits whose last one stands in the byte named. */
static inline unsigned baseline_leading(uint64_t digits, unsigned last)
{
    return (unsigned)__builtin_ctzll(digits | UINT64_C(1) << 8 * last) & ~7u;
}

/* All eight bytes are written, however short the text is: what follows is written next. */
static inline void baseline_store(uint8_t *to, uint64_t text)
{
    memcpy(to, &text, sizeof text);
}

/* A number below 10^7 and the byte that ends it. */
static inline uint8_t *baseline_put_long(uint8_t *to, uint32_t number, char end)
{
    uint64_t digits = baseline_eight(number) >> 8;
    unsigned leading = baseline_leading(digits, 6);
    uint64_t text = digits | BASELINE_ZEROS >> 8 | (uint64_t)(uint8_t)end << 56;
    baseline_store(to, text >> leading);
    return to + 8 - leading / 8;
}

/* The digits of an instant above its last eight, which seldom change from one to the next. */
struct baseline_upper {
    uint64_t base;      /* what they stand for, a multiple of 10^8 */
    uint64_t text;
    unsigned count;     /* how many they are; 0 where the instant has eight or fewer */
};

static inline struct baseline_upper baseline_upper_of(uint64_t instant)
{
    uint32_t number = (uint32_t)(instant / BASELINE_EIGHT_DIGITS);
    uint64_t digits = baseline_eight(number);
    unsigned leading = baseline_leading(digits, 7);
    return (struct baseline_upper){ .base = number * BASELINE_EIGHT_DIGITS,
                                    .text = (digits | BASELINE_ZEROS) >> leading,
                                    .count = number == 0 ? 0 : 8 - leading / 8 };
}

/* An instant, below 10^16, and the byte that ends it. */
static inline uint8_t *baseline_put_instant(uint8_t *to, struct baseline_upper *upper,
                                            uint64_t instant, char end)
{
    if (instant - upper->base >= BASELINE_EIGHT_DIGITS)
        *upper = baseline_upper_of(instant);
    uint64_t digits = baseline_eight((uint32_t)(instant - upper->base));
    unsigned leading = 0;
    if (upper->count == 0)
        leading = baseline_leading(digits, 7);
    else
        baseline_store(to, upper->text);
    to += upper->count;
    baseline_store(to, (digits | BASELINE_ZEROS) >> leading);
    to += 8 - leading / 8;
    *to = (uint8_t)end;
    return to + 1;
}

#endif
