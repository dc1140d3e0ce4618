/* Changes valid images by bits, fields, bytes and blocks, or puts random bytes in their place. */
#include "damage.h"

#include <string.h>

const char *const damage_names[DAMAGES] = {
    [ONE_BIT] = "one bit flipped",
    [ONE_FIELD] = "one field changed, check right again",
    [TWO_FIELDS] = "two fields changed, checks right again",
    [ONE_RECORD] = "one or two fields of a record changed, check right again",
    [UNUSED_BYTE] = "unused byte set, check right again",
    [WRONG_CHECK] = "check replaced",
    [CHECK_ZERO] = "check made 0000 by a place",
    [ONES_FOR_ZERO] = "ffff put for a check of 0000",
    [SEVERAL] = "two or three of the above",
    [CUT_BYTES] = "cut to any length",
    [CUT_BLOCKS] = "cut by whole blocks",
    [LONGER_BY_BYTES] = "lengthened by some bytes",
    [LONGER_BY_BLOCKS] = "lengthened by whole blocks",
    [BLOCKS_SWAPPED] = "two blocks swapped",
    [RANDOM_BYTES] = "random bytes of any length",
    [RANDOM_CHECKED] = "random blocks, checks right",
    [BLANK_BLOCK] = "a block of zeros, check ffff or 0000"
};

static uint8_t *pick_block(struct random *random, uint8_t *image, size_t length)
{
    return image + random_below(random, length / BLOCK_BYTES) * BLOCK_BYTES;
}

struct field {
    unsigned at;
    unsigned bytes;
};

static void put_one_of(struct random *random, uint8_t *base, struct field field,
                       const uint64_t *values, size_t count)
{
    image_put(base + field.at, field.bytes, values[random_below(random, count)]);
}

#define PUT_ONE_OF(random, base, at, bytes, ...)                                     \
    put_one_of(random, base, (struct field){ at, bytes }, (uint64_t[]){ __VA_ARGS__ }, \
               sizeof((uint64_t[]){ __VA_ARGS__ }) / sizeof(uint64_t))

static void change_header(struct random *random, uint8_t *block)
{
    uint64_t alpha = (uint64_t)block[9] << 16 | block[10] << 8 | block[11];
    switch (random_below(random, 6)) {
    case 0:
        PUT_ONE_OF(random, block, 2, 1, 0, 2, 255);
        break;
    case 1:
        PUT_ONE_OF(random, block, 3, 1, 0, 1, 30, 31, 32, 255);
        break;
    case 2:
        PUT_ONE_OF(random, block, 4, 4, 0, 1, 2, block[7] + 1u, 256u + block[7],
                   0x1000000u + block[7], 0xffffffff);
        break;
    case 3:
        PUT_ONE_OF(random, block, 8, 4, 0, 1, 1000000, 1000001, alpha + 1, 0xffffffff,
                   0x1000000 + alpha);
        break;
    case 4:
        PUT_ONE_OF(random, block, 12, 2, 0, 1, 64, 65, 256, 0xffff, 256u + block[13]);
        break;
    default:
        PUT_ONE_OF(random, block, 14, 2, 1, 0x100, 0xffff);
    }
}

static void change_record(struct random *random, uint8_t *record)
{
    switch (random_below(random, 6)) {
    case 0:
        PUT_ONE_OF(random, record, 0, 1, 0, 1, 2, 3, 4, 255);
        break;
    case 1:
        PUT_ONE_OF(random, record, 1, 1, 1, 255);
        break;
    case 2:
        PUT_ONE_OF(random, record, 2, 2, 0, 1, 2048, 2049, 0xffff, 0x8001);
        break;
    case 3:
        PUT_ONE_OF(random, record, 4, 4, 0, 1, 0x10000, 0x1000000, 0xffffffff);
        break;
    default:
        PUT_ONE_OF(random, record, 8, 8, 0, MOST_INSTANT, MOST_INSTANT + 1, UINT64_MAX,
                   UINT64_C(1) << 63, UINT64_C(1) << 32);
    }
}

static uint8_t *pick_record(struct random *random, uint8_t *block)
{
    bool told = block[3] >= 1 && block[3] <= RECORDS_PER_BLOCK;
    uint64_t records = told ? block[3] : RECORDS_PER_BLOCK;
    const uint64_t picks[] = { 0, records - 1, random_below(random, records) };
    return block + HEADER_BYTES + picks[random_below(random, 3)] * RECORD_BYTES;
}

static void change_field(struct random *random, uint8_t *block)
{
    if (random_percent(random, 50))
        change_header(random, block);
    else
        change_record(random, pick_record(random, block));
    image_repair(block);
}

static void change_one_record(struct random *random, uint8_t *block)
{
    uint8_t *record = pick_record(random, block);
    change_record(random, record);
    if (random_percent(random, 50))
        change_record(random, record);
    image_repair(block);
}

/* Sets a byte past the last record; a full block gives up its last record first. */
static void set_unused_byte(struct random *random, uint8_t *last)
{
    if (last[3] == RECORDS_PER_BLOCK) {
        last[3]--;
        memset(last + BLOCK_BYTES - RECORD_BYTES, 0, RECORD_BYTES);
    }
    unsigned used = last[3] < RECORDS_PER_BLOCK ? last[3] : RECORDS_PER_BLOCK - 1;
    unsigned unused = HEADER_BYTES + RECORD_BYTES * used;
    const unsigned places[] = { unused, BLOCK_BYTES - 1,
                                (unsigned)random_between(random, unused, BLOCK_BYTES - 1) };
    last[places[random_below(random, 3)]] = (uint8_t)random_between(random, 1, 255);
    image_repair(last);
}

static void replace_check(struct random *random, uint8_t *block)
{
    uint16_t check = image_check(block);
    PUT_ONE_OF(random, block, 0, 2, check + 1u, check - 1u, (uint16_t)~check,
               (check << 8 | check >> 8) & 0xffffu, 0, 0xffff);
}

/* Puts such a place into the block's first arrival that its check comes to 0000. */
static void make_check_zero(uint8_t *block)
{
    uint8_t *record = block + HEADER_BYTES;
    for (unsigned i = 0; i < block[3] && i < RECORDS_PER_BLOCK; i++, record += RECORD_BYTES) {
        if (record[0] == ADVANCE)
            continue;
        image_put(record + 6, 2, 0);
        image_put(record + 6, 2, image_check(block));
        image_repair(block);
        return;
    }
}

static void put_ones_for_zero(uint8_t *block)
{
    make_check_zero(block);
    if (block[0] == 0 && block[1] == 0)
        image_put(block, 2, 0xffff);
}

/* Adds copies of the first block, numbered on; at times far more than a reader takes. */
static size_t lengthen(struct random *random, uint8_t *image, size_t length)
{
    size_t longer = length + random_between(random, 1, 4) * BLOCK_BYTES;
    if (random_percent(random, 10))
        longer = random_between(random, MOST_BLOCKS + 1, IMAGE_ROOM / BLOCK_BYTES) * BLOCK_BYTES;
    for (size_t at = length; at < longer; at += BLOCK_BYTES) {
        memcpy(image + at, image, BLOCK_BYTES);
        image_put(image + at + 4, 4, at / BLOCK_BYTES);
        image_repair(image + at);
    }
    return longer;
}

static void swap_blocks(struct random *random, uint8_t *image, size_t length)
{
    uint8_t *one = pick_block(random, image, length);
    uint8_t *other = pick_block(random, image, length);
    uint8_t kept[BLOCK_BYTES];
    memcpy(kept, one, BLOCK_BYTES);
    memmove(one, other, BLOCK_BYTES);
    memcpy(other, kept, BLOCK_BYTES);
}

static void fill_random(struct random *random, uint8_t *bytes, size_t length)
{
    for (size_t i = 0; i < length; i++)
        bytes[i] = (uint8_t)random_next(random);
}

static size_t random_blocks(struct random *random, uint8_t *image)
{
    size_t length = random_between(random, 1, 3) * BLOCK_BYTES;
    fill_random(random, image, length);
    for (size_t at = 0; at < length; at += BLOCK_BYTES) {
        if (random_percent(random, 70))
            image[at + 2] = 1;
        image_repair(image + at);
    }
    return length;
}

static size_t random_bytes(struct random *random, uint8_t *image)
{
    size_t length = random_below(random, 3 * BLOCK_BYTES);
    if (random_percent(random, 50))
        length = random_below(random, 4) * BLOCK_BYTES;
    fill_random(random, image, length);
    return length;
}

static void blank(struct random *random, uint8_t *block)
{
    memset(block, 0, BLOCK_BYTES);
    if (random_percent(random, 50))
        image_put(block, 2, 0xffff);
}

static void damage_again(struct random *random, uint8_t *image, size_t length)
{
    for (uint64_t left = random_between(random, 2, 3); left > 0; left--)
        damage_image((enum damage)random_below(random, SEVERAL), random, image, length);
}

size_t damage_image(enum damage damage, struct random *random, uint8_t *image, size_t length)
{
    uint8_t *block = pick_block(random, image, length);
    switch (damage) {
    case ONE_BIT:
        image[random_below(random, length)] ^= (uint8_t)(1u << random_below(random, 8));
        return length;
    case TWO_FIELDS:
        change_field(random, block);
        change_field(random, random_percent(random, 70) ? block
                                                        : pick_block(random, image, length));
        return length;
    case ONE_FIELD:
        change_field(random, block);
        return length;
    case ONE_RECORD:
        change_one_record(random, block);
        return length;
    case UNUSED_BYTE:
        set_unused_byte(random, image + length - BLOCK_BYTES);
        return length;
    case WRONG_CHECK:
        replace_check(random, block);
        return length;
    case CHECK_ZERO:
        make_check_zero(block);
        return length;
    case ONES_FOR_ZERO:
        put_ones_for_zero(block);
        return length;
    case SEVERAL:
        damage_again(random, image, length);
        return length;
    case CUT_BYTES:
        return random_below(random, length);
    case CUT_BLOCKS:
        return length - random_below(random, length / BLOCK_BYTES + 1) * BLOCK_BYTES;
    case LONGER_BY_BYTES:
        fill_random(random, image + length, BLOCK_BYTES);
        return length + random_between(random, 1, BLOCK_BYTES - 1);
    case LONGER_BY_BLOCKS:
        return lengthen(random, image, length);
    case BLOCKS_SWAPPED:
        swap_blocks(random, image, length);
        return length;
    case RANDOM_BYTES:
        return random_bytes(random, image);
    case RANDOM_CHECKED:
        return random_blocks(random, image);
    default:
        blank(random, block);
        return length;
    }
}
