/* Reads valid and damaged images into lent columns of all lengths, on both sides. */
#include <inttypes.h>
#include <stdio.h>
#include <string.h>

#include "damage.h"
#include "direct.h"
#include "direct_counters.h"
#include "generate.h"
#include "hold.h"
#include "image.h"
#include "lent_columns.h"

enum { IMAGES_PER_LIST = 3 };

static struct room image_room;

void reads_begin(void)
{
    image_room = room_of(IMAGE_ROOM);
}

/* Column lengths for so many events: just right, longer, unequal, or one too short. */
static void pick_entries(struct random *random, size_t events, size_t *entries)
{
    uint64_t pick = random_below(random, 4);
    size_t longer = random_between(random, 1, 40);
    for (int i = 0; i < COLUMNS; i++) {
        entries[i] = events;
        if (pick == 1)
            entries[i] += longer;
        else if (pick == 2)
            entries[i] += random_below(random, 3);
    }
    if (pick == 3)
        entries[random_below(random, COLUMNS)] =
            random_percent(random, 50) ? events - 1 : random_below(random, events);
}

static void read_into(const size_t entries[COLUMNS], const uint8_t *image, size_t length,
                      bool at_end)
{
    lend_columns(entries, at_end);
    struct area lent_image = lend(&image_room, length, 1, at_end);
    memcpy(area_bytes(&lent_image), image, length);
    struct second_columns wanted_columns = plain_columns();
    struct second_reading wanted = second_read_columns(image, length, &wanted_columns);
    bilgethrum_reading given = bilgethrum_read(area_bytes(&lent_image), length,
                                               lent(KINDS), entries[KINDS],
                                               lent(LENGTHS), entries[LENGTHS],
                                               lent(PLACES), entries[PLACES],
                                               lent(INSTANTS), entries[INSTANTS]);
    count_call(CALL_READ, given.refusal);
    if (given.refusal != (uint32_t)wanted.refusal || given.block != wanted.block
        || given.record != wanted.record || given.events != wanted.events
        || given.settings.alpha != wanted.alpha
        || given.settings.ticks_per_byte != wanted.ticks_per_byte) {
        printf("wanted: refusal %d, block %zu, record %zu, events %zu, alpha %" PRIu64
               ", ticks %" PRIu64 "\n"
               "given: refusal %" PRIu32 ", block %" PRIu32 ", record %" PRIu32
               ", events %zu, alpha %" PRIu64 ", ticks %" PRIu32 "\n", wanted.refusal,
               wanted.block, wanted.record, wanted.events, wanted.alpha, wanted.ticks_per_byte,
               given.refusal, given.block, given.record, given.events, given.settings.alpha,
               given.settings.ticks_per_byte);
        columns_failed("a reading");
    }
    hold_lent_columns();
    hold_lent(&lent_image, image, "an image that is only read, or bytes around it");
    if (wanted.refusal == 0 && entries[KINDS] != entries[LENGTHS])
        count_outcome(READ_INTO_LONGER_COLUMNS);
}

void hold_read(const uint8_t *image, size_t length, size_t entries)
{
    read_into((const size_t[COLUMNS]){ entries, entries, entries, entries }, image, length, true);
}

static void read_image(struct random *random, size_t events, const uint8_t *image, size_t length,
                       bool aloud)
{
    size_t entries[COLUMNS];
    bool at_end = random_percent(random, 50);
    pick_entries(random, events, entries);
    if (aloud)
        printf("read an image of %zu bytes into columns of %zu, %zu, %zu and %zu\n", length,
               entries[KINDS], entries[LENGTHS], entries[PLACES], entries[INSTANTS]);
    read_into(entries, image, length, at_end);
}

void hold_reads(uint64_t index, uint64_t seed, bool aloud)
{
    static char what[96];
    static struct trace trace;
    static uint8_t image[IMAGE_ROOM];
    struct random random = random_for(seed, index);
    snprintf(what, sizeof what, "reads, list %" PRIu64 " of seed %" PRIu64, index, seed);
    hold_now(what);
    for (int i = 0; i < IMAGES_PER_LIST; i++) {
        generate_trace(&random, &trace);
        size_t length = image_of(&trace, image);
        read_image(&random, trace.count, image, length, aloud);
        length = damage_image((enum damage)random_below(&random, DAMAGES), &random, image, length);
        read_image(&random, trace.count, image, length, aloud);
    }
}
