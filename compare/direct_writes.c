/* Writes lent columns, right and spoilt, as images in lent areas of all lengths, on both sides. */
#include <inttypes.h>
#include <stdio.h>
#include <string.h>

#include "direct.h"
#include "direct_counters.h"
#include "direct_pick.h"
#include "generate.h"
#include "hold.h"
#include "image.h"
#include "lent_columns.h"

enum { WRITES_PER_LIST = 4 };

static struct room image_room;
static uint8_t plain_image[IMAGE_ROOM];
static struct trace trace;

void writes_begin(void)
{
    image_room = room_of(IMAGE_ROOM);
}

/* The trace's events, over again where the columns are longer. */
static void fill_columns(const size_t *entries)
{
    size_t longest = 0;
    for (int i = 0; i < COLUMNS; i++)
        longest = entries[i] > longest ? entries[i] : longest;
    for (size_t i = 0; i < longest; i++) {
        const struct event *event = &trace.events[i % trace.count];
        put_entry(KINDS, i, (uint64_t)event->kind);
        put_entry(LENGTHS, i, event->length);
        put_entry(PLACES, i, event->place);
        put_entry(INSTANTS, i, event->instant);
    }
}

/* One event that the reader would refuse; in an advance a place counts too. */
static void spoil_event(struct random *random, size_t events)
{
    static const uint64_t kinds[] = { 0, 4, 255 };
    static const uint64_t lengths[] = { 0, 2049, 65536, 65537, UINT32_MAX };
    static const uint64_t instants[] = { MOST_INSTANT + 1, UINT64_C(1) << 63, UINT64_MAX };
    if (events == 0)
        return;
    size_t at = random_percent(random, 30) ? events - 1 : random_below(random, events);
    switch (random_below(random, 5)) {
    case 0:
        put_entry(KINDS, at, kinds[random_below(random, 3)]);
        break;
    case 1:
        put_entry(LENGTHS, at, lengths[random_below(random, 5)]);
        break;
    case 2:
        put_entry(INSTANTS, at, instants[random_below(random, 3)]);
        break;
    case 3:
        put_entry(KINDS, at, ADVANCE);
        put_entry(LENGTHS, at, 0);
        put_entry(PLACES, at, UINT64_C(1) << random_below(random, 32));
        break;
    default:
        put_entry(KINDS, at, ADVANCE);
        put_entry(LENGTHS, at, random_below(random, 2));
        put_entry(PLACES, at, 0);
    }
}

/* Gives the first event such a place that the first block's check comes to 0000: where
 * the place is 0, its low word is what the sum lacks to ffff. */
static void aim_at_check_zero(bilgethrum_settings settings)
{
    put_entry(KINDS, 0, UNMARKED);
    put_entry(LENGTHS, 0, 1);
    put_entry(PLACES, 0, 0);
    struct second_columns columns = plain_columns();
    if (second_write(settings.alpha, settings.ticks_per_byte, &columns, plain_image,
                     sizeof plain_image).refusal == 0)
        put_entry(PLACES, 0, image_check(plain_image));
}

/* Numbers of events in and out of range. */
static size_t pick_events(struct random *random)
{
    static const size_t some[] = { 0, 1, 31, 32, MOST_EVENTS, MOST_EVENTS + 1, 65536 };
    uint64_t pick = random_below(random, 100);
    if (pick < 14)
        return some[pick % 7];
    return trace.count;
}

/* Just enough for the image, a byte or a block less or more, or nothing. */
static size_t pick_image_length(struct random *random, size_t events)
{
    size_t enough = (events + RECORDS_PER_BLOCK - 1) / RECORDS_PER_BLOCK * BLOCK_BYTES;
    if (enough == 0 || enough > IMAGE_ROOM - BLOCK_BYTES)
        return random_below(random, BLOCK_BYTES);
    size_t lengths[] = { enough, enough, enough, enough + 1, enough + BLOCK_BYTES, enough - 1,
                         enough - BLOCK_BYTES, 0 };
    return lengths[random_below(random, sizeof lengths / sizeof lengths[0])];
}

static void pick_entries(struct random *random, size_t events, size_t *entries)
{
    for (int i = 0; i < COLUMNS; i++)
        entries[i] = events;
    if (random_percent(random, 20))
        entries[random_below(random, COLUMNS)] =
            events == 0 || random_percent(random, 50) ? events + 1 : random_below(random, events);
}

static void write_image(bilgethrum_settings settings, size_t length, bool at_end)
{
    struct area lent_image = lend(&image_room, length, 1, at_end);
    memcpy(plain_image, area_bytes(&lent_image), length);
    struct second_columns wanted_columns = plain_columns();
    struct second_writing wanted = second_write(settings.alpha, settings.ticks_per_byte,
                                                &wanted_columns, plain_image, length);
    bilgethrum_writing given = bilgethrum_write(settings, lent(KINDS), entries_of(KINDS),
                                                lent(LENGTHS), entries_of(LENGTHS),
                                                lent(PLACES), entries_of(PLACES),
                                                lent(INSTANTS), entries_of(INSTANTS),
                                                area_bytes(&lent_image), length);
    count_call(CALL_WRITE, given.refusal);
    if (given.refusal != (uint32_t)wanted.refusal || given.bytes != wanted.bytes) {
        printf("wanted: refusal %d, bytes %zu\ngiven: refusal %" PRIu32 ", bytes %zu\n",
               wanted.refusal, wanted.bytes, given.refusal, given.bytes);
        columns_failed("a writing");
    }
    hold_lent(&lent_image, plain_image, "the bytes of a written image, or bytes beyond it");
    hold_lent_columns();
    if (wanted.refusal != 0)
        return;
    if (length > wanted.bytes)
        count_outcome(WRITTEN_IN_LONGER_IMAGE);
    if (wanted.bytes == MOST_BLOCKS * BLOCK_BYTES)
        count_outcome(WRITTEN_64_BLOCKS);
    if (plain_image[0] == 0 && plain_image[1] == 0)
        count_outcome(WRITTEN_WITH_CHECK_ZERO);
}

static void write_columns(struct random *random, bool aloud)
{
    size_t entries[COLUMNS];
    bool at_end = random_percent(random, 50);
    size_t events = pick_events(random);
    size_t length = pick_image_length(random, events);
    bilgethrum_settings settings = { trace.alpha, (uint32_t)trace.ticks_per_byte };
    if (random_percent(random, 20))
        settings = pick_settings(random);
    pick_entries(random, events, entries);
    lend_columns(entries, at_end);
    fill_columns(entries);
    if (random_percent(random, 25))
        spoil_event(random, events);
    if (random_percent(random, 10))
        aim_at_check_zero(settings);
    if (aloud)
        printf("write columns of %zu, %zu, %zu and %zu with alpha %" PRIu64 " ticks %" PRIu32
               " into %zu bytes\n", entries[KINDS], entries[LENGTHS], entries[PLACES],
               entries[INSTANTS], settings.alpha, settings.ticks_per_byte, length);
    write_image(settings, length, at_end);
}

void hold_writes(uint64_t index, uint64_t seed, bool aloud)
{
    static char what[96];
    struct random random = random_for(seed, index);
    snprintf(what, sizeof what, "writes, list %" PRIu64 " of seed %" PRIu64, index, seed);
    hold_now(what);
    for (int i = 0; i < WRITES_PER_LIST; i++) {
        generate_trace(&random, &trace);
        write_columns(&random, aloud);
    }
}
