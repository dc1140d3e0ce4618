/* Compares the second program, the baseline and the proved archive on fixed and random images
 * and by direct calls.
 *
 *     compare [IMAGES [SEED]]
 *     compare list INDEX SEED     makes one list of direct calls again, and tells each
 * Exit status 0: no difference, and everything that should be reached was. */
#include <inttypes.h>
#include <stdio.h>
#include <stdlib.h>
#include <string.h>

#include "cases.h"
#include "counters.h"
#include "damage.h"
#include "direct.h"
#include "direct_counters.h"
#include "direct_marker_cases.h"
#include "generate.h"
#include "hold.h"
#include "image.h"
#include "records.h"
#include "round_trip.h"

/* Fewer images need not reach everything. */
enum { USUAL_IMAGES = 20000, ENOUGH_TO_JUDGE = 10000, VALID_PERCENT = 55 };

/* A list of direct calls comes for every so many images. */
enum { IMAGES_PER_LIST = 8 };

static unsigned long long valid_images;
static unsigned long long damaged[DAMAGES];
static unsigned long long damaged_refused[DAMAGES];

static const char *name_of(uint64_t index, uint64_t seed, const char *kind)
{
    static char name[128];
    snprintf(name, sizeof name, "image %" PRIu64 " of seed %" PRIu64 " (%s)", index, seed, kind);
    return name;
}

static void compare_one(uint64_t index, uint64_t seed)
{
    static struct trace trace;
    static uint8_t image[IMAGE_ROOM];
    struct random random = random_for(seed, index);
    generate_trace(&random, &trace);
    size_t length = image_of(&trace, image);
    if (random_percent(&random, VALID_PERCENT)) {
        count_text(hold_image(name_of(index, seed, "valid"), image, length, NULL));
        count_trace(&trace);
        round_trip(&trace, image, length);
        valid_images++;
        return;
    }
    enum damage damage = (enum damage)random_below(&random, DAMAGES);
    length = damage_image(damage, &random, image, length);
    const struct text *text =
        hold_image(name_of(index, seed, damage_names[damage]), image, length, NULL);
    count_text(text);
    damaged[damage]++;
    damaged_refused[damage] += text->bytes[0] == 'X';
}

static bool print_kinds(void)
{
    bool all = valid_images != 0;
    printf("images compared:\n%12llu  valid traces\n", valid_images);
    for (int i = 0; i < DAMAGES; i++) {
        printf("%12llu  %s (%llu refused)\n", damaged[i], damage_names[i], damaged_refused[i]);
        all &= damaged[i] != 0;
    }
    return all;
}

static bool read_number(const char *word, uint64_t *number)
{
    char *end;
    *number = strtoull(word, &end, 10);
    return word[0] >= '0' && word[0] <= '9' && *end == 0;
}

static void hold_list(uint64_t index, uint64_t seed, bool aloud)
{
    hold_lines(index, seed, aloud);
    hold_reads(index, seed, aloud);
    hold_writes(index, seed, aloud);
    hold_views(index, seed, aloud);
    hold_markers(index, seed, aloud);
}

static int compare_all(uint64_t images, uint64_t seed)
{
    hold_trace_texts();
    hold_cases();
    hold_marker_cases();
    hold_records();
    for (uint64_t index = 0; index < images; index++)
        compare_one(index, seed);
    for (uint64_t index = 0; index < images / IMAGES_PER_LIST; index++)
        hold_list(index, seed, false);
    bool all = print_kinds();
    all &= print_records();
    all &= print_counters();
    all &= print_direct_counters();
    hold_print_calls();
    if (!all && images >= ENOUGH_TO_JUDGE) {
        printf("FAILED: something that must be reached was never reached\n");
        return 1;
    }
    printf("compare: %" PRIu64 " images from seed %" PRIu64 ", %" PRIu64
           " direct calls, 0 differences\n", images, seed, direct_calls_made());
    return 0;
}

int main(int count, char **words)
{
    uint64_t number = USUAL_IMAGES;
    uint64_t seed = 1;
    bool one_list = count == 4 && strcmp(words[1], "list") == 0;
    int next = one_list ? 2 : 1;
    if (count > next + 2 || (count > next && !read_number(words[next], &number))
        || (count > next + 1 && !read_number(words[next + 1], &seed))) {
        fprintf(stderr, "use: compare [IMAGES [SEED]], or compare list INDEX SEED\n");
        return 2;
    }
    hold_begin();
    direct_begin();
    if (!one_list)
        return compare_all(number, seed);
    hold_list(number, seed, true);
    printf("compare: list %" PRIu64 " of seed %" PRIu64 ", %" PRIu64
           " direct calls, 0 differences\n", number, seed, direct_calls_made());
    return 0;
}
