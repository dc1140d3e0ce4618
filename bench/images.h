/* The images that the benchmark runs, each made by a fixed rule or from a fixed seed. */
#ifndef IMAGES_H
#define IMAGES_H

#include <stdbool.h>

#include "trace.h"

struct image {
    uint8_t bytes[MOST_BLOCKS * BLOCK_BYTES];
    size_t length;
    size_t events;
};

/* The instant from which a trace has instants of 15 digits. */
#define LONG_INSTANT UINT64_C(123456789012345)

/* By turns a marked packet on the line, three marked ones and an unmarked one behind it,
 * then the starts; with drops all three are dropped, else none. */
void image_periodic(struct image *image, bool drops, uint64_t from);

/* Arrivals and advances in random order, some of them refused by the line, with settings,
 * lengths and instants from the seed. */
void image_random(struct image *image, bool drops, uint64_t from, uint64_t seed);

/* Fills the queue with this many, half of each marking; whole then lets one start and
 * one arrive by turns, TURNED_EVENTS events, and filled ends there. */
enum { TURNED_EVENTS = 1800 };
void image_waiting(uint64_t waiting, struct image *filled, struct image *whole);

/* 64 blocks of events of one kind, at instants that count up. */
void image_of_kind(struct image *image, enum kind kind);

/* Spoils the check of a block. */
void image_spoil(struct image *image, size_t block);

#endif
