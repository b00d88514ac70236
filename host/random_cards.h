/* Random cards of many shapes, and random damage. */
#ifndef RANDOM_CARDS_H
#define RANDOM_CARDS_H

#include <stddef.h>
#include <stdint.h>

enum { CARD_ROOM = 8192 };

struct random_source {
    uint64_t state;
};

uint64_t random_next(struct random_source *r);

/* 0 .. below - 1 */
unsigned random_below(struct random_source *r, unsigned below);

/* The bytes of a card; most are taken. Returns how many there are. */
size_t random_card(struct random_source *r, uint8_t bytes[CARD_ROOM]);

/* The same bytes with something wrong. */
size_t random_damage(struct random_source *r, uint8_t bytes[CARD_ROOM], size_t length);

/* Ladders of some rungs on one input, some BUFs of it, and further inputs up to so many nets. */
size_t ladder_card(uint8_t bytes[CARD_ROOM], const int *rungs, int ladders, int bufs, int nets);

#endif
