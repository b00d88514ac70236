/* The step algorithm written by hand in C, to measure the library against, in two ways: as the library does it, and with every variable that a step reads looked up
 * when the card is loaded, which is the least that a program can do that does one step after another. Nothing here is proved. */
#ifndef STEPS_BY_HAND_H
#define STEPS_BY_HAND_H

#include "by_hand.h"

enum { HAND_STEPS = 4096 };

/* where a step's pin is read */
struct hand_read {
    uint16_t net;
    uint8_t time;
};

struct hand_steps {
    int steps;
    uint64_t set[SIM_NETS + 1]; /* an open pin names place 256, whose set is {0} and whose variables are 0 */
    uint64_t variable[SIM_NETS + 1], word[SIM_NETS];
    uint8_t gate[HAND_STEPS], time[HAND_STEPS]; /* a gate by its place in the order */
    struct hand_read read[HAND_STEPS][SIM_PINS];
};

/* The largest element of the set, or 0, that is below a time from 1 to 63. */
static inline int hand_largest_below(uint64_t set, int time)
{
    return 63 - __builtin_clzll((set | 1) & ((UINT64_C(1) << time) - 1));
}

/* One more pin's values after those that are known. */
static inline uint64_t hand_with_pin(int type, uint64_t known, uint64_t value)
{
    return type > 5 ? known ^ value : type > 3 ? known | value : known & value;
}

/* The sets and the list of a card that was read for the fields; and what its steps read. */
void hand_steps_load(struct hand_steps *st, const struct hand *h);
void hand_steps_look_up(struct hand_steps *st, const struct hand *h);

/* A vector from the settled values `before`, along the list: each step finds what it reads, and the histories are filled. They stand in `word`. Returns the steps
 * done. */
int hand_steps_vector(struct hand_steps *st, const struct hand *h, const uint8_t *before, const uint8_t *vector);

/* The same with all reads looked up. */
void hand_steps_ready(struct hand_steps *st, const struct hand *h, const uint8_t *before, const uint8_t *vector);

#endif
