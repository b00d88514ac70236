/* The field algorithm by hand in C, as fast as we can write it: the yardstick for the library. Nothing here is proved. The calls of krasvome.h over this engine and over
 * the steps by hand (host/calls_by_hand.c) are a library of their own in which faults are seeded, to see that the comparison finds each (host/faults.txt). */
#ifndef BY_HAND_H
#define BY_HAND_H

#include "simulator.h"

#ifdef FAULTS
extern int hand_fault; /* the fault that is seeded; 0: none */
#define FAULT(k) (hand_fault == (k))
#else
#define FAULT(k) 0
#endif

/* A gate with all that a pass reads of it side by side. An open pin names place 256, whose word is 0. */
struct hand_gate {
    uint16_t net, pin[SIM_PINS];
    uint8_t type, pins;
};

struct hand {
    int nets, inputs, gates;
    int input[SIM_NETS];
    struct hand_gate gate[SIM_NETS]; /* by level, then net */
    uint64_t word[SIM_NETS + 1];
    uint8_t before[SIM_NETS];
};

void hand_load(struct hand *h, const struct sim *s);
void hand_rest(struct hand *h, const struct sim *s, const uint8_t *vector);

/* The before values of the next vector: where the words end. A pass needs none of them, only who shows them. */
void hand_ends(struct hand *h, uint8_t *before);

/* The words after a vector, from where they end. */
void hand_vector(struct hand *h, const uint8_t *vector);

#endif
