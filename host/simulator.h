/* An event-driven two-pass simulator with a time wheel (document 002), and a reading of card bytes of its own. It shares nothing with the library. */
#ifndef SIMULATOR_H
#define SIMULATOR_H

#include <stddef.h>
#include <stdint.h>

enum { SIM_NETS = 256, SIM_PINS = 8, SIM_TIMES = 64, SIM_OPEN = 65535 };

struct sim_net {
    int kind; /* 1 input, 2 constant, 3 gate */
    int type; /* a gate's type, a constant's value */
    int pins;
    int pin[SIM_PINS];
};

struct sim {
    int nets, inputs, depth, pairs; /* pairs: of a gate and a time that a chain of so many gates joins to a source */
    struct sim_net net[SIM_NETS];
    int fanout[SIM_NETS][SIM_NETS], fanouts[SIM_NETS];
    int level[SIM_NETS];
    /* the state, and the last value that was scheduled for each net */
    int value[SIM_NETS], last[SIM_NETS];
    /* the last vector: values from before, the values at each time as a word, and the changes */
    int before[SIM_NETS];
    uint64_t word[SIM_NETS];
    int changes[SIM_NETS];
    long events; /* how many events were taken from the wheel since the card was read */
    unsigned long turn, mark[SIM_NETS]; /* a net is marked if its mark is the present turn of the wheel */
};

/* What load answers for these bytes; 0: they are a card, and `s` has it. */
int sim_load(struct sim *s, const uint8_t *bytes, size_t length);

/* Every net at its settled value. */
void sim_rest(struct sim *s, const uint8_t *vector);

/* The inputs move; the wheel turns until no event is left. */
void sim_vector(struct sim *s, const uint8_t *vector);

/* 0 no change, 1 one, 2 two or more with equal ends, 3 three or more with unequal ends. */
int sim_flag(const struct sim *s, int net);

#endif
