#include "by_hand.h"

#include <string.h>

void hand_load(struct hand *h, const struct sim *s)
{
    memset(h, 0, sizeof *h);
    h->nets = s->nets;
    for (int n = 0; n < s->nets; n++)
        if (s->net[n].kind == 1)
            h->input[h->inputs++] = n;
    for (int l = 1; l <= s->depth; l++)
        for (int n = 0; n < s->nets; n++) {
            const struct sim_net *net = &s->net[n];
            if (net->kind != 3 || s->level[n] != l)
                continue;
            struct hand_gate *g = &h->gate[h->gates++];
            g->net = (uint16_t)n;
            g->type = (uint8_t)net->type;
            g->pins = (uint8_t)net->pins;
            for (int p = 0; p < net->pins; p++)
                g->pin[p] = (uint16_t)(net->pin[p] == SIM_OPEN ? SIM_NETS : net->pin[p]);
        }
}

void hand_rest(struct hand *h, const struct sim *s, const uint8_t *vector)
{
    struct sim settled = *s;
    sim_rest(&settled, vector);
    for (int n = 0; n < h->nets; n++) {
        h->word[n] = settled.word[n];
        h->before[n] = (uint8_t)settled.before[n];
    }
}

void hand_ends(struct hand *h, uint8_t *before)
{
    for (int n = 0; n < h->nets; n++)
        before[n] = (uint8_t)(h->word[n] >> 63);
}

/* What the pins of a gate come to: one jump by operation and number of pins, so that nothing else has to be foreseen. */
static inline uint64_t pins_word(const uint64_t *word, const struct hand_gate *g)
{
    const uint16_t *p = g->pin;
#define W(k) word[p[k]]
#define PINS(kind, op)                                                              \
    case kind + 2:                                                                  \
        return W(0) op W(1);                                                        \
    case kind + 3:                                                                  \
        return W(0) op W(1) op W(2);                                                \
    case kind + 4:                                                                  \
        return W(0) op W(1) op W(2) op W(3);                                        \
    case kind + 5:                                                                  \
        return W(0) op W(1) op W(2) op W(3) op W(4);                                \
    case kind + 6:                                                                  \
        return W(0) op W(1) op W(2) op W(3) op W(4) op W(5);                        \
    case kind + 7:                                                                  \
        return W(0) op W(1) op W(2) op W(3) op W(4) op W(5) op W(6);                \
    case kind + 8:                                                                  \
        return W(0) op W(1) op W(2) op W(3) op W(4) op W(5) op W(6) op W(7);
    switch ((g->type >> 1) * 8 + g->pins) {
        PINS(8, &)
        PINS(16, |)
        PINS(24, ^)
    default:
        return W(0);
    }
#undef PINS
#undef W
}

void hand_vector(struct hand *h, const uint8_t *vector)
{
    for (int i = 0; i < h->inputs; i++)
        h->word[h->input[i]] = vector[i] ? ~UINT64_C(0) : 0;
    for (int k = 0; k < h->gates; k++) {
        const struct hand_gate *g = &h->gate[k];
        uint64_t before = h->word[g->net] >> 63, turned = -(uint64_t)(g->type & 1);
        if (FAULT(1) && g->type == 3)
            turned = 0;
        uint64_t moved = (pins_word(h->word, g) ^ turned) << 1 | before;
        if (FAULT(3))
            moved &= ~UINT64_C(1);
        if (FAULT(4))
            moved = moved << 1 | before;
        if (FAULT(5))
            moved = (moved & 63) | (moved >> 5 & 1 ? ~UINT64_C(63) : 0);
        h->word[g->net] = moved;
    }
}
