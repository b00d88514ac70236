#include "random_cards.h"

#include <string.h>

/* splitmix64 */
uint64_t random_next(struct random_source *r)
{
    uint64_t z = (r->state += UINT64_C(0x9e3779b97f4a7c15));
    z = (z ^ (z >> 30)) * UINT64_C(0xbf58476d1ce4e5b9);
    z = (z ^ (z >> 27)) * UINT64_C(0x94d049bb133111eb);
    return z ^ (z >> 31);
}

unsigned random_below(struct random_source *r, unsigned below)
{
    return (unsigned)(random_next(r) % below);
}

static int chance(struct random_source *r, unsigned percent)
{
    return random_below(r, 100) < percent;
}

struct writer {
    uint8_t *bytes;
    size_t length;
    int nets;
};

static void put_two(struct writer *w, unsigned x)
{
    w->bytes[w->length++] = (uint8_t)(x & 255);
    w->bytes[w->length++] = (uint8_t)(x >> 8);
}

static void put_input(struct writer *w)
{
    put_two(w, 0);
    put_two(w, 1);
    w->nets++;
}

static void put_constant(struct writer *w, unsigned value)
{
    put_two(w, 1);
    put_two(w, 2);
    w->bytes[w->length++] = (uint8_t)value;
    w->nets++;
}

static void put_gate(struct writer *w, unsigned type, const unsigned *pin, unsigned pins)
{
    put_two(w, 1 + 2 * pins);
    put_two(w, 3);
    w->bytes[w->length++] = (uint8_t)type;
    for (unsigned p = 0; p < pins; p++)
        put_two(w, pin[p]);
    w->nets++;
}

static void put_end(struct writer *w)
{
    put_two(w, 0);
    put_two(w, 4);
}

size_t ladder_card(uint8_t bytes[CARD_ROOM], const int *rungs, int ladders, int bufs, int nets)
{
    struct writer w = {bytes, 0, 0};
    unsigned a[2] = {0, 0};
    put_input(&w);
    for (int l = 0; l < ladders; l++)
        for (int k = 0; k < rungs[l]; k++) {
            a[1] = (unsigned)w.nets - 1;
            put_gate(&w, k == 0 ? 0 : 2, a, k == 0 ? 1 : 2);
        }
    for (int b = 0; b < bufs; b++)
        put_gate(&w, 0, a, 1);
    while (w.nets < nets)
        put_input(&w);
    put_end(&w);
    return w.length;
}

/* A card whose net i has the place order[i] in the way the signals run: pins name nets that come earlier there. */
static size_t shaped_card(struct random_source *r, uint8_t *bytes, int nets, unsigned inputs, unsigned reach, unsigned widest, int shuffled)
{
    struct writer w = {bytes, 0, 0};
    int order[256], net_at[256];
    for (int i = 0; i < nets; i++)
        net_at[i] = i;
    for (int i = nets - 1; shuffled && i > 1; i--) {
        int j = 1 + (int)random_below(r, (unsigned)i), x = net_at[i];
        net_at[i] = net_at[j];
        net_at[j] = x;
    }
    for (int i = 0; i < nets; i++)
        order[net_at[i]] = i;
    for (int n = 0; n < nets; n++) {
        unsigned i = (unsigned)order[n], pin[8];
        if (i == 0 || chance(r, inputs)) {
            put_input(&w);
            continue;
        }
        if (chance(r, 4)) {
            put_constant(&w, random_below(r, 2));
            continue;
        }
        unsigned type = random_below(r, 8), pins = type < 2 ? 1 : 2 + random_below(r, widest - 1);
        unsigned low = i > reach ? i - reach : 0;
        for (unsigned p = 0; p < pins; p++) {
            pin[p] = (unsigned)net_at[low + random_below(r, i - low)];
            if (chance(r, 3))
                pin[p] = 65535;
            if (p > 0 && chance(r, 5))
                pin[p] = pin[p - 1];
        }
        put_gate(&w, type, pin, pins);
    }
    put_end(&w);
    return w.length;
}

size_t random_card(struct random_source *r, uint8_t bytes[CARD_ROOM])
{
    static const int largest[3] = {63, 63, 10};
    int rungs[3], last; /* the last argument, drawn first: a seed gives the same cards with every compiler */
    unsigned near;
    switch (random_below(r, 9)) {
    case 8: /* a net too many, or no input */
        if (chance(r, 50))
            return ladder_card(bytes, largest, 1, 0, 257);
        bytes[2] = 4;
        return bytes[0] = bytes[1] = bytes[3] = 0, 4;
    case 0: /* small */
        last = chance(r, 40);
        return shaped_card(r, bytes, 2 + (int)random_below(r, 6), 30, 300, 3, last);
    case 1: /* wide: many inputs, few levels */
        return shaped_card(r, bytes, 20 + (int)random_below(r, 60), 60, 300, 8, 0);
    case 2: /* deep: each pin a near neighbour */
        return shaped_card(r, bytes, 40 + (int)random_below(r, 30), 10, 2, 2, 0);
    case 3: /* deeper, with forward pins; some are too deep */
        return shaped_card(r, bytes, 60 + (int)random_below(r, 40), 12, 2, 3, 1);
    case 4: /* ladders */
        for (int l = 0; l < 3; l++)
            rungs[l] = 1 + (int)random_below(r, 64);
        return ladder_card(bytes, rungs, 3, (int)random_below(r, 5), 0);
    case 5: /* as many steps as there may be, give or take one */
        last = chance(r, 50);
        return ladder_card(bytes, largest, 3, 8 + (int)random_below(r, 3), last ? 256 : 0);
    case 6: /* as many nets as there may be */
        last = chance(r, 50);
        return shaped_card(r, bytes, 256, 25, 12 + random_below(r, 200), 8, last);
    default: /* middling */
        last = chance(r, 50);
        near = 6 + random_below(r, 30);
        return shaped_card(r, bytes, 10 + (int)random_below(r, 100), 20, near, 4, last);
    }
}

size_t random_damage(struct random_source *r, uint8_t bytes[CARD_ROOM], size_t length)
{
    size_t at = random_below(r, (unsigned)length);
    switch (random_below(r, 6)) {
    case 0: /* cut short */
        return at;
    case 1: /* another byte */
        bytes[at] = (uint8_t)random_next(r);
        return length;
    case 2: /* another bit */
        bytes[at] ^= (uint8_t)(1u << random_below(r, 8));
        return length;
    case 3: /* bytes after the end */
        bytes[length] = (uint8_t)random_below(r, 3);
        return length + 1;
    case 4: /* a byte too few in the middle */
        memmove(bytes + at, bytes + at + 1, length - at - 1);
        return length - 1;
    default: /* some bytes of anything */
        for (int k = 0; k < 12; k++) {
            uint8_t byte = (uint8_t)random_below(r, 8);
            bytes[random_below(r, (unsigned)length)] = byte;
        }
        return length;
    }
}
