#include "steps_by_hand.h"

static void make_list(struct hand_steps *st, const struct hand *h)
{
    int k = 0;
    for (int g = 0; g < h->gates; g++)
        for (uint64_t left = st->set[h->gate[g].net]; left; left &= left - 1) {
            st->gate[k] = (uint8_t)g;
            st->time[k++] = (uint8_t)__builtin_ctzll(left);
        }
    st->steps = k;
}

void hand_steps_load(struct hand_steps *st, const struct hand *h)
{
    for (int n = 0; n <= SIM_NETS; n++)
        st->set[n] = 1;
    st->variable[SIM_NETS] = 0;
    for (int g = 0; g < h->gates; g++) {
        uint64_t set = 0;
        for (int p = 0; p < h->gate[g].pins; p++)
            set |= st->set[h->gate[g].pin[p]];
        st->set[h->gate[g].net] = set << 1;
    }
    make_list(st, h);
}

void hand_steps_look_up(struct hand_steps *st, const struct hand *h)
{
    for (int k = 0; k < st->steps; k++)
        for (int p = 0; p < h->gate[st->gate[k]].pins; p++) {
            uint16_t from = h->gate[st->gate[k]].pin[p];
            st->read[k][p] = (struct hand_read){from, (uint8_t)hand_largest_below(st->set[from], st->time[k])};
        }
}

static void start(struct hand_steps *st, const struct hand *h, const uint8_t *before, const uint8_t *vector)
{
    for (int n = 0; n < h->nets; n++)
        st->variable[n] = before[n] ? ~UINT64_C(0) : 0;
    for (int g = 0; FAULT(10) && g < h->gates; g++)
        st->variable[h->gate[g].net] = 0;
    for (int i = 0; i < h->inputs; i++)
        st->variable[h->input[i]] = vector[i] ? ~UINT64_C(0) : 0;
}

static inline void put(struct hand_steps *st, int n, int time, uint64_t value)
{
    st->variable[n] = (st->variable[n] & ~(UINT64_C(1) << time)) | value << time;
}

static void fill(struct hand_steps *st, const struct hand *h)
{
    for (int n = 0; n < h->nets; n++) {
        uint64_t set = st->set[n];
        if (FAULT(9) && set)
            set &= ~(UINT64_C(1) << (63 - __builtin_clzll(set)));
        uint64_t known = set | 1, v = st->variable[n] & known;
        for (int s = 1; s < 64; s += s) {
            v |= (v << s) & ~known;
            known |= known << s;
        }
        st->word[n] = v;
    }
}

/* Where a step at a time from 1 to 63 reads a pin. */
static inline int read_at(const struct hand_steps *st, int pin, int time)
{
    if (FAULT(6)) /* not above the time */
        return 63 - __builtin_clzll((st->set[pin] | 1) & ~UINT64_C(0) >> (63 - time));
    return hand_largest_below(st->set[pin], time);
}

static void do_step(struct hand_steps *st, const struct hand *h, int k)
{
    const struct hand_gate *g = &h->gate[st->gate[k]];
    const uint16_t *pin = g->pin;
    int time = st->time[k], type = g->type, pins = g->pins;
    uint64_t known = st->variable[pin[0]] >> read_at(st, pin[0], time) & 1;
    for (int p = 1; p < pins; p++)
        known = hand_with_pin(type, known, st->variable[pin[p]] >> read_at(st, pin[p], time) & 1);
    put(st, g->net, time, known ^ (uint64_t)(type & 1));
}

int hand_steps_vector(struct hand_steps *st, const struct hand *h, const uint8_t *before, const uint8_t *vector)
{
    int done = 0;
    start(st, h, before, vector);
    for (int k = 0; k < st->steps; k++, done++) {
        int last = k == st->steps - 1;
        if (FAULT(7) && last && k)
            do_step(st, h, k - 1);
        else if (!(FAULT(8) && last))
            do_step(st, h, k);
        if (FAULT(11) && last) {
            do_step(st, h, k);
            done++;
        }
    }
    fill(st, h);
    return done;
}

void hand_steps_ready(struct hand_steps *st, const struct hand *h, const uint8_t *before, const uint8_t *vector)
{
    start(st, h, before, vector);
    for (int k = 0; k < st->steps; k++) {
        const struct hand_gate *g = &h->gate[st->gate[k]];
        int type = g->type, pins = g->pins;
        const struct hand_read *read = st->read[k];
        uint64_t known = st->variable[read[0].net] >> read[0].time & 1;
        for (int p = 1; p < pins; p++)
            known = hand_with_pin(type, known, st->variable[read[p].net] >> read[p].time & 1);
        put(st, g->net, st->time[k], known ^ (uint64_t)(type & 1));
    }
    fill(st, h);
}
