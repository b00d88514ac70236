/* The two-pass algorithm of document 002: take all events of the present time from the wheel, change the nets, collect the gates that they feed; then evaluate
 * each of these once, and schedule what differs from the last value scheduled. Every delay is one unit, so the wheel has two slots. */
#include "simulator.h"

#include <string.h>

/* Reading */

static int length_fits(unsigned kind, unsigned length)
{
    switch (kind) {
    case 1:
    case 4:
        return length == 0;
    case 2:
        return length == 1;
    case 3:
        return length >= 3 && length <= 17 && length % 2 == 1;
    default:
        return 0;
    }
}

static int body_fits(unsigned kind, unsigned length, const uint8_t *body)
{
    if (kind == 2)
        return body[0] <= 1;
    if (kind == 3) {
        unsigned pins = (length - 1) / 2;
        if (body[0] <= 1)
            return pins == 1;
        return body[0] <= 7 && pins >= 2;
    }
    return 1;
}

static void put_net(struct sim *s, unsigned kind, unsigned length, const uint8_t *body)
{
    struct sim_net *n = &s->net[s->nets++];
    memset(n, 0, sizeof *n);
    n->kind = (int)kind;
    if (kind == 1)
        s->inputs++;
    else
        n->type = body[0];
    if (kind == 3) {
        n->pins = (int)(length - 1) / 2;
        for (int p = 0; p < n->pins; p++)
            n->pin[p] = body[1 + 2 * p] + 256 * body[2 + 2 * p];
    }
}

/* Levels from the sources up, a sweep for each level; a gate on a loop, or above one, never gets one. */
static int find_levels(struct sim *s)
{
    int left = 0;
    for (int n = 0; n < s->nets; n++) {
        s->level[n] = s->net[n].kind == 3 ? -1 : 0;
        left += s->level[n] < 0;
    }
    s->depth = 0;
    while (left > 0) {
        int found[SIM_NETS], some = 0;
        for (int n = 0; n < s->nets; n++) {
            found[n] = 0;
            if (s->level[n] >= 0)
                continue;
            int highest = 0;
            for (int p = 0; p < s->net[n].pins && highest >= 0; p++) {
                int from = s->net[n].pin[p];
                int at = from == SIM_OPEN ? 0 : s->level[from];
                highest = at < 0 ? -1 : at > highest ? at : highest;
            }
            if (highest >= 0)
                found[n] = highest + 1;
        }
        for (int n = 0; n < s->nets; n++)
            if (found[n]) {
                s->level[n] = found[n];
                if (found[n] > s->depth)
                    s->depth = found[n];
                some++;
            }
        if (!some)
            return 0;
        left -= some;
    }
    return 1;
}

/* The pairs: walk forward, time by time, from the sources along the fanouts. */
static int find_pairs(struct sim *s)
{
    int now[SIM_NETS], next[SIM_NETS], pairs = 0;
    for (int n = 0; n < s->nets; n++)
        now[n] = s->net[n].kind != 3;
    for (int t = 1; t <= s->depth; t++) {
        for (int n = 0; n < s->nets; n++) {
            next[n] = 0;
            for (int p = 0; p < s->net[n].pins; p++) {
                int from = s->net[n].pin[p];
                next[n] |= from == SIM_OPEN ? t == 1 : now[from];
            }
            pairs += next[n];
        }
        memcpy(now, next, sizeof now);
    }
    return pairs;
}

int sim_load(struct sim *s, const uint8_t *bytes, size_t length)
{
    size_t at = 0;
    memset(s, 0, sizeof *s);
    for (;;) {
        if (length - at < 4)
            return 1;
        unsigned size = bytes[at] + 256u * bytes[at + 1], kind = bytes[at + 2] + 256u * bytes[at + 3];
        if (!length_fits(kind, size))
            return 2;
        at += 4;
        if (length - at < size)
            return 1;
        if (!body_fits(kind, size, bytes + at))
            return 2;
        if (kind == 4)
            break;
        if (s->nets == SIM_NETS)
            return 3;
        put_net(s, kind, size, bytes + at);
        at += size;
    }
    if (at != length)
        return 8;
    if (s->inputs == 0)
        return 9;
    for (int n = 0; n < s->nets; n++)
        for (int p = 0; p < s->net[n].pins; p++)
            if (s->net[n].pin[p] != SIM_OPEN && s->net[n].pin[p] >= s->nets)
                return 4;
    if (!find_levels(s))
        return 5;
    if (s->depth > 63)
        return 6;
    s->pairs = find_pairs(s);
    if (s->pairs > 4096)
        return 7;
    for (int n = 0; n < s->nets; n++)
        for (int p = 0; p < s->net[n].pins; p++) {
            int from = s->net[n].pin[p], seen = from == SIM_OPEN;
            for (int q = 0; q < p; q++)
                seen |= s->net[n].pin[q] == from;
            if (!seen)
                s->fanout[from][s->fanouts[from]++] = n;
        }
    return 0;
}

/* Evaluating */

static int pin_value(const struct sim *s, int pin)
{
    return pin == SIM_OPEN ? 0 : s->value[pin];
}

/* Document 002: a pin at the controlling value c decides, c with the inversion i; else it is the other value. AND 0 0, NAND 0 1, OR 1 0, NOR 1 1. */
static int evaluate(const struct sim *s, int n)
{
    const struct sim_net *g = &s->net[n];
    int invert = g->type & 1;
    if (g->type < 2)
        return pin_value(s, g->pin[0]) ^ invert;
    if (g->type < 6) {
        int control = g->type >= 4;
        for (int p = 0; p < g->pins; p++)
            if (pin_value(s, g->pin[p]) == control)
                return control ^ invert;
        return !control ^ invert;
    }
    int odd = 0;
    for (int p = 0; p < g->pins; p++)
        odd ^= pin_value(s, g->pin[p]);
    return odd ^ invert;
}

static void keep(struct sim *s)
{
    for (int n = 0; n < s->nets; n++) {
        s->before[n] = s->value[n];
        s->word[n] = s->value[n] ? ~UINT64_C(0) : 0;
        s->changes[n] = 0;
    }
}

void sim_rest(struct sim *s, const uint8_t *vector)
{
    int input = 0;
    for (int n = 0; n < s->nets; n++)
        s->value[n] = s->net[n].kind == 1 ? vector[input++] : s->net[n].kind == 2 ? s->net[n].type : 0;
    for (int l = 1; l <= s->depth; l++)
        for (int n = 0; n < s->nets; n++)
            if (s->net[n].kind == 3 && s->level[n] == l)
                s->value[n] = evaluate(s, n);
    for (int n = 0; n < s->nets; n++)
        s->last[n] = s->value[n];
    keep(s);
}

void sim_vector(struct sim *s, const uint8_t *vector)
{
    struct {
        int net, value;
    } slot[2][SIM_NETS];
    int count[2] = {0, 0}, input = 0;
    keep(s);
    for (int n = 0; n < s->nets; n++)
        if (s->net[n].kind == 1) {
            if (vector[input] != s->last[n]) {
                slot[0][count[0]].net = n;
                slot[0][count[0]++].value = vector[input];
                s->last[n] = vector[input];
            }
            input++;
        }
    for (int t = 0; count[t & 1] > 0; t++) {
        int here = t & 1, there = !here, active[SIM_NETS], actives = 0;
        s->turn++;
        for (int e = 0; e < count[here]; e++) {
            int n = slot[here][e].net, v = slot[here][e].value;
            s->events++;
            if (s->value[n] == v)
                continue;
            s->value[n] = v;
            s->changes[n]++;
            if (t < SIM_TIMES) {
                uint64_t from = ~UINT64_C(0) << t;
                s->word[n] = v ? s->word[n] | from : s->word[n] & ~from;
            }
            for (int f = 0; f < s->fanouts[n]; f++)
                if (s->mark[s->fanout[n][f]] != s->turn) {
                    s->mark[s->fanout[n][f]] = s->turn;
                    active[actives++] = s->fanout[n][f];
                }
        }
        count[here] = 0;
        for (int a = 0; a < actives; a++) {
            int n = active[a], v = evaluate(s, n);
            if (v != s->last[n]) {
                slot[there][count[there]].net = n;
                slot[there][count[there]++].value = v;
                s->last[n] = v;
            }
        }
    }
}

int sim_flag(const struct sim *s, int net)
{
    if (s->changes[net] < 2)
        return s->changes[net];
    return s->before[net] == s->value[net] ? 2 : 3;
}
