/* One decoding pass by successive cancellation: a recursion on int32_t values. */
#ifndef PLAIN_PASS_H
#define PLAIN_PASS_H

#include <stdlib.h>
#include <string.h>

#include "message.h"

/* A pass under way: bits below q are forced. Below the root, the values of a node of 2^s indices stand in work from 2^s on. Bit 0 of a
 * rule marks an information index, bit 1 the opposite decision. */
struct pass {
    int32_t work[SIZE], leaves[SIZE];
    uint8_t rules[SIZE], bits[SIZE], sums[SIZE];
    size_t q, steps;
};

static int32_t f(int32_t a, int32_t b)
{
    int32_t x = abs(a), y = abs(b), least = x < y ? x : y;
    return (a ^ b) < 0 ? -least : least;
}

static int32_t g(int32_t a, int32_t b, uint8_t sum)
{
    return sum ? b - a : b + a;
}

static void left_values(int32_t *restrict to, const int32_t *restrict v, size_t h)
{
    for (size_t j = 0; j < h; j++)
        to[j] = f(v[j], v[h + j]);
}

static void right_values(int32_t *restrict to, const int32_t *restrict v, const uint8_t *restrict sums, size_t h)
{
    for (size_t j = 0; j < h; j++)
        to[j] = g(v[j], v[h + j], sums[j]);
}

static void leaf(struct pass *p, size_t i)
{
    int32_t value = p->work[1];
    uint8_t bit = p->rules[i] & 1 & ((value < 0) ^ p->rules[i] >> 1);
    p->bits[i] = p->sums[i] = bit;
    p->leaves[i] = value;
}

static void rebuild(struct pass *p, size_t base, size_t size)
{
    memcpy(p->sums + base, p->bits + base, size);
    transform(p->sums + base, size);
}

static void node(struct pass *p, size_t base, size_t size)
{
    if (base + size <= p->q) {
        rebuild(p, base, size);
        return;
    }
    if (size == 1) {
        leaf(p, base);
        return;
    }
    size_t h = size / 2;
    if (base + h > p->q) {
        left_values(p->work + h, p->work + size, h);
        p->steps += h;
    }
    node(p, base, h);
    right_values(p->work + h, p->work + size, p->sums + base, h);
    p->steps += h;
    node(p, base + h, h);
    combine(p->sums + base, h);
}

/* The same at the root, whose values are the channel bytes. */
static void run(struct pass *p, const int8_t *channel, size_t size, size_t q)
{
    p->q = q;
    if (size <= q)
        return;
    size_t h = size / 2;
    if (h > q) {
        for (size_t j = 0; j < h; j++)
            p->work[h + j] = f(channel[j], channel[h + j]);
        p->steps += h;
    }
    node(p, 0, h);
    for (size_t j = 0; j < h; j++)
        p->work[h + j] = g(channel[j], channel[h + j], p->sums[j]);
    p->steps += h;
    node(p, h, h);
}

static void start(struct pass *p, const struct code *code)
{
    for (size_t i = 0; i < code->size; i++)
        p->rules[i] = mask_bit(code->mask, i);
    p->steps = 0;
}

#endif
