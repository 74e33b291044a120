/* Code descriptions, and the number that a call gives back. */
#ifndef PLAIN_CODE_H
#define PLAIN_CODE_H

#include <stddef.h>
#include <stdint.h>

/* The largest n. */
#define LARGEST_N 12

enum { SIZE = 1 << LARGEST_N, HEADER = 8 };

/* The kinds of descriptions; the second has a start, two bytes, before its mask. */
enum { WITHOUT_START = 1, WITH_START = 4 };

/* What a description says. */
struct code {
    unsigned n, r;
    uint32_t polynomial, start;
    size_t size, k;
    const uint8_t *mask;
};

static uint64_t answer(unsigned refusal, size_t value, size_t steps)
{
    return refusal | (uint64_t)value << 8 | (uint64_t)steps << 32;
}

static unsigned word(const uint8_t *bytes)
{
    return bytes[0] | (unsigned)bytes[1] << 8;
}

static uint8_t mask_bit(const uint8_t *mask, size_t i)
{
    return mask[i / 8] >> i % 8 & 1;
}

static size_t count_ones(const uint8_t *bytes, size_t len)
{
    size_t ones = 0;
    for (size_t i = 0; i < len; i++)
        ones += (size_t)__builtin_popcount(bytes[i]);
    return ones;
}

static size_t bytes_for(size_t bits)
{
    return (bits + 7) / 8;
}

/* Reads a description; gives the refusal, or 0. */
static unsigned read_description(const uint8_t *d, size_t len, struct code *code)
{
    if (len < HEADER)
        return 1;
    unsigned kind = word(d + 2);
    size_t header = kind == WITH_START ? HEADER + 2 : HEADER;
    if (len < header)
        return 1;
    if (word(d) != len)
        return 2;
    if (kind != WITHOUT_START && kind != WITH_START)
        return 3;
    code->n = d[4];
    if (code->n < 3 || code->n > LARGEST_N)
        return 4;
    code->size = (size_t)1 << code->n;
    if (len != header + code->size / 8)
        return 5;
    code->r = d[5];
    if (code->r < 1 || code->r > 16)
        return 6;
    code->polynomial = word(d + 6);
    if (!(code->polynomial & 1) || code->polynomial >> code->r)
        return 7;
    code->start = kind == WITH_START ? word(d + HEADER) : 0;
    if (code->start >> code->r)
        return 25;
    code->mask = d + header;
    size_t ones = count_ones(code->mask, code->size / 8);
    if (ones < code->r + 1)
        return 8;
    code->k = ones - code->r;
    return 0;
}

#endif
