/* Bits, one a byte: packing highest bit first, the cyclic check, placing by the mask, and the polar transform. */
#ifndef PLAIN_MESSAGE_H
#define PLAIN_MESSAGE_H

#include <string.h>

#include "code.h"

static void unpack(const uint8_t *bytes, size_t count, uint8_t *bits)
{
    for (size_t i = 0; i < count; i++)
        bits[i] = bytes[i / 8] >> (7 - i % 8) & 1;
}

static void pack(const uint8_t *bits, size_t count, uint8_t *bytes)
{
    memset(bytes, 0, bytes_for(count));
    for (size_t i = 0; i < count; i++)
        bytes[i / 8] |= (uint8_t)(bits[i] << (7 - i % 8));
}

/* The check of k payload bits, as a number of r bits. */
static uint32_t check(const struct code *code, const uint8_t *payload)
{
    uint32_t rest = code->start;
    for (size_t i = 0; i < code->k; i++) {
        uint32_t out = (rest >> (code->r - 1) ^ payload[i]) & 1;
        rest = rest << 1 ^ (-out & code->polynomial);
    }
    return rest & ((1u << code->r) - 1);
}

static void put_check(const struct code *code, uint8_t *message)
{
    uint32_t value = check(code, message);
    for (unsigned j = 0; j < code->r; j++)
        message[code->k + j] = value >> (code->r - 1 - j) & 1;
}

static int passes(const struct code *code, const uint8_t *message)
{
    uint32_t value = 0;
    for (unsigned j = 0; j < code->r; j++)
        value = value << 1 | message[code->k + j];
    return value == check(code, message);
}

/* Puts the message's bits at the information indices, zeros elsewhere; without a branch, so that no mask is mispredicted. */
static void place(const struct code *code, const uint8_t *message, uint8_t *u)
{
    size_t c = 0;
    for (size_t i = 0; i < code->size; i++) {
        uint8_t information = mask_bit(code->mask, i);
        u[i] = message[c] & -information;
        c += information;
    }
}

/* Takes the bits at the information indices out; the last one written may be a frozen one, past the message's end. */
static void take(const struct code *code, const uint8_t *u, uint8_t *message)
{
    size_t c = 0;
    for (size_t i = 0; i < code->size; i++) {
        message[c] = u[i];
        c += mask_bit(code->mask, i);
    }
}

/* Of two halves of h bits, puts their exclusive-or in the place of the first. */
static void combine(uint8_t *bits, size_t h)
{
    for (size_t j = 0; j < h; j++)
        bits[j] ^= bits[h + j];
}

static void transform(uint8_t *bits, size_t size)
{
    for (size_t h = 1; h < size; h *= 2)
        for (size_t base = 0; base < size; base += 2 * h)
            combine(bits + base, h);
}

#endif
